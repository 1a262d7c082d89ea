//! Drafts with calls that can fail, whose rules hold.
use super::draft::{Draft, Method, Step};
use super::honest::{honest, small, small_with_empty, then, wide};
use crate::random::Random;
use crate::tree::Tree;

/// The most leaves of a condition.
const LEAVES: usize = 31;

/// A method with body that others may call, and whether it can fail. Its conditions
/// hold every word.
#[derive(Clone, Copy)]
pub struct Open {
    pub method: usize,
    pub fails: bool,
}

/// What a step does. A primitive is the step's own, with its trace and, if it can
/// fail, its failed trace.
enum Act {
    Event(u8),
    Primitive(Tree, Option<Tree>),
    Open(Open),
    Pass,
}

/// A step between points of one method. Each leads to a later point.
struct Arrow {
    from: usize,
    to: usize,
    failed: usize,
    act: Act,
}

/// A way from a point of a method to a later one, and what is raised on it.
pub struct Way {
    pub from: usize,
    pub to: usize,
    pub raised: Option<Tree>,
}

impl Way {
    /// What is due where the way begins, given what is due where it leads.
    pub fn due(&self, found: &[Tree]) -> Tree {
        let due = found[self.to].clone();
        match &self.raised {
            Some(raised) => raised.clone().join(due),
            None => due,
        }
    }
}

/// A draft whose rules hold, in which no call can fail, or some can.
pub fn either(random: &mut Random) -> Draft {
    match random.below(2) {
        0 => honest(random),
        _ => failing(random),
    }
}

/// A draft whose rules hold, with methods and calls of one outcome and of two.
pub fn failing(random: &mut Random) -> Draft {
    let mut draft = Draft::default();
    let bodies = 1 + random.below(3);
    draft.methods = vec![Method::default(); bodies];
    let sorts: Vec<(bool, bool)> =
        (0..bodies).map(|_| (random.once_in(3), !random.once_in(3))).collect();
    let open = |method: usize| Open { method, fails: sorts[method].1 };
    let callable: Vec<Open> = (0..bodies).filter(|&m| sorts[m].0).map(open).collect();
    for (number, &(open, fails)) in sorts.iter().enumerate() {
        if open {
            loose(&mut draft, random, Open { method: number, fails }, &callable);
        } else {
            branching(&mut draft, random, number, fails, &callable);
        }
    }
    draft
}

/// A method whose conditions hold every word, as those of its points, with steps at
/// random.
pub fn loose(draft: &mut Draft, random: &mut Random, this: Open, callable: &[Open]) {
    let any = Tree::any();
    let count = 1 + random.below(3);
    let start = draft.points.len();
    for _ in 0..count {
        draft.point(&any, &any, &any);
    }
    let name = draft.condition(&any);
    let point = |random: &mut Random| start + random.below(count);
    let more = this.fails as usize;
    let points: Vec<usize> = (0..2 + more).map(|_| point(random)).collect();
    draft.methods[this.method] = Method::new(&vec![name; 3 + 2 * more], &points);
    for _ in 0..random.below(4) {
        let [from, to, failed] = [0; 3].map(|_| point(random));
        let step = match random.below(5) {
            0 => Step::Event(from, to, random.below(4) as u8),
            1 => Step::Pass(from, to),
            2 => {
                let traces = [0; 2].map(|_| little(random));
                let [trace, failed_trace] = traces.map(|tree| draft.condition(&tree));
                let conditions = [name, trace, name, failed_trace, name];
                draft.methods.push(Method::new(&conditions, &[]));
                Step::Failing(from, to, failed, draft.methods.len() - 1)
            }
            _ => call(from, to, failed, callable[random.below(callable.len())]),
        };
        draft.steps.push(step);
    }
}

pub fn call(from: usize, to: usize, failed: usize, called: Open) -> Step {
    match called.fails {
        true => Step::Failing(from, to, failed, called.method),
        false => Step::Call(from, to, called.method),
    }
}

/// The steps of a method with some points: from each point but the last to a later
/// one, and some more.
fn arrows(random: &mut Random, count: usize, callable: &[Open]) -> Vec<Arrow> {
    let more = if count > 1 { random.below(2) } else { 0 };
    let mut from: Vec<usize> = (0..count - 1).collect();
    from.extend((0..more).map(|_| random.below(count - 1)));
    let later = |from: usize, random: &mut Random| from + 1 + random.below(count - 1 - from);
    let arrow = |from: usize| {
        let next = if random.once_in(4) { later(from, random) } else { from + 1 };
        Arrow { from, to: next, failed: later(from, random), act: act(random, callable) }
    };
    from.into_iter().map(arrow).collect()
}

/// A small condition. Those of many leaves are rare, since each has part in many rules.
pub fn little(random: &mut Random) -> Tree {
    let tree = small(random);
    if tree.leaves() < 6 || random.once_in(6) {
        tree
    } else {
        Tree::event(0)
    }
}

fn act(random: &mut Random, callable: &[Open]) -> Act {
    match random.below(8) {
        0 | 1 => Act::Event(if random.once_in(5) { 31 } else { random.below(3) as u8 }),
        2 => Act::Primitive(little(random), None),
        3..=5 => Act::Primitive(little(random), Some(little(random))),
        6 if !callable.is_empty() => Act::Open(callable[random.below(callable.len())]),
        _ => Act::Pass,
    }
}

impl Arrow {
    /// The ways of the step, one for each of its outcomes.
    fn ways(&self) -> Vec<Way> {
        let any = || Some(Tree::any());
        let way = |to, raised| Way { from: self.from, to, raised };
        match &self.act {
            Act::Event(event) => vec![way(self.to, Some(Tree::event(*event)))],
            Act::Pass => vec![way(self.to, None)],
            Act::Open(Open { fails: true, .. }) => {
                vec![way(self.to, any()), way(self.failed, any())]
            }
            Act::Open(_) => vec![way(self.to, any())],
            Act::Primitive(trace, failed) => {
                let failed = failed.iter().map(|trace| way(self.failed, Some(trace.clone())));
                [way(self.to, Some(trace.clone()))].into_iter().chain(failed).collect()
            }
        }
    }
}

/// The words of any of some trees, and more; some condition if there are none. One of
/// more leaves than the most holds every word.
pub fn union(random: &mut Random, trees: Vec<Tree>, most: usize) -> Tree {
    let tree = trees.into_iter().reduce(Tree::either);
    let tree = tree.unwrap_or_else(|| little(random));
    let tree = wide(random, tree);
    if tree.leaves() <= most {
        tree
    } else {
        Tree::any()
    }
}

/// The conditions of the points from the first on: what holds at the first, and what
/// is raised on each way to the others.
pub fn onward(
    random: &mut Random,
    count: usize,
    ways: &[Way],
    first: Tree,
    most: usize,
) -> Vec<Tree> {
    let mut found = vec![union(random, vec![first], most)];
    for point in 1..count {
        let here = ways.iter().filter(|way| way.to == point);
        let trees = here.map(|way| then(&found[way.from], &way.raised)).collect();
        found.push(union(random, trees, most));
    }
    found
}

/// The conditions of the points from the last back: what holds at the exits, and what
/// is raised on each way from the others.
fn back(random: &mut Random, count: usize, ways: &[Way], exits: &[(usize, Tree)]) -> Vec<Tree> {
    let mut found = vec![Tree::Empty; count];
    for point in (0..count).rev() {
        let here = exits.iter().filter(|(exit, _)| *exit == point);
        let mut trees: Vec<Tree> = here.map(|(_, future)| future.clone()).collect();
        trees.extend(ways.iter().filter(|way| way.from == point).map(|way| way.due(&found)));
        found[point] = union(random, trees, LEAVES);
    }
    found
}

/// A method of steps that lead onward, and whose calls may fail. Each condition of its
/// points has at least what comes there.
fn branching(
    draft: &mut Draft,
    random: &mut Random,
    number: usize,
    fails: bool,
    callable: &[Open],
) {
    let count = 1 + random.below(4);
    let arrows = arrows(random, count, callable);
    let [pre, future, failed_future] = [0; 3].map(|_| match number {
        0 => small_with_empty(random),
        _ => little(random),
    });
    let exit = if random.once_in(4) { random.below(count) } else { count - 1 };
    let mut exits = vec![(exit, future)];
    if fails {
        exits.push((random.below(count), failed_future));
    }
    let ways: Vec<Way> = arrows.iter().flat_map(Arrow::ways).collect();
    let pasts = onward(random, count, &ways, pre.clone(), LEAVES);
    let owns = onward(random, count, &ways, Tree::Empty, LEAVES);
    let dues = back(random, count, &ways, &exits);
    let start = draft.points.len();
    for i in 0..count {
        draft.point(&pasts[i], &owns[i], &dues[i]);
    }
    let mut conditions = vec![draft.condition(&pre)];
    let mut points = vec![start];
    for (exit, future) in &exits {
        let trace = wide(random, owns[*exit].clone());
        conditions.extend([draft.condition(&trace), draft.condition(future)]);
        points.push(start + exit);
    }
    draft.methods[number] = Method { conditions, points };
    for arrow in arrows {
        let pre = wide(random, pasts[arrow.from].clone());
        let [future, failed_future] =
            [arrow.to, arrow.failed].map(|to| wide(random, dues[to].clone()));
        let [from, to, failed] = [arrow.from, arrow.to, arrow.failed].map(|i| start + i);
        let step = match arrow.act {
            Act::Event(event) => Step::Event(from, to, event),
            Act::Pass => Step::Pass(from, to),
            Act::Open(called) => call(from, to, failed, called),
            Act::Primitive(trace, failed_trace) => {
                let fails = failed_trace.is_some();
                let mut conditions = [&pre, &trace, &future].map(|c| draft.condition(c)).to_vec();
                if let Some(trace) = failed_trace {
                    conditions.extend([&trace, &failed_future].map(|c| draft.condition(c)));
                }
                draft.methods.push(Method { conditions, points: vec![] });
                call(from, to, failed, Open { method: draft.methods.len() - 1, fails })
            }
        };
        draft.steps.push(step);
    }
}
