//! Drafts whose rules hold, and drafts spoilt after that.
use super::draft::{Draft, Method, Step};
use super::stopping;
use crate::random::Random;
use crate::tree::{Tree, TWO_CHANNELS};

/// What one step of a chain does.
enum Link {
    Event(u8),
    /// A call of a primitive of its own, with this trace.
    Primitive(Tree),
    /// A call of a method that asks and promises nothing.
    Open(usize),
    Pass,
}

/// A sheet with random parts and reachable pairs.
pub fn wild(random: &mut Random) -> Vec<u8> {
    let mut draft = Draft { new_edition: random.once_in(2), ..Draft::default() };
    let stops = draft.new_edition || random.once_in(20);
    let conditions = 1 + random.below(6);
    for _ in 0..conditions {
        draft.conditions.push(small(random));
    }
    let points = 1 + random.below(4);
    for _ in 0..points {
        draft.points.push([0; 3].map(|_| random.below(conditions)));
    }
    let methods = 1 + random.below(4);
    for number in 0..methods {
        let failing = random.below(2);
        let body = (number == 0 || random.once_in(2)) as usize;
        let names = (0..3 + 2 * failing).map(|_| random.below(conditions)).collect();
        let places = (0..body * (2 + failing)).map(|_| random.below(points)).collect();
        draft.methods.push(Method { conditions: names, points: places });
    }
    for _ in 0..random.below(5) {
        if stops && random.once_in(4) {
            draft.steps.push(Step::Stop(random.below(points)));
        }
        let step = random_step(random, points, methods);
        let unfit = random.once_in(20);
        let step = if unfit { step } else { fitted(step, &draft.methods, points, random) };
        draft.steps.push(step);
    }
    draft.certified()
}

/// A call of a method that can fail gets a failed target.
pub fn fitted(step: Step, methods: &[Method], points: usize, random: &mut Random) -> Step {
    match step {
        Step::Call(from, to, method) if methods[method].fails() => {
            Step::Failing(from, to, random.below(points), method)
        }
        step => step,
    }
}

pub fn random_step(random: &mut Random, points: usize, methods: usize) -> Step {
    let (from, to) = (random.below(points), random.below(points));
    match random.below(3) {
        0 => Step::Event(from, to, random.below(4) as u8),
        1 => Step::Call(from, to, random.below(methods)),
        _ => Step::Pass(from, to),
    }
}

/// A draft whose rules hold: chains of steps with conditions to fit, and
/// methods whose points hold every word.
pub fn honest(random: &mut Random) -> Draft {
    let mut draft = Draft::default();
    let bodies = 1 + random.below(3);
    draft.methods = vec![Method::default(); bodies];
    let open: Vec<bool> = (0..bodies).map(|_| random.once_in(3)).collect();
    let callable: Vec<usize> = (0..bodies).filter(|&m| open[m]).collect();
    for (number, &open) in open.iter().enumerate() {
        if open {
            loose(&mut draft, random, number, &callable);
        } else {
            let links = links(random, &callable);
            chain(&mut draft, random, number, &links);
        }
    }
    draft
}

/// One call, which may fail, with sides of many leaves: left sides are stars of a few
/// events a leaf, right sides stars whose leaves cover all events.
pub fn large(random: &mut Random) -> Draft {
    let mut draft = Draft::default();
    let [pre, past, own, trace, due] = [0; 5].map(|_| wide_star(random));
    let [a, b, c, d] = [0; 4].map(|_| covering_star(random));
    let entry = draft.point(&a, &Tree::Empty, &c);
    let p = draft.point(&past, &own, &d);
    let q = draft.point(&a, &b, &due);
    let names = [&pre, &Tree::any(), &Tree::Empty].map(|tree| draft.condition(tree));
    draft.methods.push(Method::new(&names, &[entry, entry]));
    let names = [&b, &trace, &c].map(|tree| draft.condition(tree));
    if random.once_in(2) {
        draft.methods.push(Method::new(&names, &[]));
        draft.steps.push(Step::Call(p, q, 1));
        return draft;
    }
    let [trace, due] = [0; 2].map(|_| wide_star(random));
    let failed = draft.point(&c, &a, &due);
    let more = [&trace, &d].map(|tree| draft.condition(tree));
    draft.methods.push(Method::new(&[&names[..], &more].concat(), &[]));
    draft.steps.push(Step::Failing(p, q, failed, 1));
    draft
}

/// A star of many leaves that holds every word.
pub fn covering_star(random: &mut Random) -> Tree {
    let leaf = |random: &mut Random| Tree::Leaf(random.next() & TWO_CHANNELS);
    let some = (0..random.below(30)).fold(leaf(random), |tree, _| tree.either(leaf(random)));
    some.either(Tree::Leaf(TWO_CHANNELS)).star()
}

/// A method whose conditions all hold every word, with steps at random.
fn loose(draft: &mut Draft, random: &mut Random, number: usize, callable: &[usize]) {
    let any = Tree::any();
    let count = 1 + random.below(3);
    let start = draft.points.len();
    for _ in 0..count {
        draft.point(&any, &any, &any);
    }
    let name = draft.condition(&any);
    let (entry, exit) = (start + random.below(count), start + random.below(count));
    draft.methods[number] = Method::new(&[name; 3], &[entry, exit]);
    for _ in 0..random.below(4) {
        let step = match random_step(random, count, callable.len()) {
            Step::Event(p, q, event) => Step::Event(start + p, start + q, event),
            Step::Call(p, q, m) => Step::Call(start + p, start + q, callable[m]),
            Step::Pass(p, q) => Step::Pass(start + p, start + q),
            step => step,
        };
        draft.steps.push(step);
    }
}

fn links(random: &mut Random, callable: &[usize]) -> Vec<Link> {
    let link = |random: &mut Random| match random.below(8) {
        0..=2 => Link::Event(if random.once_in(5) { 31 } else { random.below(3) as u8 }),
        3 | 4 => Link::Primitive(small(random)),
        5 if !callable.is_empty() => Link::Open(callable[random.below(callable.len())]),
        _ => Link::Pass,
    };
    (0..random.below(5)).map(|_| link(random)).collect()
}

/// A small condition, now and then a large one.
pub fn small(random: &mut Random) -> Tree {
    let depth = match random.below(24) {
        0 => return wide_star(random),
        1 => 3 + random.below(3),
        _ => random.below(3),
    };
    let tree = Tree::random(random, depth);
    if tree.fits() {
        tree
    } else {
        Tree::any()
    }
}

/// A star of many leaves, each with a few events.
pub fn wide_star(random: &mut Random) -> Tree {
    let leaf = |random: &mut Random| Tree::Leaf(1 << random.below(32) | random.below(2) as u64);
    let first = leaf(random);
    (0..8 + random.below(23)).fold(first, |tree, _| tree.either(leaf(random))).star()
}

/// A small condition that holds the empty word.
pub fn small_with_empty(random: &mut Random) -> Tree {
    let tree = small(random);
    match random.below(3) {
        0 => Tree::Empty,
        1 => tree.star(),
        _ => Tree::Empty.either(tree),
    }
}

/// A condition with at least the words of a tree.
pub fn wide(random: &mut Random, tree: Tree) -> Tree {
    let wider = match random.below(12) {
        0 | 1 => tree.either(small(random)),
        2 => small(random).either(tree),
        3 => tree.star(),
        4 => tree.join(Tree::any()),
        5 => Tree::any(),
        _ => tree,
    };
    if wider.fits() {
        wider
    } else {
        Tree::any()
    }
}

pub fn then(tree: &Tree, next: &Option<Tree>) -> Tree {
    match next {
        Some(next) => tree.clone().join(next.clone()),
        None => tree.clone(),
    }
}

/// The conditions of a chain's points, first to last.
struct Points {
    pasts: Vec<Tree>,
    owns: Vec<Tree>,
    dues: Vec<Tree>,
}

fn points(random: &mut Random, links: &[Link], pre: &Tree, future: &Tree) -> Points {
    let raised: Vec<Option<Tree>> = links.iter().map(raises).collect();
    let mut pasts = vec![wide(random, pre.clone())];
    let mut owns = vec![wide(random, Tree::Empty)];
    for what in &raised {
        pasts.push(wide(random, then(pasts.last().unwrap(), what)));
        owns.push(wide(random, then(owns.last().unwrap(), what)));
    }
    let mut dues = vec![wide(random, future.clone())];
    for what in raised.into_iter().rev() {
        let due = dues.last().unwrap().clone();
        let tree = match what {
            Some(what) => what.join(due),
            None => due,
        };
        dues.push(wide(random, tree));
    }
    dues.reverse();
    Points { pasts, owns, dues }
}

/// A method that is a chain of steps from its entry to its exit.
fn chain(draft: &mut Draft, random: &mut Random, number: usize, links: &[Link]) {
    let (pre, future) = match number {
        0 => (small_with_empty(random), small_with_empty(random)),
        _ => (small(random), small(random)),
    };
    let points = points(random, links, &pre, &future);
    let start = draft.points.len();
    for i in 0..=links.len() {
        draft.point(&points.pasts[i], &points.owns[i], &points.dues[i]);
    }
    let trace = wide(random, points.owns[links.len()].clone());
    let names = [&pre, &trace, &future].map(|tree| draft.condition(tree));
    draft.methods[number] = Method::new(&names, &[start, start + links.len()]);
    for (i, link) in links.iter().enumerate() {
        let (from, to) = (start + i, start + i + 1);
        let step = match link {
            Link::Event(event) => Step::Event(from, to, *event),
            Link::Open(method) => Step::Call(from, to, *method),
            Link::Pass => Step::Pass(from, to),
            Link::Primitive(trace) => {
                let pre = wide(random, points.pasts[i].clone());
                let future = wide(random, points.dues[i + 1].clone());
                let names = [&pre, trace, &future].map(|tree| draft.condition(tree));
                draft.methods.push(Method::new(&names, &[]));
                Step::Call(from, to, draft.methods.len() - 1)
            }
        };
        draft.steps.push(step);
    }
}

/// What a step raises, if anything.
fn raises(link: &Link) -> Option<Tree> {
    match link {
        Link::Event(event) => Some(Tree::event(*event)),
        Link::Primitive(trace) => Some(trace.clone()),
        Link::Open(_) => Some(Tree::any()),
        Link::Pass => None,
    }
}

/// Changes one thing of a draft.
pub fn spoil(draft: &mut Draft, random: &mut Random) {
    if random.once_in(if draft.new_edition { 2 } else { 8 }) {
        return stopping::spoil(draft, random);
    }
    let failing = |step: &Step| matches!(step, Step::Failing(..));
    let fails = draft.methods[0].fails() || draft.steps.iter().any(failing);
    if fails && random.once_in(3) {
        return spoil_failing(draft, random);
    }
    let tree = small(random);
    let fresh = draft.condition(&tree);
    let points = draft.points.len();
    match random.below(6) {
        0 => {
            let which = random.below(draft.conditions.len());
            draft.conditions[which] = tree;
        }
        1 | 2 => draft.points[random.below(points)][random.below(3)] = fresh,
        3 => {
            let which = random.below(draft.methods.len());
            let conditions = draft.methods[which].conditions.len();
            draft.methods[which].conditions[random.below(conditions)] = fresh;
        }
        4 => {
            let step = random_step(random, points, draft.methods.len());
            let step = fitted(step, &draft.methods, points, random);
            draft.steps.push(step);
        }
        _ => {
            for step in &mut draft.steps {
                if let Step::Event(_, _, event) = step {
                    *event = random.below(4) as u8;
                }
            }
        }
    }
}

/// Changes one thing about failing.
fn spoil_failing(draft: &mut Draft, random: &mut Random) {
    let fresh = match random.below(3) {
        0 => Tree::Leaf(0),
        _ => small(random),
    };
    let fresh = draft.condition(&fresh);
    let points = draft.points.len();
    let which = random.below(draft.methods.len());
    match (random.below(6), &mut draft.methods[which]) {
        (0, method) if method.fails() => method.conditions[3 + random.below(2)] = fresh,
        (1, method) if method.points.len() == 3 => method.points[2] = random.below(points),
        (2, _) if draft.methods[0].fails() => draft.methods[0].conditions[4] = fresh,
        (3, _) => other_call(&mut draft.steps, random),
        _ => {
            for step in &mut draft.steps {
                if let Step::Failing(_, to, failed, _) = step {
                    match random.below(4) {
                        0 => std::mem::swap(to, failed),
                        1 => *failed = random.below(points),
                        _ => {}
                    }
                }
            }
        }
    }
}

/// A call that can fail for one that cannot, or the other way round.
fn other_call(steps: &mut [Step], random: &mut Random) {
    let calls = steps.iter_mut().filter(|step| matches!(step, Step::Call(..) | Step::Failing(..)));
    let mut calls: Vec<&mut Step> = calls.collect();
    if calls.is_empty() {
        return;
    }
    let which = random.below(calls.len());
    *calls[which] = match *calls[which] {
        Step::Call(from, to, method) => Step::Failing(from, to, to, method),
        Step::Failing(from, to, _, method) => Step::Call(from, to, method),
        _ => return,
    };
}
