//! Drafts of the new edition whose rules hold, most of them with stops.
use super::draft::{Draft, Method, Step};
use super::failing::{self, call, little, loose, onward, union, Open, Way};
use super::honest::{self, covering_star, small, small_with_empty, wide, wide_star};
use crate::naive::holds_empty;
use crate::random::Random;
use crate::tree::{Tree, TWO_CHANNELS};

/// The most leaves of a point's condition, since those of called methods come into those
/// of their callers.
const LEAVES: usize = 12;

/// A draft whose rules hold, of the old edition or, as often, of the new.
pub fn either_edition(random: &mut Random) -> Draft {
    match random.below(2) {
        0 => failing::either(random),
        _ => stopping(random),
    }
}

/// A draft of the new edition whose rules hold, with calls of one outcome and of two.
pub fn stopping(random: &mut Random) -> Draft {
    let draft = match random.below(6) {
        0 => closed(random),
        1 | 2 => entering(random),
        _ => planned(random),
    };
    Draft { new_edition: true, ..draft }
}

/// Changes one thing about the edition, a stop, or what is due where a method with body
/// is called.
pub fn spoil(draft: &mut Draft, random: &mut Random) {
    let tree = match random.below(3) {
        0 => Tree::Leaf(0),
        1 => Tree::event(random.below(3) as u8),
        _ => small(random),
    };
    let points = draft.points.len();
    let stop = |step: &Step| matches!(step, Step::Stop(_));
    let stops: Vec<usize> = (0..draft.steps.len()).filter(|&i| stop(&draft.steps[i])).collect();
    let entries = draft.methods.iter().filter_map(|method| method.points.first());
    let entries: Vec<usize> = entries.copied().collect();
    match random.below(8) {
        0 => draft.new_edition = !draft.new_edition,
        1 | 2 => {
            let place = random.below(draft.steps.len() + 1);
            draft.steps.insert(place, Step::Stop(random.below(points)));
        }
        3 if !stops.is_empty() => {
            let which = stops[random.below(stops.len())];
            draft.steps[which] = Step::Stop(random.below(points));
        }
        4 if !stops.is_empty() => {
            if let Step::Stop(point) = draft.steps[stops[random.below(stops.len())]] {
                draft.points[point][2] = draft.condition(&tree);
            }
        }
        _ => {
            // With more words due at an entry, no other rule of its method is false.
            let entry = entries[random.below(entries.len())];
            let due = draft.conditions[draft.points[entry][2]].clone();
            let more = due.either(tree);
            if more.fits() {
                draft.points[entry][2] = draft.condition(&more);
            }
        }
    }
}

/// One call of a method with body, with sides of many leaves, and a stop where it is
/// called.
pub fn large(random: &mut Random) -> Draft {
    let mut draft = honest::large(random);
    let calling = 1;
    let [past, due] = [0; 2].map(|_| covering_star(random));
    let called_due = wide_star(random);
    let mut points = vec![draft.point(&past, &Tree::Empty, &called_due)];
    let due = draft.condition(&due);
    for trace in [1, 3] {
        if let Some(&trace) = draft.methods[1].conditions.get(trace) {
            points.push(draft.points.len());
            draft.points.push([due, trace, due]);
        }
    }
    draft.methods[1].points = points;
    draft.steps.push(Step::Stop(calling));
    Draft { new_edition: true, ..draft }
}

/// Calls of a method with body that never returns. What is due at its entry is due where
/// it is called, and no other rule asks for that.
fn entering(random: &mut Random) -> Draft {
    let (any, none) = (Tree::any(), Tree::Leaf(0));
    let mut draft = Draft::default();
    let inside = small(random);
    let entry = draft.point(&any, &Tree::Empty, &inside);
    let exit = draft.point(&any, &none, &any);
    let target = draft.point(&any, &any, &any);
    let calling: Vec<usize> = (0..1 + random.below(2))
        .map(|_| {
            let due = wide(random, inside.clone());
            draft.point(&any, &any, &due)
        })
        .collect();
    let [any, none] = [any, none].map(|tree| draft.condition(&tree));
    draft.methods.push(Method::new(&[any; 3], &[calling[0], target]));
    draft.methods.push(match random.below(2) {
        0 => Method::new(&[any, none, any], &[entry, exit]),
        _ => Method::new(&[any, none, any, none, any], &[entry, exit, exit]),
    });
    for &from in &calling {
        draft.steps.push(called(&draft, from, [target; 2], 1));
    }
    for point in [&[entry], &calling[..]].concat() {
        if holds_empty(&draft.conditions[draft.points[point][2]]) && random.once_in(2) {
            draft.steps.insert(random.below(draft.steps.len() + 1), Step::Stop(point));
        }
    }
    draft
}

/// Methods that call each other and stop at any point. All conditions but traces hold
/// the words of some events.
fn closed(random: &mut Random) -> Draft {
    let events = if random.once_in(3) { TWO_CHANNELS } else { 1 | random.below(16) as u64 };
    let words = Tree::Leaf(events).star();
    let mut draft = Draft::default();
    let points = 1 + random.below(4);
    for _ in 0..points {
        draft.point(&words, &words, &words);
    }
    let bodies = 1 + random.below(3);
    for number in 0..bodies + random.below(3) {
        let outcomes = 1 + random.below(2);
        let mut conditions = vec![0; 1 + 2 * outcomes];
        let mut places = vec![];
        if number < bodies {
            places.extend((0..1 + outcomes).map(|_| random.below(points)));
        } else {
            for outcome in 0..outcomes {
                let trace = little(random).only(events);
                conditions[1 + 2 * outcome] = draft.condition(&trace);
            }
        }
        draft.methods.push(Method { conditions, points: places });
    }
    for _ in 0..1 + random.below(6) {
        let [from, to, failed] = [0; 3].map(|_| random.below(points));
        let step = match random.below(6) {
            0 => Step::Event(from, to, one_of(events, random)),
            1 => Step::Pass(from, to),
            2 => Step::Stop(from),
            _ => called(&draft, from, [to, failed], random.below(draft.methods.len())),
        };
        draft.steps.push(step);
    }
    draft
}

/// A call of a method, with as many outcomes as the method has.
fn called(draft: &Draft, from: usize, [to, failed]: [usize; 2], method: usize) -> Step {
    call(from, to, failed, Open { method, fails: draft.methods[method].fails() })
}

/// An event of a set.
fn one_of(events: u64, random: &mut Random) -> u8 {
    let mut word = vec![];
    Tree::Leaf(events).word(random, &mut word);
    word[0]
}

/// A first method with methods that it calls, these with theirs, and now and then one
/// that all may call.
fn planned(random: &mut Random) -> Draft {
    let mut draft = Draft { methods: vec![Method::default()], ..Draft::default() };
    let mut callable = vec![];
    if random.once_in(5) {
        let open = Open { method: 1, fails: random.once_in(2) };
        callable.push(open);
        draft.methods.push(Method::default());
        loose(&mut draft, random, open, &callable);
        if random.once_in(2) {
            draft.steps.push(Step::Stop(random.below(draft.points.len())));
        }
    }
    let first = Steps::new(random, 2, &callable);
    let pre = small_with_empty(random);
    let futures: Vec<Tree> = first.exits.iter().map(|_| small_with_empty(random)).collect();
    first.write(&mut draft, random, 0, &pre, &futures);
    draft
}

/// A method with body whose traces are known, and whose other conditions follow from
/// the points where it is called and those to which it returns.
enum Plan {
    Steps(Steps),
    Rounds(Rounds),
}

impl Plan {
    fn new(random: &mut Random, depth: usize, callable: &[Open]) -> Plan {
        match random.below(4) {
            0 => Plan::Rounds(Rounds::new(random)),
            _ => Plan::Steps(Steps::new(random, depth, callable)),
        }
    }

    /// One for each outcome.
    fn traces(&self) -> Vec<Tree> {
        match self {
            Plan::Steps(steps) => steps.traces.clone(),
            Plan::Rounds(rounds) => vec![rounds.trace(); 1 + rounds.fails as usize],
        }
    }

    /// Writes the method, given its pre and a future for each outcome; returns what is
    /// due at its entry.
    fn write(
        &self,
        draft: &mut Draft,
        random: &mut Random,
        number: usize,
        pre: &Tree,
        futures: &[Tree],
    ) -> Tree {
        match self {
            Plan::Steps(steps) => steps.write(draft, random, number, pre, futures),
            Plan::Rounds(rounds) => rounds.write(draft, random, number, pre, futures),
        }
    }
}

/// What a step does.
enum Act {
    Event(u8),
    Pass,
    /// A call of a primitive of its own, with a trace for each outcome.
    Primitive(Vec<Tree>),
    /// A call of one of the methods that no other method calls.
    Inner(usize),
    Open(Open),
}

/// A step with its target and its failed target, which are later points.
struct Arrow {
    from: usize,
    targets: [usize; 2],
    act: Act,
}

impl Arrow {
    /// The ways of the step, one for each of its outcomes.
    fn ways(&self, inner: &[Plan]) -> Vec<Way> {
        let raised: Vec<Option<Tree>> = match &self.act {
            Act::Event(event) => vec![Some(Tree::event(*event))],
            Act::Pass => vec![None],
            Act::Primitive(traces) => traces.iter().cloned().map(Some).collect(),
            Act::Inner(which) => inner[*which].traces().into_iter().map(Some).collect(),
            Act::Open(open) => vec![Some(Tree::any()); 1 + open.fails as usize],
        };
        let way = |(to, raised)| Way { from: self.from, to, raised };
        self.targets.into_iter().zip(raised).map(way).collect()
    }
}

fn act(random: &mut Random, callable: &[Open]) -> Act {
    match random.below(8) {
        0..=2 => Act::Event(if random.once_in(5) { 31 } else { random.below(3) as u8 }),
        3 | 4 => Act::Primitive((0..1 + random.below(2)).map(|_| little(random)).collect()),
        5 | 6 if !callable.is_empty() => Act::Open(callable[random.below(callable.len())]),
        _ => Act::Pass,
    }
}

/// A method of steps that lead onward.
struct Steps {
    /// Points.
    count: usize,
    arrows: Vec<Arrow>,
    /// The points with a stop.
    stops: Vec<usize>,
    /// The exit and, if the method can fail, the failed exit.
    exits: Vec<usize>,
    owns: Vec<Tree>,
    traces: Vec<Tree>,
    inner: Vec<Plan>,
}

impl Steps {
    fn new(random: &mut Random, depth: usize, callable: &[Open]) -> Steps {
        let count = 1 + (depth > 0) as usize + random.below(3);
        let later = |point: usize, random: &mut Random| point + 1 + random.below(count - 1 - point);
        let mut arrows = vec![];
        for from in 0..count - 1 {
            let to = if random.once_in(4) { later(from, random) } else { from + 1 };
            let targets = [to, later(from, random)];
            arrows.push(Arrow { from, targets, act: act(random, callable) });
        }
        let mut inner = vec![];
        for which in 0..if depth > 0 { 1 + random.below(2) } else { 0 } {
            inner.push(Plan::new(random, depth - 1, callable));
            // The calls return to points behind all of them, so that what is due there
            // does not rest on what is due where the method is called.
            let last = random.below(count - 1);
            for again in [false, true] {
                if again && random.once_in(2) {
                    continue;
                }
                let from = if again { random.below(last + 1) } else { last };
                if random.once_in(2) {
                    arrows.retain(|old| old.from != from || matches!(old.act, Act::Inner(_)));
                }
                let targets = [0; 2].map(|_| later(last, random));
                arrows.push(Arrow { from, targets, act: Act::Inner(which) });
            }
        }
        let mut exits = vec![if random.once_in(4) { random.below(count) } else { count - 1 }];
        if random.once_in(2) {
            exits.push(random.below(count));
        }
        let stops = (0..count).filter(|_| random.once_in(3)).collect();
        let mut steps = Steps { count, arrows, stops, exits, owns: vec![], traces: vec![], inner };
        steps.owns = onward(random, count, &steps.ways(), Tree::Empty, LEAVES);
        let exits = steps.exits.iter().map(|&exit| steps.owns[exit].clone());
        steps.traces = exits.map(|own| wide(random, own)).collect();
        steps
    }

    fn ways(&self) -> Vec<Way> {
        self.arrows.iter().flat_map(|arrow| arrow.ways(&self.inner)).collect()
    }

    /// As of a plan.
    fn write(
        &self,
        draft: &mut Draft,
        random: &mut Random,
        number: usize,
        pre: &Tree,
        futures: &[Tree],
    ) -> Tree {
        let inner = draft.methods.len();
        draft.methods.resize(inner + self.inner.len(), Method::default());
        let pasts = onward(random, self.count, &self.ways(), pre.clone(), LEAVES);
        let dues = self.dues(draft, random, inner, &pasts, futures);
        let start = draft.points.len();
        for i in 0..self.count {
            draft.point(&pasts[i], &self.owns[i], &dues[i]);
        }
        let mut conditions = vec![draft.condition(pre)];
        for (trace, future) in self.traces.iter().zip(futures) {
            conditions.extend([trace, future].map(|tree| draft.condition(tree)));
        }
        let points = [0].iter().chain(&self.exits).map(|point| start + point).collect();
        draft.methods[number] = Method { conditions, points };
        let mut steps = vec![];
        for arrow in &self.arrows {
            let from = start + arrow.from;
            let targets = arrow.targets.map(|target| start + target);
            steps.push(match &arrow.act {
                Act::Event(event) => Step::Event(from, targets[0], *event),
                Act::Pass => Step::Pass(from, targets[0]),
                Act::Open(open) => called(draft, from, targets, open.method),
                Act::Inner(which) => called(draft, from, targets, inner + which),
                Act::Primitive(traces) => {
                    let dues = arrow.targets.map(|target| &dues[target]);
                    let method = primitive(draft, random, &pasts[arrow.from], traces, dues);
                    called(draft, from, targets, method)
                }
            });
        }
        for point in &self.stops {
            steps.insert(random.below(steps.len() + 1), Step::Stop(start + point));
        }
        draft.steps.extend(steps);
        dues[0].clone()
    }

    /// What is due at the points. Where a method is called that only this one calls,
    /// that method is written; the first of them has the number `inner`.
    fn dues(
        &self,
        draft: &mut Draft,
        random: &mut Random,
        inner: usize,
        pasts: &[Tree],
        futures: &[Tree],
    ) -> Vec<Tree> {
        let ways = self.ways();
        let mut found = vec![Tree::Empty; self.count];
        let mut entries: Vec<Option<Tree>> = vec![None; self.inner.len()];
        for point in (0..self.count).rev() {
            let exits = self.exits.iter().zip(futures).filter(|(exit, _)| **exit == point);
            let mut trees: Vec<Tree> = exits.map(|(_, future)| future.clone()).collect();
            trees.extend(self.stops.contains(&point).then_some(Tree::Empty));
            for arrow in self.arrows.iter().filter(|arrow| arrow.from == point) {
                match arrow.act {
                    Act::Inner(which) => {
                        let entry = entries[which].get_or_insert_with(|| {
                            let (pre, futures) = self.asked(random, which, pasts, &found);
                            self.inner[which].write(draft, random, inner + which, &pre, &futures)
                        });
                        trees.push(entry.clone());
                    }
                    Act::Open(_) => trees.push(Tree::any()),
                    _ => {}
                }
            }
            trees.extend(ways.iter().filter(|way| way.from == point).map(|way| way.due(&found)));
            found[point] = joint(random, trees);
        }
        found
    }

    /// The pre and the futures of a method that only this one calls, from the pasts and
    /// the dues of this one's points.
    fn asked(
        &self,
        random: &mut Random,
        which: usize,
        pasts: &[Tree],
        dues: &[Tree],
    ) -> (Tree, Vec<Tree>) {
        let calls = |arrow: &&Arrow| matches!(arrow.act, Act::Inner(called) if called == which);
        let calls: Vec<&Arrow> = self.arrows.iter().filter(calls).collect();
        let pre = joint(random, calls.iter().map(|arrow| pasts[arrow.from].clone()).collect());
        let due = |arrow: &&Arrow, outcome: usize| dues[arrow.targets[outcome]].clone();
        let outcomes = 0..self.inner[which].traces().len();
        let futures =
            outcomes.map(|i| joint(random, calls.iter().map(|arrow| due(arrow, i)).collect()));
        (pre, futures.collect())
    }
}

/// The words of any of some trees, and more; each tree counts once.
fn joint(random: &mut Random, mut trees: Vec<Tree>) -> Tree {
    trees.sort();
    trees.dedup();
    union(random, trees, LEAVES)
}

/// Adds a primitive, given the past where it is called, a trace for each outcome, and
/// what is due at the targets; returns its number.
fn primitive(
    draft: &mut Draft,
    random: &mut Random,
    past: &Tree,
    traces: &[Tree],
    dues: [&Tree; 2],
) -> usize {
    let pre = wide(random, past.clone());
    let mut conditions = vec![draft.condition(&pre)];
    for (trace, due) in traces.iter().zip(dues) {
        let future = wide(random, due.clone());
        conditions.extend([trace, &future].map(|tree| draft.condition(tree)));
    }
    draft.methods.push(Method { conditions, points: vec![] });
    draft.methods.len() - 1
}

/// A method that raises an event of a set and may then call itself.
struct Rounds {
    events: u64,
    fails: bool,
    /// Whether it may stop before the event, and behind it.
    stops: [bool; 2],
}

impl Rounds {
    fn new(random: &mut Random) -> Rounds {
        let events = 1 << random.below(3) | 1 << random.below(4);
        let [fails, before, behind] = [0; 3].map(|_| random.once_in(2));
        Rounds { events, fails, stops: [before, behind] }
    }

    /// One event or more.
    fn trace(&self) -> Tree {
        let events = Tree::Leaf(self.events);
        events.clone().join(events.star())
    }

    /// As of a plan.
    fn write(
        &self,
        draft: &mut Draft,
        random: &mut Random,
        number: usize,
        pre: &Tree,
        futures: &[Tree],
    ) -> Tree {
        let (events, trace) = (Tree::Leaf(self.events), self.trace());
        let mut past = pre.clone().join(events.clone().star());
        if !past.fits() {
            past = Tree::any();
        }
        let stops = self.stops.iter().any(|&stop| stop).then_some(&Tree::Empty);
        let rest = futures.iter().chain(stops).cloned().reduce(Tree::either);
        let behind = events.clone().star().join(rest.unwrap_or(Tree::Empty));
        let before = events.clone().join(behind.clone());
        let before = if self.stops[0] { before.either(Tree::Empty) } else { before };
        let dues = if before.fits() { [before, behind] } else { [0; 2].map(|_| Tree::any()) };
        let start = draft.point(&past, &Tree::Empty, &dues[0]);
        let round = draft.point(&past, &events, &dues[1]);
        let exits: Vec<usize> =
            futures.iter().map(|future| draft.point(&past, &trace, future)).collect();
        let mut conditions = vec![draft.condition(&past)];
        for future in futures {
            conditions.extend([&trace, future].map(|tree| draft.condition(tree)));
        }
        let points = [&[start], &exits[..]].concat();
        draft.methods[number] = Method { conditions, points };
        let targets = [exits[0], *exits.last().unwrap_or(&exits[0])];
        let mut steps = vec![called(draft, round, targets, number)];
        for _ in 0..1 + random.below(2) {
            steps.push(Step::Event(start, round, one_of(self.events, random)));
        }
        steps.extend(exits.iter().map(|&exit| Step::Pass(round, exit)));
        let stops = [start, round].into_iter().zip(self.stops).filter(|(_, stop)| *stop);
        steps.extend(stops.map(|(point, _)| Step::Stop(point)));
        random.shuffle(&mut steps);
        draft.steps.extend(steps);
        dues[0].clone()
    }
}
