//! Sheets of the four-channel instrument: events up to 63, and calls by a channel.
use super::draft::{Draft, Method, Step};
use super::honest::{self, small};
use super::mutate::{self, mutate};
use super::stopping::{self, either_edition};
use crate::naive::{Exchange, EXCHANGE};
use crate::random::Random;
use crate::tree::{events, exchanged, with_events, Tree};

/// The channels, and the most methods.
const CHANNELS: usize = 4;
const METHODS: usize = 64;

/// The exchange as it is, and ways to be wrong about it: a condition that is read as it
/// stands, or the events of channel 0 become those of the channel, and these stay.
pub const EXCHANGES: [Exchange; 5] = [
    EXCHANGE,
    Exchange { pre: as_it_stands, ..EXCHANGE },
    Exchange { trace: as_it_stands, ..EXCHANGE },
    Exchange { future: as_it_stands, ..EXCHANGE },
    Exchange { pre: one_way, trace: one_way, future: one_way },
];

fn as_it_stands(tree: &Tree, _: u8) -> Tree {
    tree.clone()
}

fn one_way(tree: &Tree, channel: u8) -> Tree {
    let moved = |event: u8| if event < 16 { exchanged(event, channel) } else { event };
    tree.with_sets(&|set| with_events(set, moved))
}

/// One sheet of a random sort.
pub fn sheet(random: &mut Random) -> Vec<u8> {
    let sheet = match random.below(13) {
        0..=3 => draft(random).certified(),
        4..=6 => spoilt(random).certified(),
        12 => return high_events(random).certified(),
        7 => spoilt(random).certified_by(&EXCHANGES[random.below(EXCHANGES.len())]),
        8 => large(random).certified(),
        9 => mutate(&large(random).certified(), random),
        _ => {
            let sheet = draft(random).certified();
            (0..1 + random.below(2)).fold(sheet, |sheet, _| mutate(&sheet, random))
        }
    };
    match random.below(3) {
        0 => longer_leaves(&sheet, random),
        _ => sheet,
    }
}

/// A sheet for a loader that reads the conditions of primitives in some way: its rules
/// hold for that loader, but now and then one thing is changed.
pub fn by_channel(exchange: &Exchange, random: &mut Random) -> Vec<u8> {
    let mut draft = draft_by(exchange, random);
    if random.once_in(2) {
        spoil(&mut draft, random);
    }
    draft.certified_by(exchange)
}

/// A draft whose rules hold.
pub fn draft(random: &mut Random) -> Draft {
    draft_by(&EXCHANGE, random)
}

fn draft_by(exchange: &Exchange, random: &mut Random) -> Draft {
    match random.below(6) {
        0 => gates(random),
        1 | 2 => chain(exchange, random),
        _ => {
            let draft = either_edition(random);
            four(exchange, draft, random)
        }
    }
}

fn spoilt(random: &mut Random) -> Draft {
    let mut draft = draft(random);
    spoil(&mut draft, random);
    draft
}

/// A draft in which nothing but the event of some steps is above 31.
fn high_events(random: &mut Random) -> Draft {
    let mut draft = either_edition(random);
    for step in &mut draft.steps {
        match step {
            Step::Event(_, _, event) if !random.once_in(3) => *event += 32,
            _ => {}
        }
    }
    draft
}

/// A draft with sides of many leaves, of either edition.
fn large(random: &mut Random) -> Draft {
    let draft = match random.below(2) {
        0 => honest::large(random),
        _ => stopping::large(random),
    };
    four(&EXCHANGE, draft, random)
}

/// For each event of two channels some of the 64 events: no two share one, and none is
/// left out. So what lies in a condition lies in it after each event has been replaced
/// by one of its own, and "any" remains "any".
struct Spread([u64; 32]);

impl Spread {
    fn new(random: &mut Random) -> Spread {
        let mut order: Vec<u8> = (0..64).collect();
        match random.below(3) {
            0 => {}
            1 => order[1..].rotate_left(15),
            _ => random.shuffle(&mut order),
        }
        let mut sets = [0; 32];
        for (number, event) in order.into_iter().enumerate() {
            let which = if number < 32 { number } else { random.below(32) };
            sets[which] |= 1 << event;
        }
        Spread(sets)
    }

    fn set(&self, set: u64) -> u64 {
        events(set).fold(0, |all, event| all | self.0[event as usize])
    }

    fn event(&self, event: u8, random: &mut Random) -> u8 {
        let own: Vec<u8> = events(self.0[event as usize]).collect();
        own[random.below(own.len())]
    }
}

/// A draft over 64 events from one over 32. Most calls of a primitive of one outcome are
/// by a channel, and its conditions are such that the call reads them as before.
fn four(exchange: &Exchange, mut draft: Draft, random: &mut Random) -> Draft {
    let spread = Spread::new(random);
    for tree in &mut draft.conditions {
        *tree = tree.with_sets(&|set| spread.set(set));
    }
    for number in 0..draft.steps.len() {
        match draft.steps[number] {
            Step::Event(from, to, event) => {
                draft.steps[number] = Step::Event(from, to, spread.event(event, random));
            }
            Step::Call(from, to, method) if !random.once_in(4) => {
                let channel = random.below(CHANNELS) as u8;
                if let Some(method) = exchanged_method(exchange, &mut draft, method, channel) {
                    draft.steps[number] = Step::Channel(from, to, method, channel);
                }
            }
            _ => {}
        }
    }
    draft
}

/// A primitive that by a channel has the conditions of another of one outcome.
fn exchanged_method(
    exchange: &Exchange,
    draft: &mut Draft,
    method: usize,
    channel: u8,
) -> Option<usize> {
    let old = draft.methods[method].clone();
    if !old.points.is_empty() || old.fails() {
        return None;
    }
    let trees = old.conditions.iter().map(|&name| &draft.conditions[name]);
    let trees = unread(exchange, trees, channel);
    let conditions: Vec<usize> = trees.iter().map(|tree| draft.condition(tree)).collect();
    let same = |method: &Method| method.points.is_empty() && method.conditions == conditions;
    match draft.methods.iter().position(same) {
        None if draft.methods.len() == METHODS => None,
        None => {
            draft.methods.push(Method { conditions, points: vec![] });
            Some(draft.methods.len() - 1)
        }
        found => found,
    }
}

/// For a pre, a trace and a future, conditions that are read as these by a channel: as
/// they stand, if they are read so, or exchanged.
fn unread<'a>(
    exchange: &Exchange,
    trees: impl Iterator<Item = &'a Tree>,
    channel: u8,
) -> Vec<Tree> {
    let readings = [exchange.pre, exchange.trace, exchange.future];
    let stands = |(tree, read): (&Tree, fn(&Tree, u8) -> Tree)| match read(tree, channel) == *tree {
        true => tree.clone(),
        false => tree.exchanged(channel),
    };
    trees.zip(readings).map(stands).collect()
}

/// A method that calls primitives of its own by channels, one after another. Its points
/// have the words that are raised before them and behind them.
fn chain(exchange: &Exchange, random: &mut Random) -> Draft {
    let lowest = 16 * random.below(2);
    let raised: Vec<Tree> = (0..1 + random.below(4)).map(|_| words(lowest, random)).collect();
    let mut draft = Draft::default();
    for number in 0..=raised.len() {
        let [before, behind] = [&raised[..number], &raised[number..]].map(joined);
        draft.point(&before, &before, &behind);
    }
    let [whole, nothing] = [joined(&raised), Tree::Empty].map(|tree| draft.condition(&tree));
    draft.methods.push(Method::new(&[nothing, whole, nothing], &[0, raised.len()]));
    for (number, trace) in raised.iter().enumerate() {
        let channel = random.below(CHANNELS) as u8;
        let [pre, future] = [&raised[..number], &raised[number + 1..]].map(joined);
        let trees = unread(exchange, [&pre, trace, &future].into_iter(), channel);
        let conditions = trees.iter().map(|tree| draft.condition(tree)).collect();
        draft.methods.push(Method { conditions, points: vec![] });
        draft.steps.push(Step::Channel(number, number + 1, number + 1, channel));
    }
    draft
}

/// Words of a few events from some event on.
fn words(lowest: usize, random: &mut Random) -> Tree {
    let event = |random: &mut Random| 1 << (lowest + random.below(64 - lowest));
    let leaf = Tree::Leaf((0..random.below(3)).fold(event(random), |set, _| set | event(random)));
    match random.below(6) {
        0 => leaf.star(),
        1 => leaf.either(Tree::Empty),
        _ => leaf,
    }
}

/// The events of a gate, on channel 0.
const OPEN: u8 = 0;
const CLOSE: u8 = 1;

/// Two primitives, one that opens a gate, after which it is closed at some time, and one
/// that closes it, before which it was opened; each is called by several channels. The
/// draft is one method that makes the calls in turn.
fn gates(random: &mut Random) -> Draft {
    let any = || Tree::Leaf(u64::MAX).star();
    let finally = |event: u8| any().join(Tree::event(event)).join(any());
    let mut draft = Draft::default();
    let [every, open, close] = [any(), Tree::event(OPEN), Tree::event(CLOSE)];
    let [every, open, close] = [every, open, close].map(|tree| draft.condition(&tree));
    let [opened, closed] = [OPEN, CLOSE].map(|event| draft.condition(&finally(event)));
    let calls = gate_calls(random);
    let raised: Vec<Tree> =
        calls.iter().map(|&(close, channel)| gate(close).exchanged(channel)).collect();
    for number in 0..=calls.len() {
        let [before, behind] = [&raised[..number], &raised[number..]].map(joined);
        draft.point(&before, &before, &behind);
    }
    let [whole, nothing] = [joined(&raised), Tree::Empty].map(|tree| draft.condition(&tree));
    draft.methods = vec![
        Method::new(&[nothing, whole, nothing], &[0, calls.len()]),
        Method::new(&[every, open, closed], &[]),
        Method::new(&[opened, close, every], &[]),
    ];
    let step = |(number, &(close, channel)): (usize, &(bool, u8))| {
        Step::Channel(number, number + 1, 1 + close as usize, channel)
    };
    draft.steps = calls.iter().enumerate().map(step).collect();
    draft
}

/// The word of a call that opens or closes.
fn gate(close: bool) -> Tree {
    Tree::event(if close { CLOSE } else { OPEN })
}

fn joined(trees: &[Tree]) -> Tree {
    trees.iter().cloned().reduce(Tree::join).unwrap_or(Tree::Empty)
}

/// Which calls are made, and by which channels: each gate is opened, and later closed.
fn gate_calls(random: &mut Random) -> Vec<(bool, u8)> {
    let mut calls = vec![];
    for _ in 0..1 + random.below(3) {
        let channel = random.below(CHANNELS) as u8;
        let open = random.below(calls.len() + 1);
        calls.insert(open, (false, channel));
        let close = open + 1 + random.below(calls.len() - open);
        calls.insert(close, (true, channel));
    }
    calls
}

/// Changes one thing about channels, events above 31, or anything else.
fn spoil(draft: &mut Draft, random: &mut Random) {
    let call = |step: &Step| matches!(step, Step::Channel(..) | Step::Call(..));
    let calls: Vec<usize> = (0..draft.steps.len()).filter(|&i| call(&draft.steps[i])).collect();
    let sort = random.below(8);
    if sort < 4 && !calls.is_empty() {
        let which = calls[random.below(calls.len())];
        let step = draft.steps[which].clone();
        draft.steps[which] = other_call(step, sort, draft.methods.len(), random);
        return;
    }
    match sort {
        0 | 4 => {
            // A condition is exchanged, or has another set.
            let which = random.below(draft.conditions.len());
            let (channel, event) = (random.below(CHANNELS) as u8, random.below(64));
            let tree = &mut draft.conditions[which];
            *tree = match random.below(2) {
                0 => tree.exchanged(channel),
                _ => tree.with_sets(&|set| set ^ 1 << event),
            };
        }
        1 | 5 => {
            for step in &mut draft.steps {
                if let Step::Event(_, _, event) = step {
                    *event = 32 + random.below(33) as u8;
                }
            }
        }
        2 | 6 => {
            let tree = small(random).with_sets(&|set| set << 32 | set >> 16);
            let fresh = draft.condition(&tree);
            let points = draft.points.len();
            draft.points[random.below(points)][random.below(3)] = fresh;
        }
        _ => honest::spoil(draft, random),
    }
}

/// A call by another channel, of another method, or without a channel; now and then by a
/// channel that does not exist.
fn other_call(step: Step, sort: usize, methods: usize, random: &mut Random) -> Step {
    let other = match random.below(8) {
        0 => 4 + random.below(2) as u8,
        1 => random.byte(),
        _ => random.below(CHANNELS) as u8,
    };
    match step {
        Step::Channel(from, to, method, channel) => match sort {
            0 | 1 => Step::Channel(from, to, method, other),
            2 => Step::Channel(from, to, random.below(methods), channel),
            _ => Step::Call(from, to, method),
        },
        Step::Call(from, to, method) => Step::Channel(from, to, method, other),
        step => step,
    }
}

/// The same with sets of 8 bytes for some sets of 4, whose upper bits are 0.
pub fn longer_leaves(sheet: &[u8], random: &mut Random) -> Vec<u8> {
    let mut records = mutate::split(sheet);
    let leaves = records.iter_mut().filter(|record| (record[0], record.len()) == (1, 5));
    for record in leaves.filter(|_| random.once_in(2)) {
        record[0] = 21;
        record.resize(9, 0);
    }
    records.concat()
}
