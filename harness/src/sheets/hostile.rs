//! Accepted sheets with one certificate that makes clause 4 dear. Each takes the
//! most pairs that the certificate may have.
//!
//! A loader may remember the last search: a pair needs none if its place has no
//! followers that the last one had not, and its set has all that the last one had.
//! So the right side is `turning`, except where the followers change anyway.
use super::draft::{certificate, Draft, Method, Step};
use super::families::LONGEST;
use super::mutate;
use super::stray::{alike, least, row};
use super::worst::WORST;
use crate::instrument::FOUR;
use crate::naive;
use crate::random::Random;
use crate::tree::{Tree, TWO_CHANNELS};

pub type Pair = (usize, u32);

const PAIR_LENGTH: usize = 6;

/// A draft, and the number of the certificate that is to be long.
pub type Long = (Draft, usize);

pub type Hostile = (&'static str, fn(usize) -> Vec<u8>);

/// One sheet for each way to be hostile, with its name.
pub const HOSTILE: [Hostile; 13] = [
    ("hostile certificate", first_and_last),
    ("hostile: all pairs alike", all_alike),
    ("hostile: all need the last pair, 1 follower", |most| last_alone(1, most)),
    ("hostile: all need the last pairs, 31 followers", |most| last_alone(31, most)),
    ("hostile: all need the last pairs, 62 followers", |most| of_two(0, most)),
    ("hostile: all need the first and the last pairs, 62 followers", |most| of_two(31, most)),
    ("hostile: places served already, at random", served_places),
    ("hostile: random sets with a place that holds nothing", dead_places),
    ("hostile: events served already", served_events),
    ("hostile: other followers for each pair", other_followers),
    ("hostile: each pair needs another, at random", another),
    ("hostile: one pair for each follower and event", one_each),
    ("hostile: the worst that a search found", |most| WORST.sheet(most)),
];

/// A hostile sheet over 64 events: each leaf holds with an event the one 32 further on
/// too, so that the same pairs serve. As many fit as in a sheet of full length.
pub fn doubled(make: fn(usize) -> Vec<u8>) -> Vec<u8> {
    let mut most = LONGEST / PAIR_LENGTH;
    loop {
        let sheet = with_double_leaves(&make(most));
        if sheet.len() <= LONGEST {
            return sheet;
        }
        most -= (sheet.len() - LONGEST).div_ceil(PAIR_LENGTH);
    }
}

fn with_double_leaves(sheet: &[u8]) -> Vec<u8> {
    let mut records = mutate::split(sheet);
    for leaf in records.iter_mut().filter(|record| record[0] == 1) {
        leaf[0] = 21;
        leaf.extend_from_within(1..5);
    }
    records.concat()
}

/// The sheet with as many pairs as fit in so many bytes.
pub fn fitting(make: impl Fn(usize) -> Vec<u8>, bytes: usize) -> Vec<u8> {
    let most = bytes / PAIR_LENGTH;
    let over = make(most).len().saturating_sub(bytes);
    make(most.saturating_sub(over.div_ceil(PAIR_LENGTH)))
}

/// The least sheet with another pre, and another past at its point: rule 3 asks
/// for the one in the other, by certificate 0.
pub fn by_entry(left: Tree, right: Tree) -> Long {
    let mut draft = least();
    draft.methods[0].conditions[0] = draft.condition(&left);
    draft.points[0][0] = draft.condition(&right);
    (draft, 0)
}

/// A call step whose rule 11 asks for two conditions joined in a third, by
/// certificate 4; the other conditions hold all words.
pub fn by_call(one: &Tree, two: &Tree, right: &Tree) -> Long {
    let any = Tree::any();
    let mut draft = Draft::default();
    draft.point(&any, &any, &any);
    draft.point(one, &any, &any);
    draft.point(right, &any, &any);
    let trace = draft.condition(two);
    draft.methods = vec![Method::new(&[0; 3], &[0; 2]), Method::new(&[0, trace, 0], &[])];
    draft.steps.push(Step::Call(1, 2, 1));
    (draft, 4)
}

/// The right places of a `turning` side that a family may use.
const OWN: u32 = 0x07ff_fffe;

/// The right places of a `turning` side of which pairs have one in turn.
pub const TURNS: [u32; 2] = [1 << 27, 1 << 29];

/// A right side of 26 leaves under a star and five more. Two hold every event, and
/// each is followed by one place that follows no other. The last follows none, so
/// that place 0 alone has it. If pairs have one of the two in turn, no pair has all
/// followers of the pair before it.
pub fn turning(leaves: Tree) -> Tree {
    turning_over(TWO_CHANNELS, leaves)
}

/// The same where every event is one of a set.
pub fn turning_over(every: u64, leaves: Tree) -> Tree {
    let link = || Tree::Leaf(every).join(Tree::Leaf(0).either(Tree::Empty));
    leaves.either(link()).either(link()).star().either(Tree::Leaf(0))
}

/// The sheet whose long certificate has the first pairs, then fillers with the
/// others evenly among them, then the last pairs; as long as fits, with the most
/// pairs that are asked for. The right side is to be `turning`.
fn stuffed(
    long: Long,
    pairs: [&[Pair]; 3],
    most: usize,
    mut filler: impl FnMut() -> Pair,
) -> Vec<u8> {
    spread(long, pairs, most, Order { random: None, turns: TURNS }, |_| filler())
}

/// How pairs stand in a certificate.
pub struct Order {
    /// For the places of the pairs among the fillers; they stand evenly without.
    pub random: Option<Random>,
    /// What the sets after the first have too, in turn.
    pub turns: [u32; 2],
}

/// Evenly, and with no other places.
const PLAIN: Order = Order { random: None, turns: [0, 0] };

/// The same in an order. A filler is made for the place of the pair before it.
pub fn spread(
    (draft, number): Long,
    [first, among, last]: [&[Pair]; 3],
    most: usize,
    mut order: Order,
    mut filler: impl FnMut(usize) -> Pair,
) -> Vec<u8> {
    let mut out = draft.bytes();
    let sheet = naive::read_sheet(&FOUR, &draft.certified());
    let mut lists = sheet.map_or(vec![], |sheet| sheet.certificates);
    lists[number] = [&[(0, 1)], first].concat();
    let used: usize = lists.iter().map(|pairs| 6 * pairs.len() + 1).sum();
    let room = (LONGEST - out.len() - used) / 6;
    let list = &mut lists[number];
    let middle = room.min(most.saturating_sub(list.len())).saturating_sub(last.len());
    let mut served = 0;
    for i in 0..middle {
        let due = match order.random {
            Some(ref mut random) => random.below(middle - i) < among.len() - served,
            None => served < (i + 1) * among.len() / middle,
        };
        list.push(if due { among[served] } else { filler(list[list.len() - 1].0) });
        served += due as usize;
    }
    list.extend(last);
    for (i, (_, set)) in list.iter_mut().enumerate().skip(1) {
        *set |= order.turns[i % 2];
    }
    for pairs in &lists {
        certificate(&mut out, pairs);
    }
    out
}

/// The leaves of a `turning` side that holds every word; the last holds no event.
fn last_dead() -> Tree {
    row(25).either(Tree::Leaf(0))
}

/// Each pair needs the first ones and the last one; the others list all places of
/// the family, one of which holds no event.
fn first_and_last(most: usize) -> Vec<u8> {
    let first: Vec<Pair> = (1..31).map(|place| (place, 2)).collect();
    let long = by_entry(row(31).star(), turning(last_dead()));
    stuffed(long, [&first, &[], &[(31, 2)]], most, || (31, OWN))
}

/// The same where all pairs have the same followers: one search is enough.
fn all_alike(most: usize) -> Vec<u8> {
    let first: Vec<Pair> = (1..31).map(|place| (place, 2)).collect();
    let long = by_entry(row(31).star(), last_dead().star());
    spread(long, [&first, &[], &[(31, 2)]], most, PLAIN, |_| (31, OWN))
}

/// The last pairs serve all followers, one each; the others serve nothing.
fn last_alone(followers: usize, most: usize) -> Vec<u8> {
    let last: Vec<Pair> = (1..=followers).map(|place| (place, 2)).collect();
    let long = by_entry(row(followers).star(), turning(last_dead()));
    stuffed(long, [&[], &[], &last], most, || (1, OWN))
}

/// A left side of two conditions. The pairs that serve, one for each follower, stand
/// first, so many of them, and last; the others serve nothing.
fn of_two(first: usize, most: usize) -> Vec<u8> {
    let serving: Vec<Pair> = (1..=62).map(|place| (place, 2)).collect();
    let (first, last) = serving.split_at(first);
    let heavy = row(31).star();
    let long = by_call(&heavy, &heavy, &turning(last_dead()));
    stuffed(long, [first, &[], last], most, || (1, OWN))
}

/// Every second pair, at random, is for a place that the first pair serves, and
/// none of the others but the last serves anything.
fn served_places(most: usize) -> Vec<u8> {
    let mut random = Random::new(2);
    let long = by_entry(row(2).star(), turning(last_dead()));
    stuffed(long, [&[(1, 2)], &[], &[(2, 2)]], most, || {
        (1 + random.below(2), random.next() as u32 & OWN | 1 << 26)
    })
}

/// The first pair serves half of the events, the last the others, and the rest
/// are random sets, each with a place that holds nothing, within the followers.
fn dead_places(most: usize) -> Vec<u8> {
    let mut random = Random::new(3);
    let halves = alike(0xffff, 12).either(alike(0xffff_0000, 13));
    let long = by_entry(row(1).star(), turning(halves.either(Tree::Leaf(0))));
    let filler = || (1, random.next() as u32 & OWN | 1 << 26);
    stuffed(long, [&[(1, 2)], &[], &[(1, 1 << 25)]], most, filler)
}

/// The same where the rest serve only what the first serves.
fn served_events(most: usize) -> Vec<u8> {
    let mut random = Random::new(4);
    let halves = alike(0xffff, 13).either(alike(0xffff_0000, 13));
    let filler = || (1, random.next() as u32 & 0x3ffe | 2);
    let long = by_entry(row(1).star(), turning(halves));
    stuffed(long, [&[(1, 2)], &[], &[(1, 1 << 26)]], most, filler)
}

/// Fifteen right places, each followed by all of them and by one more, its own; and
/// one that follows none. Each pair has seven of the fifteen at random, so that its
/// followers are others than the last pair's, and one of their own, so that it lies
/// within the followers of every second pair, at random. It serves what the first
/// pair serves.
fn other_followers(most: usize) -> Vec<u8> {
    let mut random = Random::new(5);
    let set = |i| if i == 14 { 0xffff_0000 } else { 0xffff };
    let link = |i| Tree::Leaf(set(i)).join(row(1).either(Tree::Empty));
    let right = (1..15).fold(link(0), |tree, i| tree.either(link(i))).star();
    let long = by_entry(row(1).star(), right.either(Tree::Leaf(0)));
    let mut some: Vec<u32> = (0..14).map(|i| 2 << (2 * i)).collect();
    spread(long, [&[(1, 2)], &[], &[(1, 1 << 29)]], most, PLAIN, |_| {
        random.shuffle(&mut some);
        (1, some[..7].iter().sum::<u32>() | 4 << (2 * random.below(15)))
    })
}

/// The right places of `other_followers`, each with all events. A pair has seven of
/// the fifteen, or eight, and what follows seven others alone. It needs the pair
/// with what follows its own, or one of eight; no set lies within another.
fn another(most: usize) -> Vec<u8> {
    let mut random = Random::new(7);
    let link = || row(1).join(row(1).either(Tree::Empty));
    let right = (1..15).fold(link(), |tree, _| tree.either(link())).star();
    let places = |some: u32| (0..15).fold(0, |set, i| set | (some >> i & 1) << (2 * i + 1));
    let of_size = |size| (0..1 << 15).filter(move |some: &u32| some.count_ones() == size);
    let mut own: Vec<u32> = of_size(7).collect();
    random.shuffle(&mut own);
    let again = own.clone();
    let pairs = of_size(7).chain(of_size(8)).zip(own.iter().chain(&again));
    let pairs = pairs.map(|(some, &own)| (2, places(some) | places(own) << 1));
    let pairs: Vec<Pair> = [(1, places(0x7fff))].into_iter().chain(pairs).collect();
    let left = Tree::Empty.either(Tree::event(0).join(row(1).star()));
    let mut number = 0;
    spread(by_entry(left, right), [&[], &[], &[]], most, PLAIN, |_| {
        number += 1;
        pairs[number - 1]
    })
}

/// Right place e + 1 holds event e alone of 26. One pair for each follower and event,
/// among others with two places or more of these, which serve nothing.
fn one_each(most: usize) -> Vec<u8> {
    let mut random = Random::new(6);
    let single = (1..26).fold(Tree::event(0), |tree, e| tree.either(Tree::event(e)));
    let among: Vec<Pair> = (0..806).map(|i| (1 + i / 26, 2 << (i % 26))).collect();
    let long = by_entry(alike(0x03ff_ffff, 31).star(), turning(single));
    stuffed(long, [&[], &among, &[]], most, || {
        (1 + random.below(31), random.next() as u32 & OWN | 6)
    })
}

/// On the four-channel instrument: of 16 right places, eight hold eight events each, one
/// after another, and eight hold every eighth event, so that one of each hold one event
/// together. One pair for each follower and event, among others with two of the first
/// eight places, which serve nothing.
pub fn each_of_64(most: usize) -> Vec<u8> {
    let mut random = Random::new(6);
    let rows = (0..8).map(|row| Tree::Leaf(0xff << (8 * row)));
    let columns = (0..8).map(|column| Tree::Leaf(0x0101_0101_0101_0101 << column));
    let leaves = rows.chain(columns).chain((0..10).map(|_| Tree::Leaf(0)));
    let leaves = leaves.reduce(Tree::either).unwrap_or(Tree::Empty);
    let set = |event: usize| 2 << (event / 8) | 0x200 << (event % 8);
    let among: Vec<Pair> = (0..31 * 64).map(|i| (1 + i / 64, set(i % 64))).collect();
    let long = by_entry(alike(u64::MAX, 31).star(), turning_over(u64::MAX, leaves));
    stuffed(long, [&[], &among, &[]], most, || {
        (1 + random.below(31), random.next() as u32 & OWN | 6)
    })
}
