//! The sheets of the timings.
use super::channels;
use super::draft::{certify, Draft, Method, Step};
use super::failing::failing;
use super::honest::honest;
use super::hostile::by_entry;
use super::owners::rightly_owned;
use super::stopping::stopping;
use super::stray::{alike, least};
use crate::answer::Verdict;
use crate::instrument::{Instrument, ENTRY, FOUR, LARGE};
use crate::random::Random;
use crate::reference;
use crate::tree::{Tree, TWO_CHANNELS};

/// The bytes of the longest sheet.
pub const LONGEST: usize = LARGE.bytes;

/// Small accepted sheets.
pub fn small_honest(count: usize) -> Vec<Vec<u8>> {
    small(&LARGE, count, honest)
}

/// Small accepted sheets with calls that can fail.
pub fn small_failing(count: usize) -> Vec<Vec<u8>> {
    small(&LARGE, count, |random| loop {
        let draft = failing(random);
        if draft.steps.iter().any(|step| matches!(step, Step::Failing(..))) {
            return draft;
        }
    })
}

/// Small accepted sheets of the new edition with a stop and with a call of a method with
/// body.
pub fn small_stopping(count: usize) -> Vec<Vec<u8>> {
    small(&LARGE, count, |random| loop {
        let draft = stopping(random);
        let enters = |step: &Step| match *step {
            Step::Call(_, _, method) | Step::Failing(_, _, _, method) => {
                !draft.methods[method].points.is_empty()
            }
            _ => false,
        };
        let stops = draft.steps.iter().any(|step| matches!(step, Step::Stop(_)));
        if stops && draft.steps.iter().any(enters) {
            return draft;
        }
    })
}

/// The small accepted sheets, with owners of all points.
pub fn small_owned(count: usize) -> Vec<Vec<u8>> {
    small_honest(count).iter().map(|sheet| owned(sheet)).collect()
}

/// Small sheets that the four-channel instrument accepts, each with a call by a channel 1
/// to 3.
pub fn small_channels(count: usize) -> Vec<Vec<u8>> {
    small(&FOUR, count, |random| loop {
        let draft = channels::draft(random);
        let exchanges = |step: &Step| matches!(step, Step::Channel(_, _, _, 1..));
        if draft.steps.iter().any(exchanges) {
            return draft;
        }
    })
}

/// A sheet with right owners, which all its points can have.
fn owned(sheet: &[u8]) -> Vec<u8> {
    rightly_owned(sheet, &mut Random::new(9))
}

fn small(on: &Instrument, count: usize, make: fn(&mut Random) -> Draft) -> Vec<Vec<u8>> {
    let mut random = Random::new(7);
    let mut sheets = vec![];
    while sheets.len() < count {
        let sheet = make(&mut random).certified();
        let accepted = matches!(reference::load(on, &sheet), Verdict::Accepted(_));
        if accepted && sheet.len() < 2_048 {
            sheets.push(sheet);
        }
    }
    sheets
}

/// 64 methods and 512 calls of one outcome, 2,818 rules, each on sides of 31 leaves, in
/// a sheet of full length.
pub fn many_rules() -> Vec<u8> {
    rules_on(&mostly_dead(TWO_CHANNELS).star(), &LARGE, 64, 512, false)
}

/// The same with as many stars as fit around the leaves: each links all leaves.
pub fn starred_rules() -> Vec<u8> {
    rules_on(&starred(mostly_dead(TWO_CHANNELS), 35), &LARGE, 64, 512, false)
}

/// The same in the new edition, where each call has one rule more: 3,330 rules.
pub fn new_rules() -> Vec<u8> {
    rules_on(&starred(mostly_dead(TWO_CHANNELS), 35), &LARGE, 64, 512, true)
}

/// The same rules as of `many_rules`, with owners of all 512 points in place of some
/// conditions that nothing names.
pub fn owned_rules() -> Vec<u8> {
    let on = Instrument { bytes: LARGE.bytes - 2 * LARGE.points, ..LARGE };
    owned(&rules_on(&mostly_dead(TWO_CHANNELS).star(), &on, 64, 512, false))
}

/// As many calls as fit on the entry instrument: one method and 83 steps on its 64
/// points, 421 rules. With one outcome, a call has more sides for its bytes than any
/// other subject.
pub fn entry_rules() -> Vec<u8> {
    rules_on(&starred(mostly_dead(TWO_CHANNELS), 35), &ENTRY, 1, 83, false)
}

/// On the four-channel instrument, 512 calls of 63 primitives by channels 1 to 3, 2,566
/// rules, each on sides of 31 leaves, in a sheet of full length.
pub fn channel_rules() -> Vec<u8> {
    channel_rules_on(&mostly_dead(u64::MAX).star())
}

/// The same with as many stars as fit around the leaves.
pub fn starred_channel_rules() -> Vec<u8> {
    channel_rules_on(&starred(mostly_dead(u64::MAX), 35))
}

fn channel_rules_on(heavy: &Tree) -> Vec<u8> {
    let mut draft = with_points(heavy, &FOUR);
    let last = FOUR.points - 1;
    draft.methods = vec![Method::new(&[0; 3], &[]); 64];
    draft.methods[0].points = vec![0, last];
    let call = |s: usize| Step::Channel(s, last - s, 1 + s % 63, 1 + s as u8 % 3);
    draft.steps = (0..512).map(call).collect();
    filled(draft, heavy, &FOUR)
}

/// A leaf that holds every event, and thirty that hold none.
fn mostly_dead(every: u64) -> Tree {
    let dead = |_| Tree::Leaf(0);
    (1..31).map(dead).fold(Tree::Leaf(every), Tree::either)
}

fn starred(tree: Tree, stars: usize) -> Tree {
    (0..stars).fold(tree, |tree, _| tree.star())
}

/// A sheet of an instrument's full length and with all its points, each on this
/// condition.
fn rules_on(
    heavy: &Tree,
    on: &Instrument,
    methods: usize,
    steps: usize,
    new_edition: bool,
) -> Vec<u8> {
    let mut draft = Draft { new_edition, ..with_points(heavy, on) };
    let last = on.points - 1;
    draft.methods = (0..methods).map(|m| Method::new(&[0; 3], &[m, last - m])).collect();
    let call = |s| Step::Call(s % on.points, last - s % on.points, s % methods);
    draft.steps = (0..steps).map(call).collect();
    filled(draft, heavy, on)
}

/// All points of an instrument, each on this condition.
fn with_points(heavy: &Tree, on: &Instrument) -> Draft {
    let mut draft = Draft::default();
    for _ in 0..on.points {
        draft.point(heavy, heavy, heavy);
    }
    draft
}

/// The sheet of a draft, brought to an instrument's full length by conditions that nothing
/// names.
fn filled(mut draft: Draft, heavy: &Tree, on: &Instrument) -> Vec<u8> {
    let mut left = on.bytes - draft.certified().len();
    let mut text = vec![];
    heavy.write(&mut text);
    while left > text.len() + 100 {
        draft.conditions.push(heavy.clone());
        left -= text.len() + 1;
    }
    while left >= 2 {
        let stars = (left - 2).min(if left == 98 { 94 } else { 95 });
        draft.conditions.push(starred(Tree::Empty, stars));
        left -= stars + 2;
    }
    draft.certified()
}

/// As many records as fit: the least sheet before its certificates, then ends of
/// certificates, of one byte each. It reads well, and loads as refused 10.
pub fn many_records() -> Vec<u8> {
    let mut out = least().bytes();
    out.resize(LONGEST, 14);
    out
}

/// One certificate of 10,369 reachable pairs, none with a set within another's:
/// the set tells, as if event 0 had come before the word, which of the last
/// eleven events were 0, and of the last four which were 1 and which 2.
pub fn large_certificate() -> Vec<u8> {
    certificate_of([1, 2, 4], TWO_CHANNELS)
}

/// The same with a third of the 64 events for each of 0, 1 and 2.
pub fn four_certificate() -> Vec<u8> {
    let third = 0x9249_2492_4924_9249;
    certificate_of([third, third << 1, third << 2], u64::MAX)
}

fn certificate_of([zero, one, two]: [u64; 3], every: u64) -> Vec<u8> {
    let any = || Tree::Leaf(every).star();
    let tail = |tree: Tree, length| (0..length).fold(tree, |tree, _| tree.join(Tree::Leaf(every)));
    let longer = |tree: Tree, _| tree.either(Tree::Empty).join(Tree::Leaf(every));
    let zeros = (0..10).fold(any().join(Tree::Leaf(zero)), longer);
    let other = tail(Tree::Leaf(one), 3).either(tail(Tree::Leaf(two), 3));
    let others = any().join(tail(other, 7));
    let past = any().either(zeros).either(others);
    let (draft, _) = by_entry(Tree::Leaf(zero | one | two).star(), past);
    certify(draft.bytes(), LONGEST)
}

/// What makes a sheet whose condition 1 has 31 leaves, and a word, over these events.
type MakeWord = fn(u64) -> (Vec<u8>, Vec<u8>);

/// The words of the timings, with their names.
pub const WORDS: [(&str, MakeWord); 6] = [
    ("word in the same places", steady_word),
    ("word in changing places", changing_word),
    ("word in one place at a time", single_word),
    ("word wrong at its last event", late_word),
    ("short word beside a leaf of the set 0", short_word),
    ("short word before a leaf of the set 0", hopeless_word),
];

/// A word of 4,096 events that is held and stays in the same places.
pub fn steady_word(every: u64) -> (Vec<u8>, Vec<u8>) {
    with_word(alike(every, 31).star(), every, 4_096)
}

/// The same with a word that changes between sets of 15 and 16 places.
fn changing_word(every: u64) -> (Vec<u8>, Vec<u8>) {
    with_word(alike(every, 15).join(alike(every, 16)).star(), every, 4_096)
}

/// The same with a word of 4,092 events that is in one place at a time.
fn single_word(every: u64) -> (Vec<u8>, Vec<u8>) {
    with_word(chain(every, 31).star(), every, 4_092)
}

/// A word of 4,096 events that stays in the same places up to its last event, which no
/// leaf holds.
fn late_word(every: u64) -> (Vec<u8>, Vec<u8>) {
    let last = every.count_ones() - 1;
    let others = every & !(1 << last);
    let (sheet, mut word) = with_word(alike(others, 31).star(), others, 4_096);
    word[4_095] = last as u8;
    (sheet, word)
}

/// A word of one event that begins a word of 30 events.
fn short_word(every: u64) -> (Vec<u8>, Vec<u8>) {
    with_word(chain(every, 30).either(Tree::Leaf(0)), every, 1)
}

/// A word of one event, after which a leaf of the set 0 comes 30 leaves further on.
fn hopeless_word(every: u64) -> (Vec<u8>, Vec<u8>) {
    with_word(chain(every, 30).join(Tree::Leaf(0)), every, 1)
}

/// As many leaves, one after another.
fn chain(every: u64, leaves: usize) -> Tree {
    (1..leaves).fold(Tree::Leaf(every), |tree, _| tree.join(Tree::Leaf(every)))
}

fn with_word(tree: Tree, every: u64, length: usize) -> (Vec<u8>, Vec<u8>) {
    let mut draft = least();
    draft.conditions.push(tree);
    let word = (0..length).map(|i| (i as u32 % every.count_ones()) as u8).collect();
    (draft.certified(), word)
}
