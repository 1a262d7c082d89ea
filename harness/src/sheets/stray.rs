//! Bytes and records at random, and sheets at or over a limit.
use super::draft::{Draft, Method, Step};
use crate::answer::Refusal;
use crate::instrument::{FOUR, KINDS};
use crate::random::Random;
use crate::reference;
use crate::tree::{Tree, TWO_CHANNELS};

/// The body lengths by kind; there is no kind 0.
pub const BODY: [usize; 23] =
    [0, 4, 0, 0, 0, 0, 0, 6, 6, 10, 5, 6, 4, 5, 0, 10, 16, 8, 0, 2, 8, 8, 7];
const SECTION: [usize; 23] = [0, 0, 0, 0, 0, 0, 0, 1, 2, 2, 3, 3, 3, 4, 4, 2, 2, 3, 0, 3, 1, 0, 3];

pub fn bytes(random: &mut Random) -> Vec<u8> {
    let length = random.below(40);
    let top = if random.once_in(2) { 256 } else { KINDS as usize + 2 };
    let mut out = edition(random);
    out.extend((0..length).map(|_| random.below(top) as u8));
    out
}

/// The record of the new edition, or none.
fn edition(random: &mut Random) -> Vec<u8> {
    vec![18; random.below(2)]
}

/// Records with kinds mostly ascending and names mostly small.
pub fn records(random: &mut Random) -> Vec<u8> {
    let mut out = edition(random);
    let new = !out.is_empty();
    let four = random.once_in(3);
    for _ in 0..random.below(5) {
        tokens(random, four, &mut out);
    }
    let kind = |random: &mut Random| match random.below(24) {
        0 => 18,
        1 | 2 if new || random.once_in(4) => 19,
        3 | 4 => 20,
        5..=8 if four => 22,
        _ => 7 + random.below(11) as u8,
    };
    let mut kinds: Vec<u8> = (0..random.below(12)).map(|_| kind(random)).collect();
    kinds.sort_by_key(|kind| SECTION[*kind as usize]);
    if random.once_in(6) {
        random.shuffle(&mut kinds);
    }
    for kind in kinds {
        out.push(kind);
        for i in 0..BODY[kind as usize] {
            let top = if random.once_in(40) { 256 } else { 2 };
            let low = i % 2 == 0;
            out.push(if low { random.below(top) as u8 } else { 0 });
        }
    }
    if random.once_in(8) {
        out.truncate(random.below(out.len()));
    }
    out
}

/// A condition record by record, now and then at fault; some leaves have sets of 8 bytes,
/// if it is for the four-channel instrument.
fn tokens(random: &mut Random, four: bool, out: &mut Vec<u8>) {
    let mut items = 0;
    for _ in 0..random.below(12) {
        let kind = match (items, random.below(40)) {
            (_, 0) => 1 + random.below(KINDS as usize) as u8,
            (0 | 1, _) => 1 + random.below(2) as u8,
            _ => 1 + random.below(5) as u8,
        };
        let kind = if four && kind == 1 && random.once_in(2) { 21 } else { kind };
        out.push(kind);
        out.extend((0..BODY[kind as usize]).map(|_| random.byte()));
        match kind {
            1 | 2 | 21 => items += 1,
            3 | 4 => items -= 1,
            _ => {}
        }
    }
    while items > 1 && !random.once_in(30) {
        out.push(4);
        items -= 1;
    }
    if items > 0 && !random.once_in(30) {
        out.push(6);
    }
}

/// The least sheet that is accepted.
pub fn least() -> Draft {
    let mut draft = Draft::default();
    draft.point(&Tree::Empty, &Tree::Empty, &Tree::Empty);
    draft.methods.push(Method::new(&[0; 3], &[0; 2]));
    draft
}

/// A sheet at a limit; one over it may have a second fault in that record.
pub fn at_a_limit(random: &mut Random) -> Vec<u8> {
    let mut sheet = many(random);
    if let Err(Refusal { number: 6 | 20, place: Some(at) }) = reference::read(&FOUR, &sheet) {
        if random.once_in(3) {
            let at = if sheet[at] < 7 { at } else { at + 1 };
            sheet[at] = 3;
        }
    }
    sheet
}

/// A sheet with exactly as many of something as is allowed, or one more.
fn many(random: &mut Random) -> Vec<u8> {
    let over = random.below(2);
    let mut draft = Draft { new_edition: random.once_in(2), ..least() };
    match random.below(15) {
        0 => draft.conditions.resize(256 + over, Tree::Empty),
        1 => draft.conditions.push((0..95 + over).fold(Tree::Empty, |tree, _| tree.star())),
        2 => draft.conditions.push(row(31 + over)),
        3 => draft.points.resize(FOUR.points + over, [0; 3]),
        4 => {
            let both = random.once_in(2);
            for _ in 1..64 + over {
                draft.methods.push(any_method(random, both));
            }
        }
        5 => draft.steps.resize(512 + over, Step::Pass(0, 0)),
        6 => draft.steps.resize(512 + over, Step::Call(0, 0, 0)),
        7 => return long(draft, FOUR.bytes + over),
        8 => {
            draft.methods.push(Method::new(&[0; 5], &[]));
            draft.steps.resize(512 + over, Step::Failing(0, 0, 0, 1));
        }
        9 => draft.steps.resize(512 + over, Step::Stop(0)),
        10 => {
            draft.steps.resize(511 + over, Step::Pass(0, 0));
            draft.steps.push(Step::Stop(0));
        }
        11 => draft.conditions.push(alike(u64::MAX, 31 + over)),
        12 => draft.conditions.push(row(15).either(alike(u64::MAX, 16 + over))),
        13 => {
            draft.methods.push(Method::new(&[0; 3], &[]));
            let channel = random.below(4) as u8;
            draft.steps.resize(512 + over, Step::Channel(0, 0, 1, channel));
        }
        _ => return vec![random.below(8) as u8; FOUR.bytes + over],
    }
    draft.certified()
}

/// A method with the names 0, of one outcome or, if both may be, of two.
fn any_method(random: &mut Random, both: bool) -> Method {
    match random.below(if both { 4 } else { 2 }) {
        0 => Method::new(&[0; 3], &[]),
        1 => Method::new(&[0; 3], &[0; 2]),
        2 => Method::new(&[0; 5], &[]),
        _ => Method::new(&[0; 5], &[0; 3]),
    }
}

/// As many leaves with this set, one or the other.
pub fn alike(set: u64, leaves: usize) -> Tree {
    (1..leaves).fold(Tree::Leaf(set), |tree, _| tree.either(Tree::Leaf(set)))
}

/// As many leaves of events 0 to 31, one or the other.
pub fn row(leaves: usize) -> Tree {
    alike(TWO_CHANNELS, leaves)
}

/// A sheet with pairs up to a length.
fn long(draft: Draft, length: usize) -> Vec<u8> {
    let mut out = draft.certified();
    out.pop();
    while out.len() + 7 <= length {
        out.extend_from_slice(&[13, 0, 1, 0, 0, 0]);
    }
    out.resize(length, 14);
    out
}
