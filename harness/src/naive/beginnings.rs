//! Three ways to find the longest beginning of a word that begins some word of a tree,
//! 0 if the tree holds no word.
use super::glushkov::Side;
use super::matching::{holds, MIDDLE, SHORT};
use crate::tree::Tree;

/// Trees up to so many records are tried cut by cut.
const FEW_RECORDS: usize = 12;

pub fn longest(tree: &Tree, word: &[u8]) -> usize {
    match word.len() {
        0..=SHORT if tree.records() <= FEW_RECORDS => by_cuts(tree, word),
        0..=MIDDLE => by_positions(tree, word),
        _ => by_places(tree, word),
    }
}

/// The longest beginning that begins a word by what JOIN, EITHER and STAR say.
pub fn by_cuts(tree: &Tree, word: &[u8]) -> usize {
    (0..=word.len()).rev().find(|&length| begins(tree, &word[..length])).unwrap_or(0)
}

/// Whether a tree holds a word.
fn holds_some(tree: &Tree) -> bool {
    match tree {
        Tree::Leaf(set) => *set != 0,
        Tree::Empty | Tree::Star(_) => true,
        Tree::Join(a, b) => holds_some(a) && holds_some(b),
        Tree::Either(a, b) => holds_some(a) || holds_some(b),
    }
}

/// Whether some word of a tree is this one, followed by any word.
fn begins(tree: &Tree, word: &[u8]) -> bool {
    let mut cuts = (0..=word.len()).map(|cut| word.split_at(cut));
    match tree {
        Tree::Leaf(_) if word.is_empty() => holds_some(tree),
        Tree::Leaf(_) | Tree::Empty => holds(tree, word),
        Tree::Join(a, b) => {
            let ends_in_b = cuts.any(|(one, two)| holds(a, one) && begins(b, two));
            ends_in_b || (begins(a, word) && holds_some(b))
        }
        Tree::Either(a, b) => begins(a, word) || begins(b, word),
        Tree::Star(a) => {
            word.is_empty() || cuts.any(|(one, two)| holds(tree, one) && begins(a, two))
        }
    }
}

/// The furthest position that any part of a match reaches, in a tree each part of which
/// holds a word.
pub fn by_positions(tree: &Tree, word: &[u8]) -> usize {
    let mut furthest = 0;
    if let Some(tree) = trimmed(tree) {
        reach(&tree, word, 1, &mut furthest);
    }
    furthest
}

/// The tree without parts that hold no word; nothing if it holds none.
fn trimmed(tree: &Tree) -> Option<Tree> {
    match tree {
        Tree::Leaf(0) => None,
        Tree::Leaf(_) | Tree::Empty => Some(tree.clone()),
        Tree::Join(a, b) => Some(trimmed(a)?.join(trimmed(b)?)),
        Tree::Either(a, b) => match (trimmed(a), trimmed(b)) {
            (Some(a), Some(b)) => Some(a.either(b)),
            (one, other) => one.or(other),
        },
        Tree::Star(a) => Some(trimmed(a).map_or(Tree::Empty, Tree::star)),
    }
}

/// Where a match may end, if it may start at any of some positions.
fn reach(tree: &Tree, word: &[u8], starts: u128, furthest: &mut usize) -> u128 {
    let ends = match tree {
        Tree::Leaf(set) => {
            let matches = |i: &usize| starts >> i & 1 == 1 && set >> word[*i] & 1 == 1;
            (0..word.len()).filter(matches).fold(0, |ends, i| ends | 2 << i)
        }
        Tree::Empty => starts,
        Tree::Join(a, b) => {
            let middle = reach(a, word, starts, furthest);
            reach(b, word, middle, furthest)
        }
        Tree::Either(a, b) => reach(a, word, starts, furthest) | reach(b, word, starts, furthest),
        Tree::Star(a) => {
            let mut reached = starts;
            loop {
                let more = reached | reach(a, word, reached, furthest);
                if more == reached {
                    break reached;
                }
                reached = more;
            }
        }
    };
    *furthest = (*furthest).max(ends.checked_ilog2().unwrap_or(0) as usize);
    ends
}

/// The last step after which an end can be reached from one of the places.
pub fn by_places(tree: &Tree, word: &[u8]) -> usize {
    let side = Side::new(tree);
    let finishes: Vec<bool> = (0..side.places()).map(|place| reaches_end(&side, place)).collect();
    let mut set = vec![0];
    for (length, &event) in word.iter().enumerate() {
        set = side.step(&set, event as usize);
        if !set.iter().any(|&place| finishes[place]) {
            return length;
        }
    }
    word.len()
}

/// Whether followers that hold an event lead from a place to one that ends a word.
fn reaches_end(side: &Side, place: usize) -> bool {
    let mut met = vec![place];
    let mut next = 0;
    while next < met.len() {
        let steps = (0..64).flat_map(|event| side.step(&met[next..=next], event));
        for place in steps.collect::<Vec<usize>>() {
            if !met.contains(&place) {
                met.push(place);
            }
        }
        next += 1;
    }
    met.into_iter().any(|place| side.ends(place))
}
