//! Three ways to test a word, none of them with bit sets of places.
use super::glushkov::{empty, Side};
use crate::tree::Tree;

/// Words up to this length are tried choice by choice.
pub const SHORT: usize = 8;
/// Words up to this length have their positions in one number.
pub const MIDDLE: usize = 120;
/// Choices tried before giving up.
const FUEL: usize = 20_000;

pub fn holds_empty(tree: &Tree) -> bool {
    empty(tree)
}

pub fn holds(tree: &Tree, word: &[u8]) -> bool {
    if word.len() <= SHORT {
        if let Some(answer) = backtrack(tree, word) {
            return answer;
        }
    }
    if word.len() <= MIDDLE {
        return positions(tree, word, 1) >> word.len() & 1 == 1;
    }
    let side = Side::new(tree);
    let mut set = vec![0];
    for &event in word {
        set = side.step(&set, event as usize);
    }
    set.iter().any(|&place| side.ends(place))
}

/// Tries one choice after another; nothing if the fuel runs out.
pub fn backtrack(tree: &Tree, word: &[u8]) -> Option<bool> {
    let mut fuel = FUEL;
    let found = attempt(tree, word, 0, &mut fuel, &mut |at, _| at == word.len());
    match (found, fuel) {
        (true, _) => Some(true),
        (false, 0) => None,
        (false, _) => Some(false),
    }
}

/// What remains to be matched after a position.
type Rest<'a> = dyn FnMut(usize, &mut usize) -> bool + 'a;

fn attempt(tree: &Tree, word: &[u8], at: usize, fuel: &mut usize, rest: &mut Rest) -> bool {
    if *fuel == 0 {
        return false;
    }
    *fuel -= 1;
    match tree {
        Tree::Leaf(set) => at < word.len() && set >> word[at] & 1 == 1 && rest(at + 1, fuel),
        Tree::Empty => rest(at, fuel),
        Tree::Join(a, b) => {
            attempt(a, word, at, fuel, &mut |mid, fuel| attempt(b, word, mid, fuel, rest))
        }
        Tree::Either(a, b) => attempt(a, word, at, fuel, rest) || attempt(b, word, at, fuel, rest),
        Tree::Star(a) => {
            rest(at, fuel)
                || attempt(a, word, at, fuel, &mut |mid, fuel| {
                    mid > at && attempt(tree, word, mid, fuel, rest)
                })
        }
    }
}

/// Where a match may end, if it may start at any of some positions.
pub fn positions(tree: &Tree, word: &[u8], starts: u128) -> u128 {
    match tree {
        Tree::Leaf(set) => {
            let matches = |i: &usize| starts >> i & 1 == 1 && set >> word[*i] & 1 == 1;
            (0..word.len()).filter(matches).fold(0, |ends, i| ends | 2 << i)
        }
        Tree::Empty => starts,
        Tree::Join(a, b) => positions(b, word, positions(a, word, starts)),
        Tree::Either(a, b) => positions(a, word, starts) | positions(b, word, starts),
        Tree::Star(a) => {
            let mut reached = starts;
            loop {
                let more = reached | positions(a, word, reached);
                if more == reached {
                    return reached;
                }
                reached = more;
            }
        }
    }
}
