//! Conditions with leaves of the set 0, from which words cannot be finished.
use super::channels::longer_leaves;
use super::mutate::split;
use crate::random::Random;
use crate::tree::Tree;

/// Sheets with more bytes or conditions are at a limit, or near one, and stay as they are.
const MOST_BYTES: usize = 5_000;
const MOST_CONDITIONS: usize = 200;

/// A condition with one or more leaves of the set 0: first or further on in a JOIN, under
/// STAR, in an arm of EITHER. Not each holds a word.
pub fn tree(random: &mut Random) -> Tree {
    let [a, b, c] = [0; 3].map(|_| item(random));
    let dead = dead(random);
    let tree = match random.below(8) {
        0 => dead.join(a),
        1 => a.join(dead).join(b),
        2 => a.join(dead.star()).join(b),
        3 => a.join(b.either(dead)).join(c),
        4 => a.either(b.join(dead)).join(c),
        5 => a.either(b.join(dead)).star(),
        6 => a.join(b.join(dead).star()).join(c),
        _ => a.join(dead),
    };
    match random.below(5) {
        0 => tree.either(item(random)),
        1 | 2 => item(random).join(tree),
        3 => item(random).join(tree.either(item(random))).join(item(random)),
        _ => tree,
    }
}

/// A small tree, mostly with words.
fn item(random: &mut Random) -> Tree {
    let depth = random.below(3);
    Tree::random(random, depth)
}

/// A tree without words.
fn dead(random: &mut Random) -> Tree {
    let leaf = Tree::Leaf(0);
    match random.below(6) {
        0 => item(random).join(leaf),
        1 => leaf.join(item(random)),
        2 => leaf.either(Tree::Leaf(0)),
        _ => leaf,
    }
}

/// The sheet with one to three such conditions more, which nothing names. In a sheet of
/// the four-channel instrument some have leaves of 8 bytes and events above 31.
pub fn with_hopeless(sheet: &[u8], random: &mut Random) -> Vec<u8> {
    let mut records = split(sheet);
    let in_front = records.iter().take_while(|record| matches!(record[0], 1..=6 | 18 | 21)).count();
    let ends = |record: &Vec<u8>| record[0] == 6;
    let conditions = records.iter().filter(|record| ends(record)).count();
    let Some(last) = records[..in_front].iter().rposition(ends) else { return sheet.to_vec() };
    if sheet.len() > MOST_BYTES || conditions > MOST_CONDITIONS {
        return sheet.to_vec();
    }
    let four = records.iter().any(|record| matches!(record[0], 21 | 22));
    for _ in 0..1 + random.below(3) {
        records.insert(last + 1, condition(four, random));
    }
    records.concat()
}

/// The records of a condition, with its end.
fn condition(four: bool, random: &mut Random) -> Vec<u8> {
    let mut tree = tree(random);
    if four && random.once_in(2) {
        tree = tree.with_sets(&|set| set | set << 32 & 0xff_0000_0000);
    }
    let mut bytes = vec![];
    tree.write(&mut bytes);
    if four && random.once_in(2) {
        bytes = longer_leaves(&bytes, random);
    }
    bytes.push(6);
    bytes
}
