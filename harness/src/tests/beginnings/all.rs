//! All small conditions, and random words, by several implementations.
use super::{every, with};
use crate::answer::Answer;
use crate::instrument::{ALL, FOUR};
use crate::random::Random;
use crate::sheets::{self, Test};
use crate::tree::Tree;
use crate::{derivatives, naive};

/// The events of the small conditions, and the longest word of the brute force.
const EVENTS: usize = 2;
const LONGEST: usize = 6;

/// A set of words of events 0 and 1: a word is a number with its events behind a 1.
type Words = u128;

/// All trees of so many records over the events 0 and 1, by their number of records.
fn trees(records: usize) -> Vec<Vec<Tree>> {
    let mut all = vec![vec![]];
    let sets = (0..1 << EVENTS).map(Tree::Leaf);
    all.push(sets.chain([Tree::Empty]).collect::<Vec<Tree>>());
    for size in 2..=records {
        let mut made: Vec<Tree> = all[size - 1].iter().cloned().map(Tree::star).collect();
        for first in 1..size - 1 {
            for a in &all[first] {
                let others = all[size - 1 - first].iter();
                made.extend(
                    others.flat_map(|b| [a.clone().join(b.clone()), a.clone().either(b.clone())]),
                );
            }
        }
        all.push(made);
    }
    all
}

/// How many events a word has.
fn events_in(word: u128) -> u32 {
    word.ilog2()
}

/// The words of a set, as numbers.
fn members(words: Words) -> impl Iterator<Item = u128> {
    (1..128).filter(move |word| words >> word & 1 == 1)
}

/// The words of one set, each followed by one of the other, up to the longest.
fn joined(one: Words, two: Words) -> Words {
    let mut all = 0;
    for a in members(one) {
        for b in members(two).filter(|&b| (events_in(a) + events_in(b)) as usize <= LONGEST) {
            let behind = b - (1 << events_in(b));
            all |= 1 << (a << events_in(b) | behind);
        }
    }
    all
}

/// The words of a tree up to the longest, as the document has them.
fn language(tree: &Tree) -> Words {
    match tree {
        Tree::Leaf(set) => (*set as Words & 1) << 2 | (*set as Words >> 1 & 1) << 3,
        Tree::Empty => 1 << 1,
        Tree::Join(a, b) => joined(language(a), language(b)),
        Tree::Either(a, b) => language(a) | language(b),
        Tree::Star(a) => {
            let item = language(a);
            (0..LONGEST).fold(1 << 1, |all, _| all | joined(all, item))
        }
    }
}

/// The number of a word, if it has no other events.
fn number(word: &[u8]) -> Option<u128> {
    let events = word.iter().all(|&event| (event as usize) < EVENTS);
    events.then(|| word.iter().fold(1, |number, &event| number << 1 | event as u128))
}

/// The answer by the list of words: a tree of three leaves needs no more than three
/// events to finish a word.
fn by_brute_force(words: Words, word: &[u8]) -> Answer {
    if number(word).is_some_and(|number| words >> number & 1 == 1) {
        return Answer::Yes;
    }
    let begins = |length: &usize| {
        let Some(beginning) = number(&word[..*length]) else { return false };
        let more = |word: u128| events_in(word).checked_sub(*length as u32);
        members(words).any(|word| more(word).is_some_and(|more| word >> more == beginning))
    };
    Answer::No((0..=word.len()).rev().find(begins).unwrap_or(0))
}

/// All words of the events 0 and 1 and of one that no leaf holds, up to three events.
fn short_words() -> Vec<Vec<u8>> {
    let mut all = vec![vec![]];
    for length in 0..3 {
        let last: Vec<Vec<u8>> = all.iter().filter(|word| word.len() == length).cloned().collect();
        all.extend(last.iter().flat_map(|word| (0..3).map(|event| [&word[..], &[event]].concat())));
    }
    all
}

/// Every tree of up to six records, with every short word; those of up to five by
/// derivatives too, and by each way of the naive loader.
#[test]
fn all_small_conditions() {
    let words = short_words();
    assert_eq!(words.len(), 40);
    let mut cases = 0;
    for tree in trees(6).iter().flatten() {
        let (held, sheet) = (language(tree), with(tree));
        for word in &words {
            let expected = by_brute_force(held, word);
            for doors in every() {
                let found = (doors.word_test)(&FOUR, &sheet, 0, word);
                assert_eq!(found, expected, "{}: {tree:?} {word:?}", doors.name);
            }
            if tree.records() < 6 {
                others_agree(tree, word, expected);
            }
            cases += 1;
        }
    }
    assert_eq!(cases, 40 * (5 + 5 + 55 + 155 + 1_305 + 5_505));
}

/// Derivatives, and each way of the naive loader that takes a word of this length.
fn others_agree(tree: &Tree, word: &[u8], expected: Answer) {
    assert_eq!(derivatives::word_test(tree, word), expected, "{tree:?} {word:?}");
    let Answer::No(length) = expected else { return };
    if word.len() <= 8 && tree.records() <= 12 {
        assert_eq!(naive::by_cuts(tree, word), length, "{tree:?} {word:?}");
    }
    if word.len() <= 120 {
        assert_eq!(naive::by_positions(tree, word), length, "{tree:?} {word:?}");
    }
    if word.len() <= 200 {
        assert_eq!(naive::by_places(tree, word), length, "{tree:?} {word:?}");
    }
}

/// A condition that mostly has leaves of the set 0.
fn condition(random: &mut Random) -> Tree {
    let tree = match random.below(4) {
        0 => Tree::random(random, 4),
        1 => sheets::hopeless(random).join(sheets::hopeless(random)),
        _ => sheets::hopeless(random),
    };
    match tree.fits() {
        true => tree,
        false => condition(random),
    }
}

/// 10,000 words that are not refused, on random conditions: every loader on every
/// instrument, derivatives, and each way of the naive loader.
#[test]
fn random_words() {
    let mut random = Random::new(31);
    let mut seen = [0; 5];
    while seen.iter().sum::<usize>() < 10_000 {
        let tree = condition(&mut random);
        let sheet = with(&tree);
        for Test { condition, word } in sheets::words(&sheet, &mut random) {
            if condition > 0 || word.len() > 4_096 || word.iter().any(|&event| event > 31) {
                continue;
            }
            let expected = derivatives::word_test(&tree, &word);
            others_agree(&tree, &word, expected);
            for doors in every() {
                for on in ALL {
                    let found = (doors.word_test)(&on, &sheet, 0, &word);
                    assert_eq!(found, expected, "{}: {tree:?} {word:?}", doors.name);
                }
            }
            seen[match expected {
                Answer::Yes => 0,
                Answer::No(0) if word.is_empty() => 1,
                Answer::No(0) => 2,
                Answer::No(length) if length == word.len() => 3,
                _ => 4,
            }] += 1;
        }
    }
    assert!(seen.iter().all(|&count| count > 400), "{seen:?}");
}
