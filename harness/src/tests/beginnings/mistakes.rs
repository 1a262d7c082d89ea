//! Word tests that are wrong in one thing are found by the comparison.
use crate::answer::{Answer, Doors};
use crate::compare;
use crate::former::OldTest;
use crate::instrument::Instrument;
use crate::naive::{self, Side};
use crate::reference;

/// What a word test is wrong about.
#[derive(Clone, Copy, PartialEq)]
enum Mistake {
    Nothing,
    /// A word can be finished from every set that is not empty.
    NotEmpty,
    /// The event that is wrong is counted.
    OneTooFar,
    /// A condition without words gives the word's length.
    NoWords,
    /// A word can be finished by leaves with the set 0.
    DeadLeaves,
    /// A word that is a beginning gives no number.
    Beginnings,
    /// A place from which no word can be finished ends the test though others remain.
    AnyWithoutHope,
}

/// Whether an end can be reached from a place, by leaves that hold an event, or by all.
fn reaches(side: &Side, place: usize, all: bool) -> bool {
    let mut met = vec![place];
    let mut next = 0;
    while next < met.len() {
        let holds = |leaf: usize| all || (0..64).any(|event| side.leaf_holds(leaf, event));
        let more: Vec<usize> =
            side.follow(met[next]).iter().copied().filter(|&l| holds(l)).collect();
        met.extend(more.into_iter().filter(|leaf| !met.contains(leaf)).collect::<Vec<usize>>());
        next += 1;
    }
    met.into_iter().any(|place| side.ends(place))
}

/// The word test with a mistake; refusals, and whether a word is held, are the reference's.
fn test(mistake: Mistake, on: &Instrument, bytes: &[u8], condition: usize, word: &[u8]) -> Answer {
    let right = reference::word_test(on, bytes, condition, word);
    if !matches!(right, Answer::No(_)) {
        return right;
    }
    let sheet = naive::read_sheet(on, bytes).unwrap_or_default();
    let side = Side::new(&sheet.conditions[condition]);
    let live = |place: &usize| reaches(&side, *place, mistake == Mistake::DeadLeaves);
    if mistake == Mistake::NoWords && !live(&0) {
        return Answer::No(word.len());
    }
    let live: Vec<bool> = (0..side.places()).map(|place| live(&place)).collect();
    let mut set = vec![0];
    for (length, &event) in word.iter().enumerate() {
        set = side.step(&set, event as usize);
        let goes_on = match mistake {
            Mistake::NotEmpty => !set.is_empty(),
            Mistake::AnyWithoutHope => !set.is_empty() && set.iter().all(|&place| live[place]),
            _ => set.iter().any(|&place| live[place]),
        };
        if !goes_on {
            return Answer::No(length + (mistake == Mistake::OneTooFar) as usize);
        }
    }
    Answer::No(if mistake == Mistake::Beginnings { 0 } else { word.len() })
}

/// The differences that the comparison finds.
fn found(word_test: fn(&Instrument, &[u8], usize, &[u8]) -> Answer) -> usize {
    let mistaken = Doors { name: "mistaken", word_test, ..reference::DOORS };
    compare::compare(&reference::DOORS, &mistaken, 250, 33)
}

#[test]
fn no_mistake() {
    assert_eq!(found(|on, sheet, i, word| test(Mistake::Nothing, on, sheet, i, word)), 0);
}

#[test]
fn hope_wherever_the_set_is_not_empty() {
    assert!(found(|on, sheet, i, word| test(Mistake::NotEmpty, on, sheet, i, word)) > 20);
}

#[test]
fn one_event_too_far() {
    assert!(found(|on, sheet, i, word| test(Mistake::OneTooFar, on, sheet, i, word)) > 20);
}

#[test]
fn the_length_where_there_are_no_words() {
    assert!(found(|on, sheet, i, word| test(Mistake::NoWords, on, sheet, i, word)) > 20);
}

#[test]
fn hope_by_dead_leaves() {
    assert!(found(|on, sheet, i, word| test(Mistake::DeadLeaves, on, sheet, i, word)) > 20);
}

#[test]
fn beginnings_without_their_length() {
    assert!(found(|on, sheet, i, word| test(Mistake::Beginnings, on, sheet, i, word)) > 20);
}

#[test]
fn no_hope_if_one_place_has_none() {
    assert!(found(|on, sheet, i, word| test(Mistake::AnyWithoutHope, on, sheet, i, word)) > 5);
}

/// Another yes or no than the old test's is found.
#[test]
fn the_old_test_can_be_contradicted() {
    let mut old = OldTest::default();
    assert!(old.count(true, &Answer::Yes) && old.count(false, &Answer::No(3)));
    assert!(!old.count(true, &Answer::No(3)) && !old.count(false, &Answer::Yes));
    let yes_for_beginnings =
        |on: &Instrument, sheet: &[u8], condition, word: &[u8]| match reference::word_test(
            on, sheet, condition, word,
        ) {
            Answer::No(length) if length == word.len() => Answer::Yes,
            answer => answer,
        };
    assert!(found(yes_for_beginnings) > 20);
}
