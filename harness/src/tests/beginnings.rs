//! What request 3 adds: no has the length of the longest beginning of the word that begins
//! some word of the condition.
mod all;
mod mistakes;

use super::{every, hex, tests_on, BODY, POINT};
use crate::instrument::{ALL, FOUR, LARGE};
use crate::reference::{self, Walk};
use crate::tree::Tree;

/// A sheet with one condition.
fn with(tree: &Tree) -> Vec<u8> {
    let mut sheet = vec![];
    tree.write(&mut sheet);
    [sheet, hex(&format!("06 {POINT} {BODY}"))].concat()
}

/// Every loader prints this line for a word on every instrument.
fn says(tree: &Tree, word: &[u8], line: &str) {
    for on in ALL {
        tests_on(&on, &with(tree), 0, word, line);
    }
}

fn event(event: u8) -> Tree {
    Tree::event(event)
}

fn dead() -> Tree {
    Tree::Leaf(0)
}

/// Of a word that is a beginning the number is its length, of another the index of the
/// first event that no word of the condition has there.
#[test]
fn words_that_are_beginnings() {
    let tree = event(0).join(event(1)).join(event(2));
    says(&tree, &[0, 1, 2], "yes");
    for (word, line) in [
        (&[][..], "no 0"),
        (&[0], "no 1"),
        (&[0, 1], "no 2"),
        (&[1], "no 0"),
        (&[0, 0], "no 1"),
        (&[0, 2, 1], "no 1"),
        (&[0, 1, 1], "no 2"),
        (&[0, 1, 2, 2], "no 3"),
        (&[0, 1, 2, 0, 1, 2], "no 3"),
        (&[1, 1, 2], "no 0"),
    ] {
        says(&tree, word, line);
    }
}

/// A held word may be followed by an event that is wrong; a star goes on.
#[test]
fn words_longer_than_held_ones() {
    let tree = event(0).join(event(1)).star();
    for (word, line) in [
        (&[][..], "yes"),
        (&[0], "no 1"),
        (&[0, 1, 0], "no 3"),
        (&[0, 1, 1], "no 2"),
        (&[0, 1, 0, 0, 1], "no 3"),
        (&[1, 0], "no 0"),
    ] {
        says(&tree, word, line);
    }
}

/// After 1 the set has a place, and no word can be finished.
#[test]
fn a_place_without_hope() {
    let tree = event(0).either(event(1).join(dead())).join(event(2));
    for (word, line) in [
        (&[][..], "no 0"),
        (&[1], "no 0"),
        (&[1, 2], "no 0"),
        (&[0], "no 1"),
        (&[0, 2], "yes"),
        (&[0, 2, 2], "no 2"),
        (&[0, 1], "no 1"),
    ] {
        says(&tree, word, line);
    }
}

#[test]
fn a_dead_leaf_in_a_join() {
    let [first, middle, last] = [
        dead().join(event(0)),
        event(0).join(dead()).join(event(1)),
        event(0).join(event(1)).join(dead()),
    ];
    for tree in [first, middle, last] {
        for word in [&[][..], &[0], &[0, 1], &[1], &[0, 1, 1]] {
            says(&tree, word, "no 0");
            says(&tree.clone().either(event(2).join(event(3))), word, "no 0");
        }
        says(&tree.clone().either(event(0).join(event(3))), &[0, 1], "no 1");
        says(&event(2).join(tree.either(Tree::Empty)), &[2, 0, 1], "no 1");
    }
}

#[test]
fn a_dead_leaf_under_star() {
    says(&dead().star(), &[], "yes");
    says(&dead().star(), &[0], "no 0");
    let tree = event(0).join(dead().star()).join(event(1));
    says(&tree, &[0], "no 1");
    says(&tree, &[0, 1], "yes");
    says(&tree, &[0, 1, 1], "no 2");
    let tree = event(0).join(event(1).join(dead()).star()).join(event(2));
    says(&tree, &[0, 1], "no 1");
    says(&tree, &[0, 1, 1, 2], "no 1");
    says(&tree, &[0, 2], "yes");
    let tree = event(0).either(event(1).join(dead())).star();
    says(&tree, &[0, 0, 1], "no 2");
    says(&tree, &[0, 0, 1, 0], "no 2");
    says(&tree, &[0, 0], "yes");
}

#[test]
fn a_dead_leaf_in_an_arm() {
    for arm in [event(1).either(dead()), dead().either(event(1))] {
        let tree = event(0).join(arm).join(event(2));
        says(&tree, &[0], "no 1");
        says(&tree, &[0, 1], "no 2");
        says(&tree, &[0, 2], "no 1");
        says(&tree, &[0, 1, 2], "yes");
    }
    let arm = event(1).join(dead());
    for arms in [arm.clone().either(event(1)), event(1).either(arm)] {
        says(&arms, &[1], "yes");
        says(&arms, &[1, 1], "no 1");
    }
}

#[test]
fn conditions_without_words() {
    let any = Tree::any();
    let trees = [
        dead(),
        dead().either(dead()),
        dead().join(any.clone()),
        any.clone().join(dead()),
        any.clone().join(dead()).join(any.clone()),
        any.clone().join(dead()).either(dead().join(any.clone())),
        any.clone().join(dead().either(event(0).join(dead()))),
        any.clone().join(Tree::Empty.join(dead())),
    ];
    for tree in trees {
        for length in [0, 1, 2, 130, 4_096] {
            says(&tree, &vec![0; length], "no 0");
        }
        says(&tree.clone().star(), &[], "yes");
        says(&tree.either(Tree::Empty), &[0], "no 0");
    }
}

/// Refusals come first, also where the condition has no words.
#[test]
fn refusals_come_first() {
    for tree in [dead(), event(0).join(event(1))] {
        let sheet = with(&tree);
        for on in ALL {
            tests_on(&on, &sheet, 1, &[64; 4_097], "refused 14");
            tests_on(&on, &sheet, 0, &[64; 4_097], "refused 12");
            tests_on(&on, &sheet, 0, &[1, on.events], "refused 13 at 1");
            tests_on(&on, &sheet[..4], 0, &[1], "refused 3 at 0");
        }
    }
}

/// Words of 4,096 events, wrong at one of them: there is no place, or one without hope.
#[test]
fn wrong_at_any_of_4096_events() {
    let plain = event(0).star();
    let hopeless = event(0).either(event(1).join(dead())).star();
    let chain = event(0).join(event(0)).either(event(1).join(event(0)).join(dead())).star();
    for at in [0, 1, 2, 63, 64, 2_047, 4_094, 4_095] {
        let mut word = [0; 4_096];
        word[at] = 1;
        for tree in [&plain, &hopeless] {
            says(tree, &word, &format!("no {at}"));
        }
        // At an even index the event leads to a place without hope, at an odd one to none.
        says(&chain, &word, &format!("no {at}"));
    }
    says(&plain, &[0; 4_096], "yes");
    says(&chain, &[0; 4_095], "no 4095");
    says(&plain.join(event(1)), &[0; 4_096], "no 4096");
}

/// Events above 31, and leaves of 8 bytes with the set 0.
#[test]
fn four_channels() {
    let high = Tree::Leaf(1 << 63).join(Tree::Leaf(1 << 32)).either(event(31).join(dead()));
    for (word, line) in [
        (&[][..], "no 0"),
        (&[63], "no 1"),
        (&[63, 32], "yes"),
        (&[63, 0], "no 1"),
        (&[31], "no 0"),
        (&[63, 32, 32], "no 2"),
    ] {
        tests_on(&FOUR, &with(&high), 0, word, line);
    }
    let zero = "15 00000000 00000000";
    let long = format!("01 01000000 {zero} 03 01 02000000 04 {zero} 05 03 06 {POINT} {BODY}");
    for (word, line) in [(&[0][..], "no 0"), (&[1], "yes"), (&[1, 0], "no 1"), (&[], "no 0")] {
        tests_on(&FOUR, &hex(&long), 0, word, line);
    }
}

/// The walk that stops at the empty set alone.
#[test]
fn sets_without_hope() {
    let hopeless = event(0).join(event(1)).join(dead()).either(event(0));
    let walk = |tree: &Tree, word: &[u8]| reference::walk(&LARGE, &with(tree), 0, word).unwrap();
    for (word, held, without_hope) in [
        (&[][..], false, false),
        (&[0], true, false),
        (&[0, 1], false, true),
        (&[0, 0], false, false),
        (&[0, 1, 1], false, true),
    ] {
        assert_eq!(walk(&hopeless, word), Walk { held, hopeless: without_hope }, "{word:?}");
    }
}

/// The line is the number in decimal behind `no`.
#[test]
fn lines() {
    for doors in every() {
        let answer =
            (doors.word_test)(&LARGE, &with(&event(0).star()), 0, &[[0; 12], [1; 12]].concat());
        assert_eq!(answer.to_string(), "no 12", "{}", doors.name);
    }
}
