//! Rules, places and clauses.
use super::{loads, tests, BOTH};
use crate::answer::Verdict;
use crate::instrument::LARGE;
use crate::random::Random;
use crate::sheets::{self, certificate, Draft, Method, Step};
use crate::tree::Tree;

type Pairs = [(usize, u32)];

/// A sheet whose rule 3 asks left in right, with this certificate.
fn asks(left: Tree, right: Tree, pairs: &Pairs) -> Vec<u8> {
    let mut draft = sheets::least();
    draft.methods[0].conditions[0] = draft.condition(&left);
    draft.points[0][0] = draft.condition(&right);
    let mut out = draft.bytes();
    for pairs in [pairs, &[(0, 1)], &[(0, 1)]] {
        certificate(&mut out, pairs);
    }
    out
}

fn fault(left: &Tree, right: &Tree, pairs: &Pairs, rest: &str) {
    let sheet = asks(left.clone(), right.clone(), pairs);
    loads(&sheet, &format!("unproved rule 3 method 0 {rest}"));
}

fn optional(events: &[u8]) -> Tree {
    events.iter().fold(Tree::Empty, |tree, &e| tree.either(Tree::event(e)))
}

#[test]
fn first_pair() {
    let any = Tree::any();
    let first = "clause 1 pair 0 event 0 place 0";
    let lists: [&Pairs; 5] = [&[], &[(0, 0)], &[(0, 3)], &[(1, 1)], &[(1, 2), (0, 1)]];
    for pairs in lists {
        fault(&any, &any, pairs, first);
    }
    loads(&asks(any.clone(), any, &[(0, 1), (1, 2)]), "accepted 6");
}

#[test]
fn places_of_a_pair() {
    let any = Tree::any();
    for pair in [(2, 2), (255, 2), (63, 2), (64, 2), (1, 4), (1, 1 << 31)] {
        fault(&any, &any, &[(0, 1), (1, 2), pair], "clause 2 pair 2 event 0 place 0");
    }
    // Clause 4 of an earlier pair comes before clause 2 of a later one.
    fault(&any, &any, &[(0, 1), (2, 2)], "clause 4 pair 0 event 0 place 1");
}

#[test]
fn ends_of_a_pair() {
    let any = Tree::any();
    fault(&any, &any, &[(0, 1), (1, 2), (1, 0)], "clause 3 pair 2 event 0 place 0");
    fault(&any, &any, &[(0, 1), (1, 0)], "clause 3 pair 1 event 0 place 0");
}

#[test]
fn a_listed_set_lies_within() {
    // Left: 0 or nothing; right: 0 or 0 or 1 or nothing.
    let (left, right) = (optional(&[0]), optional(&[0, 0, 1]));
    loads(&asks(left.clone(), right.clone(), &[(0, 1), (1, 6)]), "accepted 6");
    loads(&asks(left.clone(), right.clone(), &[(0, 1), (1, 2)]), "accepted 6");
    loads(&asks(left.clone(), right.clone(), &[(0, 1), (1, 14), (1, 4)]), "accepted 6");
    fault(&left, &right, &[(0, 1), (1, 14)], "clause 4 pair 0 event 0 place 1");
    fault(&left, &right, &[(0, 1), (1, 7)], "clause 4 pair 0 event 0 place 1");
}

#[test]
fn first_event_then_first_place() {
    // Left places 1 and 2 hold 5 and 3.
    let left = optional(&[5, 3]);
    fault(&left, &Tree::any(), &[(0, 1)], "clause 4 pair 0 event 3 place 2");
    fault(&left, &Tree::any(), &[(0, 1), (2, 2)], "clause 4 pair 0 event 5 place 1");
    let left = Tree::Empty.either(Tree::Leaf(0x8000_0000)).either(Tree::Leaf(0x8000_0000));
    fault(&left, &Tree::any(), &[(0, 1)], "clause 4 pair 0 event 31 place 1");
    fault(&left, &Tree::any(), &[(0, 1), (1, 2)], "clause 4 pair 0 event 31 place 2");
}

#[test]
fn an_empty_set_serves_where_nothing_ends() {
    // Left: nothing, or 0 and then a leaf that holds no event.
    let left = Tree::Empty.either(Tree::event(0).join(Tree::Leaf(0)));
    loads(&asks(left, Tree::Empty, &[(0, 1), (1, 0)]), "accepted 6");
}

/// Two points and one step; every condition but those named holds all words.
fn one_step(step: Step, p: [&Tree; 3], q: [&Tree; 3]) -> Draft {
    let any = Tree::any();
    let mut draft = Draft::default();
    let name = draft.condition(&any);
    draft.point(&any, &any, &any);
    draft.point(p[0], p[1], p[2]);
    draft.point(q[0], q[1], q[2]);
    draft.methods.push(Method::new(&[name; 3], &[0, 0]));
    draft.steps.push(step);
    draft
}

#[test]
fn the_event_is_the_last_place_and_the_first() {
    let any = Tree::any();
    let all = [&any, &any, &any];
    let mut sheet = one_step(Step::Event(1, 2, 4), all, all).bytes();
    let (one, two): (&Pairs, &Pairs) = (&[(0, 1), (1, 2)], &[(0, 1), (1, 2), (2, 2)]);
    for pairs in [one, one, one, two] {
        certificate(&mut sheet, pairs);
    }
    let rest = sheet.clone();
    certificate(&mut sheet, &[(0, 1), (1, 2)]);
    certificate(&mut sheet, two);
    loads(&sheet, "unproved rule 8 step 0 clause 4 pair 0 event 4 place 2");
    let mut sheet = rest;
    certificate(&mut sheet, two);
    certificate(&mut sheet, &[(0, 1), (2, 2)]);
    loads(&sheet, "unproved rule 9 step 0 clause 4 pair 0 event 4 place 1");
}

#[test]
fn a_last_leaf_does_not_end_the_join() {
    // own(p) is 0 and T is 1: the left place 1 ends no word.
    let (any, zero, one) = (Tree::any(), Tree::event(0), Tree::event(1));
    let both = zero.clone().join(one.clone());
    let mut draft = one_step(Step::Call(1, 2, 1), [&any, &zero, &any], [&any, &both, &any]);
    let trace = draft.condition(&one);
    draft.methods.push(Method::new(&[0, trace, 0], &[]));
    loads(&draft.certified(), "accepted 11");
    draft.points[2][1] = draft.points[1][1];
    loads(&draft.certified(), "unproved rule 12 step 0 clause 3 pair 2 event 0 place 0");
}

#[test]
fn a_close_that_is_followed_by_an_open() {
    // Call "close", then event 0, and round again: its future says no.
    let any = Tree::any();
    let future = Tree::Empty.either(Tree::event(2).join(Tree::any()));
    let mut draft = one_step(Step::Event(0, 1, 0), [&any; 3], [&any; 3]);
    draft.steps.push(Step::Call(1, 0, 1));
    let names = [&any, &Tree::event(1), &future].map(|tree| draft.condition(tree));
    draft.methods.push(Method::new(&names, &[]));
    let sheet = draft.certified();
    loads(&sheet, "unproved rule 13 step 1 clause 3 pair 1 event 0 place 0");
    tests(&sheet, names[2], &[2, 1, 0], "yes");
}

#[test]
fn no_point_conditions_help_the_close() {
    let mut random = Random::new(3);
    for _ in 0..300 {
        let mut draft = one_step(Step::Event(0, 1, 0), [&Tree::any(); 3], [&Tree::any(); 3]);
        draft.steps.push(Step::Call(1, 0, 1));
        let future = Tree::Empty.either(Tree::event(2).join(Tree::any()));
        let names = [&Tree::any(), &Tree::event(1), &future].map(|tree| draft.condition(tree));
        draft.methods.push(Method::new(&names, &[]));
        for point in 0..2 {
            let tree = Tree::random(&mut random, 3);
            draft.points[point][2] = draft.condition(&tree);
        }
        for doors in BOTH {
            let verdict = (doors.load)(&LARGE, &draft.certified());
            assert!(!matches!(verdict, Verdict::Accepted(_)));
        }
    }
}

#[test]
fn both_sides_joined_have_62_leaves() {
    let heavy = sheets::row(31).star();
    let mut draft = one_step(Step::Call(1, 2, 1), [&heavy; 3], [&heavy; 3]);
    let name = draft.condition(&heavy);
    draft.methods.push(Method::new(&[0, name, 0], &[]));
    loads(&draft.certified(), "accepted 11");
}
