//! Runs whose calls fail.
use crate::answer::Verdict;
use crate::instrument::LARGE;
use crate::naive::{self, Outcome};
use crate::random::Random;
use crate::runs::{Broken, Languages, Move, Run};
use crate::sheets::{self, Draft, Method, Step};
use crate::simulate::Totals;
use crate::tests::runs::{make, read, refuses};
use crate::tree::Tree;
use Outcome::{Failed, Normal};

fn step(number: usize, outcome: Outcome, word: &[u8]) -> Move {
    Move::Step(number, outcome, word.to_vec())
}

/// A gate that may not open. Event 0 is open, 1 is close, 2 is a warning. Method 0
/// goes from point 0 to 1 by the primitive `open`, which must be followed by a close,
/// then closes, to point 2; where `open` fails, which raises 2 or nothing, it goes to
/// its failed exit, point 3, and nothing may follow.
fn gate() -> Draft {
    let empty = Tree::Empty;
    let [open, close, warning] = [0, 1, 2].map(Tree::event);
    let failed = warning.either(Tree::Empty);
    let closes = Tree::any().join(close.clone());
    let whole = open.clone().join(close.clone());
    let mut draft = Draft::default();
    draft.point(&empty, &empty, &Tree::any());
    draft.point(&open, &open, &close);
    draft.point(&whole, &whole, &empty);
    draft.point(&failed, &failed, &empty);
    let names = [&empty, &whole, &empty, &failed, &empty].map(|tree| draft.condition(tree));
    draft.methods.push(Method::new(&names, &[0, 2, 3]));
    let names = [&empty, &open, &closes, &failed, &empty].map(|tree| draft.condition(tree));
    draft.methods.push(Method::new(&names, &[]));
    draft.steps = vec![Step::Failing(0, 1, 3, 1), Step::Event(1, 2, 1)];
    draft
}

#[test]
fn a_gate_that_opens_is_closed() {
    let draft = gate();
    assert_eq!(naive::load(&LARGE, &draft.certified()), Verdict::Accepted(21));
    let sheet = read(&draft);
    let mut languages = Languages::new(&sheet);
    let mut run = Run::start(&sheet);
    refuses(&mut run, &[step(0, Normal, &[]), step(0, Normal, &[2]), step(0, Failed, &[0])]);
    make(&mut run, &[step(0, Normal, &[0])]);
    assert_eq!((run.point, run.calls[1].returned), (1, Some((1, Normal))));
    refuses(&mut run, &[Move::Return(Normal), Move::Return(Failed)]);
    // An event step does not read the outcome and the word.
    make(&mut run, &[step(1, Failed, &[7])]);
    assert_eq!((run.point, run.history.as_slice()), (2, &[0, 1][..]));
    refuses(&mut run, &[Move::Return(Failed)]);
    make(&mut run, &[Move::Return(Normal)]);
    assert!(run.ended() && run.calls[0].returned == Some((2, Normal)));
    assert_eq!(languages.first_break(&run), None);
}

#[test]
fn a_gate_that_does_not_open_is_not_closed() {
    let sheet = read(&gate());
    for word in [&[][..], &[2]] {
        let mut languages = Languages::new(&sheet);
        let mut run = Run::start(&sheet);
        make(&mut run, &[step(0, Failed, word)]);
        let length = word.len();
        assert_eq!((run.point, run.history.as_slice()), (3, word));
        assert_eq!(run.calls[1].returned, Some((length, Failed)));
        assert_eq!((run.open.as_slice(), languages.first_break(&run)), (&[0][..], None));
        refuses(&mut run, &[step(0, Failed, &[]), step(1, Normal, &[]), Move::Return(Normal)]);
        make(&mut run, &[Move::Return(Failed)]);
        assert!(run.ended() && run.calls[0].returned == Some((length, Failed)));
        assert_eq!(languages.first_break(&run), None);
        refuses(&mut run, &[Move::Return(Failed), Move::Return(Normal), step(0, Failed, word)]);
    }
}

/// A call's trace and future are those of its outcome, at the end and before.
#[test]
fn what_a_failed_call_owes() {
    // Nothing may follow a failed `open`; now a close does, or may.
    let mut draft = gate();
    draft.steps.push(Step::Event(3, 2, 1));
    let sheet = read(&draft);
    let mut run = Run::start(&sheet);
    make(&mut run, &[step(0, Failed, &[]), step(2, Normal, &[])]);
    assert_eq!(Languages::new(&sheet).first_break(&run), Some((1, Broken::Owed)));
    make(&mut run, &[Move::Return(Normal)]);
    assert_eq!(Languages::new(&sheet).first_break(&run), Some((0, Broken::Trace)));
    let all = draft.condition(&Tree::any());
    draft.methods[0].conditions[1] = all;
    let sheet = read(&draft);
    let mut run = Run::start(&sheet);
    make(&mut run, &[step(0, Failed, &[]), step(2, Normal, &[]), Move::Return(Normal)]);
    assert_eq!(Languages::new(&sheet).first_break(&run), Some((1, Broken::Future)));

    // With the due of its target too large.
    let mut draft = gate();
    draft.points[3][2] = draft.condition(&Tree::any());
    let sheet = read(&draft);
    let mut run = Run::start(&sheet);
    assert_eq!(Languages::new(&sheet).first_break(&run), None);
    make(&mut run, &[step(0, Failed, &[])]);
    assert_eq!(Languages::new(&sheet).first_break(&run), Some((1, Broken::Owed)));

    // The failed trace of method 0 lacks what it raised, its trace does not.
    let mut draft = gate();
    let [warning, all] = [Tree::event(2), Tree::any()].map(|tree| draft.condition(&tree));
    draft.methods[0].conditions[1] = all;
    draft.methods[0].conditions[3] = warning;
    let sheet = read(&draft);
    let mut run = Run::start(&sheet);
    make(&mut run, &[step(0, Failed, &[]), Move::Return(Failed)]);
    assert_eq!(Languages::new(&sheet).first_break(&run), Some((0, Broken::Trace)));
    let mut run = Run::start(&sheet);
    make(&mut run, &[step(0, Failed, &[2]), Move::Return(Failed)]);
    assert_eq!(Languages::new(&sheet).first_break(&run), None);

    // The failed future of method 0 does not hold the empty word.
    let mut draft = gate();
    draft.methods[0].conditions[4] = draft.condition(&Tree::event(2));
    let sheet = read(&draft);
    let mut run = Run::start(&sheet);
    make(&mut run, &[step(0, Failed, &[])]);
    assert_eq!(Languages::new(&sheet).first_break(&run), None);
    make(&mut run, &[Move::Return(Failed)]);
    assert_eq!(Languages::new(&sheet).first_break(&run), Some((0, Broken::Future)));
}

/// Method 0 calls method 1, which can fail, from point 0 to point 1, or 2 if it fails.
/// Method 1 goes from point 3 to its exit and its failed exit. All conditions hold
/// every word.
fn nested(exit: usize, failed_exit: usize) -> Draft {
    let mut draft = Draft::default();
    for _ in 0..6 {
        draft.point(&Tree::any(), &Tree::any(), &Tree::any());
    }
    draft.methods =
        vec![Method::new(&[0; 3], &[0, 1]), Method::new(&[0; 5], &[3, exit, failed_exit])];
    draft.steps = vec![
        Step::Failing(0, 1, 2, 1),
        Step::Event(3, 4, 7),
        Step::Pass(3, 5),
        Step::Call(2, 0, 0),
        Step::Pass(2, 1),
    ];
    draft
}

#[test]
fn a_method_with_body_returns_with_an_outcome() {
    let sheet = read(&nested(4, 5));
    for (inside, outcome, other, target) in [(1, Normal, Failed, 1), (2, Failed, Normal, 2)] {
        for opening in [Normal, Failed] {
            let mut run = Run::start(&sheet);
            // A step that opens a method does not read the outcome and the word.
            make(&mut run, &[step(0, opening, &[9])]);
            assert_eq!((run.point, run.open.len(), run.calls[1].returned), (3, 2, None));
            refuses(&mut run, &[Move::Return(Normal), Move::Return(Failed)]);
            make(&mut run, &[step(inside, opening, &[9])]);
            refuses(&mut run, &[Move::Return(other)]);
            make(&mut run, &[Move::Return(outcome)]);
            assert_eq!((run.point, run.open.as_slice()), (target, &[0][..]));
            let length = (inside == 1) as usize;
            assert_eq!(run.calls[1].returned, Some((length, outcome)));
        }
    }
}

#[test]
fn one_point_for_both_exits() {
    let sheet = read(&nested(3, 3));
    for (outcome, target) in [(Normal, 1), (Failed, 2)] {
        let mut run = Run::start(&sheet);
        make(&mut run, &[step(0, Normal, &[]), Move::Return(outcome)]);
        assert_eq!((run.point, run.calls[1].returned), (target, Some((0, outcome))));
    }
}

/// A method of one outcome never fails, nor does a call of one.
#[test]
fn one_outcome_never_fails() {
    let mut draft = nested(4, 5);
    draft.methods.push(Method::new(&[0; 3], &[]));
    draft.steps.push(Step::Call(0, 1, 2));
    let sheet = read(&draft);
    let mut run = Run::start(&sheet);
    refuses(&mut run, &[step(5, Failed, &[]), step(5, Failed, &[1])]);
    make(&mut run, &[step(5, Normal, &[1])]);
    assert_eq!(run.point, 1);
    // Method 0, of kind 9, is at its exit.
    refuses(&mut run, &[Move::Return(Failed)]);
    make(&mut run, &[Move::Return(Normal)]);
    assert!(run.ended());
    // The same where a step has called it.
    let mut run = Run::start(&sheet);
    make(&mut run, &[step(0, Normal, &[]), step(2, Normal, &[]), Move::Return(Failed)]);
    make(&mut run, &[step(3, Failed, &[]), step(5, Normal, &[])]);
    refuses(&mut run, &[Move::Return(Failed)]);
    make(&mut run, &[Move::Return(Normal)]);
    assert_eq!((run.point, run.open.as_slice()), (0, &[0][..]));
}

/// Where both traces of a primitive hold a word, the move decides.
#[test]
fn a_word_of_both_traces() {
    let sheet = read(&super::failing());
    for (outcome, target) in [(Normal, 2), (Failed, 3)] {
        let mut run = Run::start(&sheet);
        run.point = 1;
        make(&mut run, &[step(0, outcome, &[5, 6])]);
        assert_eq!((run.point, run.history.as_slice()), (target, &[5, 6][..]));
        assert_eq!(run.calls[1].returned, Some((2, outcome)));
    }
}

/// In a caller of the activation that made a failed call, its failed future binds.
#[test]
fn what_is_owed_after_a_failed_callers_return() {
    let mut draft = nested(4, 5);
    let [none, warning] = [Tree::Leaf(0), Tree::event(2)].map(|tree| draft.condition(&tree));
    // Method 1 calls a primitive whose failed future is the one word 2; its future is
    // empty, and is not asked for.
    draft.methods.push(Method::new(&[0, 0, none, 0, warning], &[]));
    draft.steps.push(Step::Failing(3, 4, 5, 2));
    draft.points[5][2] = warning;
    let sheet = read(&draft);
    let mut languages = Languages::new(&sheet);
    let mut run = Run::start(&sheet);
    make(&mut run, &[step(0, Normal, &[]), step(5, Failed, &[])]);
    assert_eq!(languages.first_break(&run), None);
    make(&mut run, &[Move::Return(Failed)]);
    assert_eq!(languages.first_break(&run), Some((2, Broken::Owed)));
    draft.points[2][2] = warning;
    let sheet = read(&draft);
    let mut languages = Languages::new(&sheet);
    let mut run = Run::start(&sheet);
    make(&mut run, &[step(0, Normal, &[]), step(5, Failed, &[]), Move::Return(Failed)]);
    assert_eq!(languages.first_break(&run), None);
    make(&mut run, &[step(4, Normal, &[])]);
    assert_eq!(languages.first_break(&run), Some((2, Broken::Owed)));
    make(&mut run, &[Move::Return(Normal)]);
    assert_eq!(languages.first_break(&run), Some((2, Broken::Future)));
}

/// Random runs of random sheets whose calls can fail.
#[test]
fn random_runs() {
    let mut random = Random::new(51);
    let mut accepted = Totals::default();
    let mut unproved = Totals::default();
    while accepted.sheets < 60 || unproved.sheets < 60 {
        let mut draft = sheets::failing(&mut random);
        if random.once_in(2) {
            sheets::spoil(&mut draft, &mut random);
        }
        let sheet = draft.certified();
        match naive::load(&LARGE, &sheet) {
            Verdict::Accepted(_) if accepted.sheets < 60 => {
                accepted.sheet(&LARGE, &sheet, &mut random)
            }
            Verdict::Unproved { .. } if unproved.sheets < 60 => {
                unproved.sheet(&LARGE, &sheet, &mut random)
            }
            _ => {}
        }
    }
    assert!(accepted.broken.is_empty(), "{:?}", accepted.broken);
    let Totals { failed, ended_failed, owed_failed, .. } = accepted;
    assert!(
        failed.min(ended_failed).min(owed_failed) > 500,
        "{failed} {ended_failed} {owed_failed}"
    );
    for broken in [Broken::Trace, Broken::Future, Broken::Owed] {
        let count = unproved.broken_failed.get(&broken).copied().unwrap_or(0);
        assert!(count > 10, "{broken:?}: {count}");
    }
}
