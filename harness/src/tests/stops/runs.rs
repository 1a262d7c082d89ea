//! Runs that stop.
use crate::answer::Verdict;
use crate::instrument::LARGE;
use crate::naive::{self, Outcome};
use crate::random::Random;
use crate::runs::{Broken, Languages, Move, Run};
use crate::sheets::{self, Draft, Method, Step};
use crate::simulate::Totals;
use crate::tests::runs::{make, read, refuses};
use crate::tree::Tree;
use Outcome::{Failed, Normal};

fn step(number: usize) -> Move {
    Move::Step(number, Normal, vec![])
}

fn with(number: usize, outcome: Outcome, word: &[u8]) -> Move {
    Move::Step(number, outcome, word.to_vec())
}

/// Some events, one after another.
fn word(events: &[u8]) -> Tree {
    events.iter().map(|&event| Tree::event(event)).reduce(Tree::join).unwrap_or(Tree::Empty)
}

/// What is due at the entry of `check` in a `gate` that is accepted: it returns and the
/// gate is closed, or it closes the gate and stops.
fn check_due() -> Tree {
    word(&[2, 1]).either(word(&[1]))
}

/// A gate. Event 0 is open, 1 is close, 2 is a check. Method 0 calls the primitive
/// `open`, which must be followed by a close, then method 1, `check`, then closes:
/// points 0 to 3. `check` raises 2 and returns, from point 4 to point 5, or raises 1, to
/// point 6, where it stops.
fn gate() -> Draft {
    let mut draft = Draft { new_edition: true, ..Draft::default() };
    let due = check_due();
    draft.point(&word(&[]), &word(&[]), &word(&[0]).join(due.clone()));
    draft.point(&word(&[0]), &word(&[0]), &due);
    draft.point(&word(&[0, 2]), &word(&[0, 2]), &word(&[1]));
    draft.point(&word(&[0, 2, 1]), &word(&[0, 2, 1]), &word(&[]));
    draft.point(&word(&[0]), &word(&[]), &due);
    draft.point(&word(&[0, 2]), &word(&[2]), &word(&[1]));
    draft.point(&word(&[0, 1]), &word(&[1]), &word(&[]));
    let closes = Tree::any().join(word(&[1]));
    let methods: [([Tree; 3], &[usize]); 3] = [
        ([word(&[]), word(&[0, 2, 1]), word(&[])], &[0, 3]),
        ([word(&[0]), word(&[2]), word(&[1])], &[4, 5]),
        ([word(&[]), word(&[0]), closes], &[]),
    ];
    for (conditions, points) in methods {
        let names = conditions.map(|tree| draft.condition(&tree));
        draft.methods.push(Method::new(&names, points));
    }
    draft.steps = vec![
        Step::Call(0, 1, 2),
        Step::Call(1, 2, 1),
        Step::Event(2, 3, 1),
        Step::Event(4, 5, 2),
        Step::Event(4, 6, 1),
        Step::Stop(6),
    ];
    draft
}

const STOP: usize = 5;

/// All moves of a sheet's steps and returns.
fn every_move(sheet: &naive::Sheet) -> Vec<Move> {
    let steps = 0..sheet.steps.len();
    let mut moves: Vec<Move> = vec![Move::Return(Normal), Move::Return(Failed)];
    for outcome in [Normal, Failed] {
        for word in [&[][..], &[0], &[1]] {
            moves.extend(steps.clone().map(|number| with(number, outcome, word)));
        }
    }
    moves
}

#[test]
fn a_stop_ends_the_run() {
    let draft = gate();
    assert_eq!(naive::load(&LARGE, &draft.certified()), Verdict::Accepted(31));
    let sheet = read(&draft);
    // An outcome and a word with a stop are not read.
    for stop in [step(STOP), with(STOP, Failed, &[]), with(STOP, Normal, &[7, 7])] {
        let mut languages = Languages::new(&sheet);
        let mut run = Run::start(&sheet);
        for next in [with(0, Normal, &[0]), step(1), step(4)] {
            // A stop needs control at its point.
            refuses(&mut run, &[step(STOP)]);
            make(&mut run, &[next]);
            assert!(!run.ended() && !run.stopped);
        }
        make(&mut run, &[stop]);
        assert!(run.ended() && run.stopped);
        assert_eq!((run.history.as_slice(), run.point), (&[0, 1][..], 6));
        assert_eq!(run.open, [0, 2]);
        let returned: Vec<_> = run.calls.iter().map(|call| call.returned).collect();
        assert_eq!(returned, [None, Some((1, Normal)), None]);
        assert_eq!(languages.first_break(&run), None);
        refuses(&mut run, &every_move(&sheet));
    }
}

#[test]
fn a_run_that_does_not_stop() {
    let sheet = read(&gate());
    let mut run = Run::start(&sheet);
    make(&mut run, &[with(0, Normal, &[0]), step(1), step(3), Move::Return(Normal), step(2)]);
    refuses(&mut run, &[step(STOP)]);
    make(&mut run, &[Move::Return(Normal)]);
    assert!(run.ended() && !run.stopped && run.open.is_empty());
    assert_eq!(Languages::new(&sheet).first_break(&run), None);
    refuses(&mut run, &every_move(&sheet));
}

/// `check` stops before it has closed the gate. What its caller's call of `open` is owed
/// is then missing; rule 26 alone is false.
#[test]
fn what_a_callers_call_is_owed_at_a_stop() {
    let mut draft = gate();
    draft.steps[STOP] = Step::Stop(4);
    draft.points[4][2] = draft.condition(&check_due().either(Tree::Empty));
    let verdict = naive::load(&LARGE, &draft.certified()).to_string();
    assert_eq!(verdict, "unproved rule 26 step 1 clause 3 pair 0 event 0 place 0");
    let sheet = read(&draft);
    let mut languages = Languages::new(&sheet);
    let mut run = Run::start(&sheet);
    for next in [with(0, Normal, &[0]), step(1)] {
        make(&mut run, &[next]);
        // Control is in no caller of the call of `open` as long as `check` is active.
        assert_eq!(languages.first_break(&run), None);
    }
    make(&mut run, &[step(STOP)]);
    assert_eq!(languages.first_break(&run), Some((1, Broken::Future)));
    // Without the empty word due, rule 25 is false, and the run is the same.
    draft.points[4][2] = draft.points[1][2];
    let verdict = naive::load(&LARGE, &draft.certified()).to_string();
    assert_eq!(verdict, "unproved rule 25 step 5 clause 5 pair 0 event 0 place 0");
    // Where the caller's due has the empty word too, its call of `open` asks for more.
    let due = draft.condition(&check_due().either(Tree::Empty));
    (draft.points[1][2], draft.points[4][2]) = (due, due);
    let verdict = naive::load(&LARGE, &draft.certified()).to_string();
    assert!(verdict.starts_with("unproved rule 13 step 0 clause 3"), "{verdict}");
}

/// Two methods of the new edition, of which the first calls the other from point 0 to
/// point 1, and that calls a primitive that can fail, from point 2 to point 3, or 4. At
/// each point is a stop, by the step of its number behind the two calls. All conditions
/// hold every word.
fn nested() -> Draft {
    let mut draft = Draft { new_edition: true, ..Draft::default() };
    for _ in 0..5 {
        draft.point(&Tree::any(), &Tree::any(), &Tree::any());
    }
    draft.methods = vec![
        Method::new(&[0; 3], &[0, 1]),
        Method::new(&[0; 3], &[2, 3]),
        Method::new(&[0; 5], &[]),
    ];
    draft.steps = vec![Step::Call(0, 1, 1), Step::Failing(2, 3, 4, 2)];
    draft.steps.extend((0..5).map(Step::Stop));
    draft
}

fn stop_at(point: usize) -> Move {
    step(2 + point)
}

/// The first break after some moves of a draft's sheet.
fn broken(draft: &Draft, moves: &[Move]) -> Option<(usize, Broken)> {
    let sheet = read(draft);
    let mut run = Run::start(&sheet);
    make(&mut run, moves);
    Languages::new(&sheet).first_break(&run)
}

/// Calls that are open at a stop owe their pre and nothing else; the outermost too.
#[test]
fn open_calls_owe_their_pre_alone() {
    let calls = || [step(0), with(1, Normal, &[3])];
    let and = |last: Move| calls().into_iter().chain([last]).collect::<Vec<_>>();
    let draft = nested();
    assert!(matches!(naive::load(&LARGE, &draft.certified()), Verdict::Accepted(_)));
    assert_eq!(broken(&draft, &and(stop_at(3))), None);
    for method in [0, 1] {
        for condition in [1, 2] {
            let mut draft = draft.clone();
            let none = draft.condition(&Tree::Leaf(0));
            draft.methods[method].conditions[condition] = none;
            assert_eq!(broken(&draft, &and(stop_at(3))), None);
            let mut moves = and(Move::Return(Normal));
            if method == 0 {
                moves.push(Move::Return(Normal));
            }
            let found = broken(&draft, &moves);
            match (method, condition) {
                (_, 1) => assert_eq!(found, Some((method, Broken::Trace))),
                (0, _) => assert_eq!(found, Some((method, Broken::Future))),
                _ => assert_eq!(found, Some((method, Broken::Owed))),
            }
        }
        let mut draft = draft.clone();
        let none = draft.condition(&Tree::Leaf(0));
        draft.methods[method].conditions[0] = none;
        assert_eq!(broken(&draft, &and(stop_at(3))), Some((method, Broken::Pre)));
    }
}

/// What followed each return up to the stop is in the future of that call's outcome.
#[test]
fn returned_calls_owe_their_future() {
    for (outcome, point) in [(Normal, 3), (Failed, 4)] {
        for (trace, of) in [(1, Normal), (3, Failed)] {
            // The trace and the future of one outcome hold nothing, or another word.
            for (which, tree, found) in [
                (trace, Tree::Leaf(0), None),
                (trace + 1, Tree::Leaf(0), Some(Broken::Future)),
                (trace + 1, Tree::event(3), Some(Broken::Future)),
            ] {
                let mut draft = nested();
                draft.methods[2].conditions[which] = draft.condition(&tree);
                draft.points[point][2] = draft.condition(&Tree::Leaf(0));
                let moves = [step(0), with(1, outcome, &[]), stop_at(point)];
                if which == trace && of == outcome {
                    // Without a word of the trace the call cannot be made.
                    continue;
                }
                let found = found.filter(|_| of == outcome);
                assert_eq!(broken(&draft, &moves[..2]), None);
                assert_eq!(broken(&draft, &moves), found.map(|broken| (2, broken)));
            }
        }
    }
}

/// The same of a call whose maker has returned: method 0 stops at point 1.
#[test]
fn calls_of_a_method_that_has_returned() {
    let moves = || [step(0), with(1, Normal, &[]), Move::Return(Normal), stop_at(1)];
    for method in [1, 2] {
        let mut draft = nested();
        let [closed, none] = [word(&[1]), Tree::Leaf(0)].map(|tree| draft.condition(&tree));
        draft.methods[method].conditions[2] = closed;
        // Nothing is said to be due, so that nothing is owed before the end.
        draft.points[1][2] = none;
        draft.points[3][2] = none;
        assert_eq!(broken(&draft, &moves()[..3]), None);
        assert_eq!(broken(&draft, &moves()), Some((method, Broken::Future)));
        let closes = Step::Event(1, 1, 1);
        draft.steps.push(closes);
        let [a, b, c, stop] = moves();
        assert_eq!(broken(&draft, &[a, b, c, step(7), stop]), None);
    }
}

/// What is owed stays owed at a stop, where control is in the innermost open call.
#[test]
fn what_is_owed_at_a_stop() {
    let mut draft = nested();
    draft.methods[2].conditions[2] = draft.condition(&Tree::Empty);
    let moves = [step(0), with(1, Normal, &[]), stop_at(3)];
    for count in [2, 3] {
        assert_eq!(broken(&draft, &moves[..count]), Some((2, Broken::Owed)));
    }
    draft.points[3][2] = draft.condition(&Tree::Empty);
    assert_eq!(broken(&draft, &moves), None);
    // In the method that was called, nothing is owed to a call of its caller.
    let mut draft = nested();
    draft.methods.push(Method::new(&[0; 3], &[]));
    draft.methods[3].conditions[2] = draft.condition(&Tree::Empty);
    draft.steps.push(Step::Call(0, 0, 3));
    draft.points[0][2] = draft.methods[3].conditions[2];
    assert_eq!(broken(&draft, &[step(7), step(0), stop_at(2)]), None);
    let mut other = draft.clone();
    other.points[0][2] = 0;
    assert_eq!(broken(&other, &[step(7), stop_at(0)]), Some((1, Broken::Owed)));
}

/// All open calls of a method that calls itself stay open.
#[test]
fn a_stop_in_a_method_that_calls_itself() {
    let mut draft = Draft { new_edition: true, ..Draft::default() };
    draft.point(&Tree::any(), &Tree::any(), &Tree::any());
    draft.methods = vec![Method::new(&[0; 3], &[0, 0])];
    draft.steps = vec![Step::Call(0, 0, 0), Step::Event(0, 0, 4), Step::Stop(0)];
    assert_eq!(naive::load(&LARGE, &draft.certified()), Verdict::Accepted(16));
    let sheet = read(&draft);
    let mut run = Run::start(&sheet);
    make(&mut run, &[step(0), step(1), step(0), Move::Return(Normal), step(0), step(0), step(2)]);
    assert_eq!((run.open.as_slice(), run.history.as_slice()), (&[0, 1, 3, 4][..], &[4][..]));
    assert!(run.ended());
    assert_eq!(Languages::new(&sheet).first_break(&run), None);
    refuses(&mut run, &every_move(&sheet));
}

/// Random runs of random sheets of the new edition.
#[test]
fn random_runs() {
    let mut random = Random::new(66);
    let mut accepted = Totals::default();
    let mut unproved = Totals::default();
    while accepted.sheets < 80 || unproved.sheets < 80 {
        let mut draft = sheets::stopping(&mut random);
        if random.once_in(2) {
            sheets::spoil(&mut draft, &mut random);
        }
        let sheet = draft.certified();
        match naive::load(&LARGE, &sheet) {
            Verdict::Accepted(_) if accepted.sheets < 80 => {
                accepted.sheet(&LARGE, &sheet, &mut random)
            }
            Verdict::Unproved { .. } if unproved.sheets < 80 => {
                unproved.sheet(&LARGE, &sheet, &mut random)
            }
            _ => {}
        }
    }
    assert!(accepted.broken.is_empty(), "{:?}", accepted.broken);
    let Totals { stopped, stopped_inside, left_open, left_returned, .. } = accepted;
    let seen = [stopped, stopped_inside, left_open - stopped, left_returned];
    assert!(seen.iter().all(|&count| count > 1_000), "{seen:?}");
    // A stop changes neither the history nor the point: futures alone are new.
    let kinds: Vec<Broken> = unproved.broken_stopped.keys().copied().collect();
    assert_eq!(kinds, [Broken::Future], "{:?}", unproved.broken_stopped);
    assert!(unproved.broken_stopped[&Broken::Future] > 10, "{:?}", unproved.broken_stopped);
}
