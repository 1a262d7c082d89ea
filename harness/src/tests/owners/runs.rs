//! The owner of a run's point is the active call's method, as long as a call is open.
use crate::answer::{Doors, Refusal};
use crate::instrument::LARGE;
use crate::naive::{self, Outcome};
use crate::random::Random;
use crate::runs::{Move, Run};
use crate::sheets::{self, Draft, Method, Step};
use crate::simulate::Owned;
use crate::tests::every;
use crate::tests::runs::make;
use crate::tree::Tree;
use Outcome::{Failed, Normal};

fn step(number: usize) -> Move {
    Move::Step(number, Normal, vec![])
}

/// Two methods of the new edition: the first from point 0 to point 1, the other from
/// point 2 to point 3, or to point 4 if it fails. The first calls the other, by step 0,
/// and that calls a primitive that can fail, by step 1, and stops at points 3 and 4. All
/// conditions hold every word.
fn draft() -> Draft {
    let mut draft = Draft { new_edition: true, ..Draft::default() };
    for _ in 0..6 {
        draft.point(&Tree::any(), &Tree::any(), &Tree::any());
    }
    draft.methods = vec![
        Method::new(&[0; 3], &[0, 1]),
        Method::new(&[0; 5], &[2, 3, 4]),
        Method::new(&[0; 5], &[]),
        Method::new(&[0; 3], &[]),
    ];
    draft.steps =
        vec![Step::Failing(0, 1, 0, 1), Step::Failing(2, 3, 4, 2), Step::Stop(3), Step::Stop(4)];
    draft
}

/// Point 5 is of no method with body.
fn owners() -> Vec<Option<usize>> {
    [0, 0, 1, 1, 1, 3].map(Some).to_vec()
}

/// The sheet, and what reading finds and finds without 24.
fn parts(draft: &Draft, owners: &[Option<usize>]) -> (Option<Refusal>, naive::Sheet) {
    let sheet = sheets::give_owners(&draft.certified(), owners);
    let refusal = naive::read(&LARGE, &sheet).err();
    (refusal, naive::read_without(Some(24), &LARGE, &sheet).unwrap())
}

#[test]
fn the_owner_of_the_runs_point() {
    let (refusal, sheet) = parts(&draft(), &owners());
    assert_eq!(refusal, None);
    let moves = [step(0), step(1), Move::Return(Normal), Move::Return(Normal)];
    let fails = [step(0), Move::Step(1, Failed, vec![7]), Move::Return(Failed)].into_iter();
    let stops = [step(0), step(1), step(2)];
    for moves in [moves.into_iter().collect::<Vec<_>>(), fails.chain(stops).collect()] {
        let mut run = Run::start(&sheet);
        for next in moves {
            let active = run.open.last().map(|&call| run.calls[call].method);
            assert_eq!(sheet.points[run.point].owner, active);
            assert!(!run.elsewhere());
            make(&mut run, &[next]);
        }
        // Nothing is said where no call is open; at a stop, calls are.
        assert!(run.ended() && !run.elsewhere());
        assert_eq!(run.stopped, !run.open.is_empty());
    }
}

/// A step between the points of two methods: reading refuses it, and a run over it is
/// found by the check, at once or when the call returns.
#[test]
fn a_wrong_step_is_found() {
    let back = || vec![step(4), step(1), Move::Return(Normal)];
    let fails = || vec![step(4), Move::Step(1, Failed, vec![]), Move::Return(Failed)];
    let failed = || vec![Move::Step(4, Failed, vec![])];
    for (wrong, moves) in [
        (Step::Event(0, 3, 9), vec![step(4)]),
        (Step::Pass(0, 5), vec![step(4)]),
        (Step::Call(0, 2, 3), vec![step(4)]),
        (Step::Failing(0, 2, 0, 2), vec![step(4)]),
        (Step::Failing(0, 1, 4, 2), failed()),
        (Step::Failing(0, 3, 0, 1), back()),
        (Step::Failing(0, 1, 3, 1), fails()),
        (Step::Pass(0, 3), vec![step(4), step(2)]),
    ] {
        let mut draft = draft();
        let at = sheets::give_owners(&draft.bytes(), &owners()).len();
        draft.steps.push(wrong);
        let (refusal, sheet) = parts(&draft, &owners());
        assert_eq!(refusal, Some(Refusal::at(24, at)));
        let mut run = Run::start(&sheet);
        make(&mut run, &moves);
        assert!(run.elsewhere());
    }
}

/// The same of a method's entry.
#[test]
fn a_wrong_entry_is_found() {
    for (method, entry) in [(0, 2), (1, 0), (1, 5)] {
        let mut draft = draft();
        draft.methods[method].points[0] = entry;
        let (refusal, sheet) = parts(&draft, &owners());
        assert_eq!(refusal.map(|refusal| refusal.number), Some(24));
        let mut run = Run::start(&sheet);
        make(&mut run, &[step(0)][..method]);
        assert!(run.elsewhere());
    }
}

/// A point without owner lets a run go on to the points of another method.
#[test]
fn all_points_need_owners() {
    let mut draft = draft();
    draft.steps.extend([Step::Pass(0, 5), Step::Pass(5, 3)]);
    let mut owners = owners();
    owners[5] = None;
    let (refusal, sheet) = parts(&draft, &owners);
    assert_eq!((refusal, sheet.all_owned()), (None, false));
    let mut run = Run::start(&sheet);
    make(&mut run, &[step(4)]);
    assert!(!run.elsewhere());
    make(&mut run, &[step(5)]);
    assert!(run.elsewhere());
}

/// A loader that does not refuse 24.
const WITHOUT_24: Doors = Doors {
    name: "without 24",
    read: |on, sheet| naive::read_without(Some(24), on, sheet).map(|sheet| sheet.counts()),
    ..naive::DOORS
};

fn random_runs(doors: &Doors) -> Owned {
    let mut found = Owned::default();
    found.sheets(doors, 400, &mut Random::new(93));
    found
}

#[test]
fn random_runs_with_owners() {
    for doors in every() {
        let found = random_runs(&doors);
        let Owned { read, accepted, states, inside, stopped, broken } = found;
        assert_eq!(broken, 0, "{}", doors.name);
        assert!(accepted.min(read - accepted) > 40, "{}: {read} {accepted}", doors.name);
        assert!(states.min(inside) > 20_000 && stopped > 500, "{states} {inside} {stopped}");
    }
    let found = random_runs(&WITHOUT_24);
    assert!(found.broken > 1_000, "{found:?}");
}
