//! Runs with calls by a channel, and loaders that are wrong about the exchange.
use crate::answer::{Doors, Verdict};
use crate::instrument::{Instrument, FOUR};
use crate::naive::{self, Exchange, Outcome, Sheet};
use crate::random::Random;
use crate::runs::{Broken, Languages, Move, Run};
use crate::sheets::{self, Draft, Method, Step, EXCHANGES};
use crate::simulate::Totals;
use crate::tests::every;
use crate::tests::runs::{make, refuses};
use crate::tree::Tree;

const OPEN: u8 = 0;
const CLOSE: u8 = 1;

fn any() -> Tree {
    Tree::Leaf(u64::MAX).star()
}

fn finally(event: u8) -> Tree {
    any().join(Tree::event(event)).join(any())
}

/// Primitive 1 opens a gate, which is closed at some time after; primitive 2 closes it,
/// and it was opened at some time before. Method 0 calls them by two channels, from point
/// 0 to 1 and 2, and its conditions are the words that are raised.
fn gate(open: u8, close: u8) -> Draft {
    let raised = [16 * open + OPEN, 16 * close + CLOSE].map(Tree::event);
    let [one, two] = raised;
    let both = one.clone().join(two.clone());
    let mut draft = Draft::default();
    draft.point(&Tree::Empty, &Tree::Empty, &both);
    draft.point(&one, &one, &two);
    draft.point(&both, &both, &Tree::Empty);
    let mut method = |trees: [&Tree; 3], points: &[usize]| {
        let names = trees.map(|tree| draft.condition(tree));
        draft.methods.push(Method::new(&names, points));
    };
    method([&Tree::Empty, &both, &Tree::Empty], &[0, 2]);
    method([&any(), &Tree::event(OPEN), &finally(CLOSE)], &[]);
    method([&finally(OPEN), &Tree::event(CLOSE), &any()], &[]);
    draft.steps = vec![Step::Channel(0, 1, 1, open), Step::Channel(1, 2, 2, close)];
    draft
}

fn step(number: usize, word: &[u8]) -> Move {
    Move::Step(number, Outcome::Normal, word.to_vec())
}

const RETURN: Move = Move::Return(Outcome::Normal);

fn read(draft: &Draft) -> Sheet {
    naive::read_sheet(&FOUR, &draft.certified()).unwrap()
}

/// A call is made with a word of the exchanged trace, and no other.
#[test]
fn a_gate_of_each_channel() {
    for channel in 0..4 {
        let draft = gate(channel, channel);
        for doors in every() {
            let verdict = (doors.load)(&FOUR, &draft.certified());
            assert_eq!(verdict, Verdict::Accepted(16), "{}", doors.name);
        }
        let sheet = read(&draft);
        let mut languages = Languages::new(&sheet);
        let mut run = Run::start(&sheet);
        let (opens, closes) = (16 * channel, 16 * channel + 1);
        let others = (0..64).filter(|&event| event != opens).map(|event| step(0, &[event]));
        refuses(&mut run, &others.collect::<Vec<_>>());
        for next in [step(0, &[opens]), step(1, &[closes]), RETURN] {
            assert_eq!(languages.first_break(&run), None);
            make(&mut run, &[next]);
        }
        assert_eq!(run.history, [opens, closes]);
        assert!(run.ended() && languages.first_break(&run).is_none());
    }
}

/// The wrong gate is closed: the loaders find it, and so do runs, in each part.
#[test]
fn the_wrong_gate() {
    for (open, close) in (0..4).flat_map(|open| (0..4).map(move |close| (open, close))) {
        if open == close {
            continue;
        }
        let mut draft = gate(open, close);
        for doors in every() {
            let line = (doors.load)(&FOUR, &draft.certified()).to_string();
            assert!(line.starts_with("unproved rule 13 step 0"), "{}: {line}", doors.name);
        }
        let moves = [step(0, &[16 * open]), step(1, &[16 * close + 1]), RETURN];
        // What is owed after the first call, and at the end its future, while the pre of
        // the second is met.
        draft.methods[2].conditions[0] = draft.methods[2].conditions[2];
        let sheet = read(&draft);
        let mut run = Run::start(&sheet);
        for (next, broken) in moves.iter().zip([Broken::Owed, Broken::Owed, Broken::Future]) {
            make(&mut run, std::slice::from_ref(next));
            assert_eq!(Languages::new(&sheet).first_break(&run), Some((1, broken)));
        }
        // The pre of the second call, while the future of the first is met.
        let mut draft = gate(open, close);
        draft.methods[1].conditions[2] = draft.methods[1].conditions[0];
        let sheet = read(&draft);
        let mut run = Run::start(&sheet);
        make(&mut run, &moves[..1]);
        assert_eq!(Languages::new(&sheet).first_break(&run), None);
        make(&mut run, &moves[1..2]);
        assert_eq!(Languages::new(&sheet).first_break(&run), Some((2, Broken::Pre)));
    }
}

/// The naive loader with another way to read the conditions.
const LOADERS: [Doors; 5] = [
    naive::DOORS,
    Doors { name: "pre as it stands", load: |on, sheet| by(1, on, sheet), ..naive::DOORS },
    Doors { name: "trace as it stands", load: |on, sheet| by(2, on, sheet), ..naive::DOORS },
    Doors { name: "future as it stands", load: |on, sheet| by(3, on, sheet), ..naive::DOORS },
    Doors { name: "one way", load: |on, sheet| by(4, on, sheet), ..naive::DOORS },
];

fn by(number: usize, on: &Instrument, sheet: &[u8]) -> Verdict {
    naive::load_by(&EXCHANGES[number], on, sheet)
}

/// A call by channel 1 of a primitive that raises nothing and has this future, then an
/// event.
fn then_event(future: &Tree, event: u8) -> Draft {
    let raised = Tree::event(event);
    let mut draft = Draft::default();
    draft.point(&Tree::Empty, &Tree::Empty, &raised);
    draft.point(&Tree::Empty, &Tree::Empty, &raised);
    draft.point(&raised, &raised, &Tree::Empty);
    let [nothing, word, every, future] =
        [&Tree::Empty, &raised, &any(), future].map(|tree| draft.condition(tree));
    draft.methods.push(Method::new(&[nothing, word, nothing], &[0, 2]));
    draft.methods.push(Method::new(&[every, nothing, future], &[]));
    draft.steps = vec![Step::Channel(0, 1, 1, 1), Step::Event(1, 2, event)];
    draft
}

/// A loader that does not exchange the future, and one that only turns the events of
/// channel 0 into those of the channel, accept a sheet whose run breaks the future.
#[test]
fn wrong_futures_are_found() {
    // After a call by channel 1, event 17 or event 1 is asked for.
    for (loader, asked, event) in [(3, CLOSE, CLOSE), (4, 16 + CLOSE, 16 + CLOSE)] {
        let draft = then_event(&finally(asked), event);
        let sheet = draft.certified_by(&EXCHANGES[loader]);
        let verdict = (LOADERS[loader].load)(&FOUR, &sheet);
        assert_eq!(verdict, Verdict::Accepted(14), "{}", LOADERS[loader].name);
        for doors in every() {
            let line = (doors.load)(&FOUR, &sheet).to_string();
            assert!(line.starts_with("unproved rule 13 step 0"), "{}: {line}", doors.name);
        }
        let parts = naive::read_sheet(&FOUR, &sheet).unwrap();
        let mut run = Run::start(&parts);
        for (next, broken) in
            [(step(0, &[]), Broken::Owed), (step(1, &[]), Broken::Owed), (RETURN, Broken::Future)]
        {
            make(&mut run, &[next]);
            assert_eq!(Languages::new(&parts).first_break(&run), Some((1, broken)));
        }
    }
    // With the other event, all is well.
    for (asked, event) in [(CLOSE, 16 + CLOSE), (16 + CLOSE, CLOSE)] {
        let draft = then_event(&finally(asked), event);
        assert_eq!(naive::load(&FOUR, &draft.certified()), Verdict::Accepted(14));
        let sheet = read(&draft);
        let mut run = Run::start(&sheet);
        for next in [step(0, &[]), step(1, &[]), RETURN] {
            make(&mut run, &[next]);
            assert_eq!(Languages::new(&sheet).first_break(&run), None);
        }
    }
}

fn random_runs(doors: &Doors, exchange: &Exchange, count: usize) -> Totals {
    let mut totals = Totals::default();
    totals.channels(doors, exchange, count, &mut Random::new(131));
    totals
}

/// Sheets that are made for loaders with a wrong exchange: these accept them, and random
/// runs break them. No run of a sheet breaks that a right loader accepts.
#[test]
fn random_runs_by_channel() {
    for (wrong, exchange) in LOADERS.iter().zip(&EXCHANGES).skip(1) {
        let broken = random_runs(wrong, exchange, 60).broken;
        assert!(broken.values().sum::<usize>() > 500, "{}: {broken:?}", wrong.name);
    }
    for doors in every() {
        let mut calls = 0;
        for exchange in &EXCHANGES {
            let totals = random_runs(&doors, exchange, 40);
            assert!(totals.broken.is_empty(), "{}: {:?}", doors.name, totals.broken);
            calls += totals.by_channel.min(totals.owed_channel);
        }
        assert!(calls > 5_000, "{}: {calls}", doors.name);
    }
}

/// Sheets of the four-channel instrument that are not accepted have runs that break each
/// part of calls by a channel.
#[test]
fn breaks_are_found() {
    let mut random = Random::new(132);
    let mut totals = Totals::default();
    while totals.sheets < 80 {
        let sheet = sheets::by_channel(&EXCHANGES[0], &mut random);
        if let Verdict::Unproved { rule: 7.., .. } = naive::load(&FOUR, &sheet) {
            totals.sheet(&FOUR, &sheet, &mut random);
        }
    }
    for broken in [Broken::Pre, Broken::Owed] {
        let count = totals.broken_channel.get(&broken).copied().unwrap_or(0);
        assert!(count > 10, "{broken:?}: {:?}", totals.broken_channel);
    }
}
