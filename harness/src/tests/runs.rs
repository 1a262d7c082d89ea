//! Runs, demand 3 and Ask 12.
use crate::derivatives::missing_word;
use crate::instrument::LARGE;
use crate::naive::{self, holds, Outcome};
use crate::random::Random;
use crate::runs::{Broken, Languages, Move, Run};
use crate::sheets::Draft;
use crate::simulate::Totals;
use crate::tree::Tree;
use crate::vectors;
use std::fs;

fn example(name: &str) -> naive::Sheet {
    let path = format!("{}/../examples/{name}.sheet", env!("CARGO_MANIFEST_DIR"));
    naive::read_sheet(&LARGE, &fs::read(path).unwrap()).unwrap()
}

fn step(number: usize) -> Move {
    Move::Step(number, Outcome::Normal, vec![])
}

fn close(number: usize) -> Move {
    Move::Step(number, Outcome::Normal, vec![1])
}

const RETURN: Move = Move::Return(Outcome::Normal);

/// Makes moves, each of which can be made.
pub fn make(run: &mut Run, moves: &[Move]) {
    assert!(moves.iter().all(|next| run.make(next)));
}

/// Tries moves that cannot be made, and change nothing.
pub fn refuses(run: &mut Run, moves: &[Move]) {
    let state = |run: &Run| {
        let calls: Vec<_> =
            run.calls.iter().map(|c| (c.method, c.step, c.began, c.returned)).collect();
        (run.history.clone(), calls, run.open.clone(), run.point, run.stopped)
    };
    for next in moves {
        let before = state(run);
        assert!(!run.make(next));
        assert_eq!(state(run), before);
    }
}

/// The parts of a draft's sheet.
pub fn read(draft: &Draft) -> naive::Sheet {
    naive::read_sheet(&LARGE, &draft.certified()).unwrap()
}

#[test]
fn what_is_owed_in_the_activation_that_made_a_call() {
    let sheet = example("close_loop_open");
    let mut run = Run::start(&sheet);
    make(&mut run, &[step(0), close(1)]);
    assert_eq!(Languages::new(&sheet).first_break(&run), Some((1, Broken::Owed)));
}

#[test]
fn what_is_owed_after_the_callers_return() {
    let sheet = example("future_past_caller");
    let mut languages = Languages::new(&sheet);
    let mut run = Run::start(&sheet);
    make(&mut run, &[step(0), close(2)]);
    assert_eq!(languages.first_break(&run), None);
    for (next, broken) in
        [(RETURN, Broken::Owed), (step(1), Broken::Owed), (RETURN, Broken::Future)]
    {
        make(&mut run, &[next]);
        assert_eq!(languages.first_break(&run), Some((2, broken)));
    }
    assert!(run.ended() && !run.make(&RETURN) && !run.make(&step(0)));
}

/// Two activations of one method by one step with one caller and one history.
#[test]
fn activations_are_told_apart() {
    let sheet = example("activations");
    let mut languages = Languages::new(&sheet);
    let mut run = Run::start(&sheet);
    make(&mut run, &[step(0), step(1), step(0)]);
    let (first, probed) = (2, 3);
    assert_eq!((run.open.as_slice(), run.in_caller(probed)), (&[0, first][..], true));
    make(&mut run, &[step(2), RETURN]);
    assert!(run.in_caller(probed));
    make(&mut run, &[step(1)]);
    let second = 4;
    assert_eq!((run.open.as_slice(), run.in_caller(probed)), (&[0, second][..], false));
    let (one, two) = (&run.calls[first], &run.calls[second]);
    assert_eq!(
        (one.method, one.step, one.began, one.maker),
        (two.method, two.step, two.began, two.maker)
    );
    assert_eq!(languages.first_break(&run), None);
    let due = sheet.points[run.point].due;
    let future = sheet.methods[run.calls[probed].method].normal.future;
    let word = missing_word(&sheet.conditions[due], &sheet.conditions[future], &[]);
    assert_eq!(word, Ok(Some(vec![0])));
}

#[test]
fn moves_that_cannot_be_made_change_nothing() {
    let sheet = example("close_loop");
    let mut run = Run::start(&sheet);
    assert!(!run.make(&close(1)) && !run.make(&step(9)));
    make(&mut run, &[step(0)]);
    for word in [vec![], vec![2], vec![1, 1]] {
        assert!(!run.make(&Move::Step(1, Outcome::Normal, word)));
    }
    assert!(!run.make(&RETURN));
    assert_eq!((run.history.as_slice(), run.calls.len()), (&[2][..], 1));
}

/// Against every word of one event, and of up to four of three events.
#[test]
fn missing_words() {
    let mut words: Vec<Vec<u8>> = vec![vec![]];
    for length in 0..4 {
        let longer = words.iter().filter(|word| word.len() == length);
        let longer = longer.flat_map(|word| (0..3).map(|e| [&word[..], &[e]].concat()));
        words.extend(longer.collect::<Vec<_>>());
    }
    let mut random = Random::new(12);
    let mut seen = [0, 0];
    for _ in 0..2_000 {
        let [left, right] = [0; 2].map(|_| Tree::random(&mut random, 2));
        let since = &words[random.below(13)];
        let lacks = |word: &[u8]| holds(&left, word) && !holds(&right, &[since, word].concat());
        let tried = words.iter().cloned().chain((3..32).map(|event| vec![event]));
        let shortest = tried.filter(|word| lacks(word)).map(|word| word.len()).min();
        let found = missing_word(&left, &right, since).unwrap();
        seen[found.is_some() as usize] += 1;
        match found {
            Some(word) => assert!(lacks(&word) && shortest.is_none_or(|least| word.len() <= least)),
            None => assert_eq!(shortest, None),
        }
    }
    assert!(seen.iter().all(|&count| count > 200), "{seen:?}");
}

/// Sheets that are not accepted have runs that break each part.
#[test]
fn breaks_are_found() {
    let crates = concat!(env!("CARGO_MANIFEST_DIR"), "/../crates");
    let mut totals = Totals::default();
    let mut random = Random::new(3);
    for sheet in vectors::stored_sheets(crates, vectors::SHEETS).unwrap() {
        let line = naive::load(&LARGE, &sheet).to_string();
        if line.starts_with("unproved") && line.contains("clause 3") {
            totals.sheet(&LARGE, &sheet, &mut random);
        }
    }
    for broken in [Broken::Pre, Broken::Trace, Broken::Future, Broken::Owed] {
        assert!(totals.broken.get(&broken).is_some_and(|&count| count > 10), "{broken:?}");
    }
    assert_eq!(totals.broken.get(&Broken::Undecided), None);
}
