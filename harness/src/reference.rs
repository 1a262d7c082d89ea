//! A reference loader in safe Rust.
#![forbid(unsafe_code)]

mod clauses;
mod events;
mod places;
mod reading;
mod rules;
mod search;
mod words;

use crate::answer::{Answer, Counts, Doors, Refusal, Verdict};
use crate::instrument::{Instrument, ENTRY};
use events::Events;
use places::{Condition, Side};
use reading::{Name, Sheet};
use words::Stepping;
pub use words::Walk;

const LONGEST_WORD: usize = 4_096;

pub const DOORS: Doors = Doors { name: "reference", load, load_entry, word_test, read };

/// Reading alone: refusals 1 to 9, 18 to 20 and 24 to 26, or the tally.
pub fn read(on: &Instrument, sheet: &[u8]) -> Result<Counts, Refusal> {
    Sheet::read(on, sheet).map(|sheet| sheet.counts)
}

/// The verdict on a sheet.
pub fn load(on: &Instrument, sheet: &[u8]) -> Verdict {
    let length = sheet.len();
    let sheet = match Sheet::read(on, sheet) {
        Ok(sheet) => sheet,
        Err(refusal) => return Verdict::Refused(refusal),
    };
    if sheet.counts.certificates != sheet.certificates_needed() {
        return Verdict::Refused(Refusal::at(10, length));
    }
    let tested = match few_events(on) {
        true => rules::test::<u32>(&sheet),
        false => rules::test::<u64>(&sheet),
    };
    match tested {
        Ok(()) => Verdict::Accepted(sheet.count()),
        Err(verdict) => verdict,
    }
}

pub fn load_entry(sheet: &[u8]) -> Verdict {
    load(&ENTRY, sheet)
}

/// Whether a condition of the sheet holds a word and, if not, how far the word goes.
pub fn word_test(on: &Instrument, sheet: &[u8], condition: usize, word: &[u8]) -> Answer {
    let tested = asked(on, sheet, condition, word).map(|condition| match few_events(on) {
        true => with_steps::<u32, _>(condition, word, |steps| steps.test(word)),
        false => with_steps::<u64, _>(condition, word, |steps| steps.test(word)),
    });
    tested.unwrap_or_else(Answer::Refused)
}

/// How a word goes by sets that are not empty.
pub fn walk(on: &Instrument, sheet: &[u8], condition: usize, word: &[u8]) -> Result<Walk, Refusal> {
    let condition = asked(on, sheet, condition, word)?;
    Ok(match few_events(on) {
        true => with_steps::<u32, _>(condition, word, |steps| steps.walk(word)),
        false => with_steps::<u64, _>(condition, word, |steps| steps.walk(word)),
    })
}

/// The condition that a word is tested on, or the refusal.
fn asked<'a>(
    on: &Instrument,
    sheet: &'a [u8],
    condition: usize,
    word: &[u8],
) -> Result<Condition<'a>, Refusal> {
    let sheet = Sheet::read(on, sheet)?;
    if condition >= sheet.counts.conditions {
        return Err(Refusal::bare(14));
    }
    if word.len() > LONGEST_WORD {
        return Err(Refusal::bare(12));
    }
    if let Some(index) = word.iter().position(|&event| event >= on.events) {
        return Err(Refusal::at(13, index));
    }
    Ok(sheet.condition(Name::plain(condition)))
}

/// Whether sets of 32 events are enough for an instrument.
fn few_events(on: &Instrument) -> bool {
    on.events <= 32
}

fn with_steps<E: Events, T>(
    condition: Condition,
    word: &[u8],
    work: impl Fn(Stepping<E>) -> T,
) -> T {
    let mut side = Side::new();
    side.whole(condition);
    work(Stepping::new(&side, word))
}
