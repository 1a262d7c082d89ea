//! What a loader returns, and the lines it prints.
use crate::instrument::Instrument;
use std::fmt;

/// A refusal's number and, where it has one, its place.
#[derive(Clone, Copy, Debug, PartialEq, Eq)]
pub struct Refusal {
    pub number: usize,
    pub place: Option<usize>,
}

impl Refusal {
    pub fn at(number: usize, place: usize) -> Refusal {
        Refusal { number, place: Some(place) }
    }

    pub fn bare(number: usize) -> Refusal {
        Refusal { number, place: None }
    }
}

/// The tally of a sheet that was read to its end.
#[derive(Clone, Copy, Debug, Default, PartialEq, Eq)]
pub struct Counts {
    pub conditions: usize,
    pub points: usize,
    pub methods: usize,
    pub steps: usize,
    pub certificates: usize,
}

/// The first fault of a certificate.
#[derive(Clone, Copy, Debug, PartialEq, Eq)]
pub struct Fault {
    pub clause: usize,
    pub pair: usize,
    pub event: usize,
    pub place: usize,
}

impl Fault {
    /// A fault of a clause that names no event and no place.
    pub fn of(clause: usize, pair: usize) -> Fault {
        Fault { clause, pair, event: 0, place: 0 }
    }
}

/// The answer to one sheet.
#[derive(Clone, Copy, Debug, PartialEq, Eq)]
pub enum Verdict {
    Accepted(usize),
    Refused(Refusal),
    Unproved { rule: usize, subject: usize, fault: Fault },
}

/// The answer to one word. No has the length of the longest beginning of the word that
/// begins some word of the condition, 0 if the condition holds no word.
#[derive(Clone, Copy, Debug, PartialEq, Eq)]
pub enum Answer {
    No(usize),
    Yes,
    Refused(Refusal),
}

impl Verdict {
    pub fn refusal(&self) -> Option<Refusal> {
        match self {
            Verdict::Refused(refusal) => Some(*refusal),
            _ => None,
        }
    }
}

impl Answer {
    pub fn refusal(&self) -> Option<Refusal> {
        match self {
            Answer::Refused(refusal) => Some(*refusal),
            _ => None,
        }
    }
}

/// One implementation of the loader. The library takes the three instruments by their
/// numbers, the others take any limits.
#[derive(Clone, Copy)]
pub struct Doors {
    pub name: &'static str,
    pub load: fn(&Instrument, &[u8]) -> Verdict,
    /// The entry instrument's, which the library has as a door of its own.
    pub load_entry: fn(&[u8]) -> Verdict,
    pub word_test: fn(&Instrument, &[u8], usize, &[u8]) -> Answer,
    pub read: fn(&Instrument, &[u8]) -> Result<Counts, Refusal>,
}

impl fmt::Display for Refusal {
    fn fmt(&self, f: &mut fmt::Formatter) -> fmt::Result {
        match self.place {
            Some(place) => write!(f, "refused {} at {}", self.number, place),
            None => write!(f, "refused {}", self.number),
        }
    }
}

impl fmt::Display for Verdict {
    fn fmt(&self, f: &mut fmt::Formatter) -> fmt::Result {
        match *self {
            Verdict::Accepted(count) => write!(f, "accepted {count}"),
            Verdict::Refused(refusal) => refusal.fmt(f),
            Verdict::Unproved { rule, subject, fault } => {
                let who = if matches!(rule, 7..=21 | 25 | 26) { "step" } else { "method" };
                let Fault { clause, pair, event, place } = fault;
                write!(f, "unproved rule {rule} {who} {subject} ")?;
                write!(f, "clause {clause} pair {pair} event {event} place {place}")
            }
        }
    }
}

impl fmt::Display for Answer {
    fn fmt(&self, f: &mut fmt::Formatter) -> fmt::Result {
        match self {
            Answer::No(length) => write!(f, "no {length}"),
            Answer::Yes => f.write_str("yes"),
            Answer::Refused(refusal) => refusal.fmt(f),
        }
    }
}

impl fmt::Display for Counts {
    fn fmt(&self, f: &mut fmt::Formatter) -> fmt::Result {
        let Counts { conditions, points, methods, steps, certificates } = self;
        write!(f, "read {conditions} {points} {methods} {steps} {certificates}")
    }
}
