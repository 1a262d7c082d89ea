//! The instruments that sheets are loaded on.
use crate::library::header;

/// What an instrument takes of a sheet. Everything else is equal on all.
#[derive(Clone, Copy, Debug, PartialEq, Eq)]
pub struct Instrument {
    /// The word by which programs name it, and the number by which the library does.
    pub name: &'static str,
    pub number: usize,
    /// The most bytes, and the most points.
    pub bytes: usize,
    pub points: usize,
    /// The highest kind of a record.
    pub kinds: u8,
    /// The number of events, from 0 on.
    pub events: u8,
}

/// The highest kind, and the most events; those of an instrument of two channels.
pub const KINDS: u8 = 22;
pub const EVENTS: u8 = 64;
const TWO_CHANNEL_KINDS: u8 = 20;
const TWO_CHANNEL_EVENTS: u8 = 32;
/// The highest kind before request 2, before request 4, and before request 9.
pub const FORMER_KINDS: [u8; 3] = [14, 17, 19];

pub const LARGE: Instrument = Instrument {
    name: "large",
    number: header::LARGE,
    bytes: 65_536,
    points: 512,
    kinds: TWO_CHANNEL_KINDS,
    events: TWO_CHANNEL_EVENTS,
};

pub const ENTRY: Instrument =
    Instrument { name: "entry", number: header::ENTRY, bytes: 8_192, points: 64, ..LARGE };

/// The four-channel instrument.
pub const FOUR: Instrument =
    Instrument { name: "four", number: header::FOUR, kinds: KINDS, events: EVENTS, ..LARGE };

pub const ALL: [Instrument; 3] = [LARGE, ENTRY, FOUR];

/// Those of two channels.
#[cfg(test)]
pub const TWO_CHANNELS: [Instrument; 2] = [LARGE, ENTRY];

impl Instrument {
    /// An instrument of two channels with any limits, which the library does not have.
    pub fn of(bytes: usize, points: usize) -> Instrument {
        Instrument { name: "other", number: 0, bytes, points, ..LARGE }
    }

    /// The same with another highest kind, which the library does not have either.
    pub fn former(self, kinds: u8) -> Instrument {
        Instrument { kinds, ..self }
    }

    /// The same with another highest kind and another number of events.
    pub fn with(self, kinds: u8, events: u8) -> Instrument {
        Instrument { kinds, events, ..self }
    }

    pub fn named(word: &str) -> Option<Instrument> {
        ALL.into_iter().find(|on| on.name == word)
    }
}
