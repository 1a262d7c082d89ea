//! Sets of an instrument's events, one bit each, no wider than the instrument needs.
use std::ops::{BitAnd, BitAndAssign, BitOr, Not};

pub trait Events:
    Copy
    + PartialEq
    + BitAnd<Output = Self>
    + BitAndAssign
    + BitOr<Output = Self>
    + Not<Output = Self>
    + From<u32>
    + Into<u64>
{
    const NONE: Self;
    const ALL: Self;
    /// Whether there are more than 32, and with them leaves with sets of 8 bytes and
    /// calls by a channel.
    const MORE: bool;

    /// The set of one event.
    fn one(event: usize) -> Self;

    /// The set of a leaf with 8 bytes.
    fn of_bytes(bytes: [u8; 8]) -> Self;

    /// The first event of a set that has one.
    fn first(self) -> usize;

    fn count(self) -> usize;

    /// The set with the events of channel 0 and those of another channel exchanged.
    fn exchanged(self, channel: u8) -> Self;
}

impl Events for u32 {
    const NONE: u32 = 0;
    const ALL: u32 = u32::MAX;
    const MORE: bool = false;

    fn one(event: usize) -> u32 {
        1 << event
    }

    fn of_bytes([a, b, c, d, ..]: [u8; 8]) -> u32 {
        u32::from_le_bytes([a, b, c, d])
    }

    fn first(self) -> usize {
        self.trailing_zeros() as usize
    }

    fn count(self) -> usize {
        self.count_ones() as usize
    }

    fn exchanged(self, _: u8) -> u32 {
        self
    }
}

/// The events of a channel.
const CHANNEL: u32 = 16;

impl Events for u64 {
    const NONE: u64 = 0;
    const ALL: u64 = u64::MAX;
    const MORE: bool = true;

    fn one(event: usize) -> u64 {
        1 << event
    }

    fn of_bytes(bytes: [u8; 8]) -> u64 {
        u64::from_le_bytes(bytes)
    }

    fn first(self) -> usize {
        self.trailing_zeros() as usize
    }

    fn count(self) -> usize {
        self.count_ones() as usize
    }

    fn exchanged(self, channel: u8) -> u64 {
        let (first, by) = ((1 << CHANNEL) - 1, CHANNEL * channel as u32);
        self & !(first | first << by) | (self & first) << by | self >> by & first
    }
}
