//! A condition as a tree.
use crate::random::Random;

/// The events of channels 0 and 1, which are all events of an instrument of two.
pub const TWO_CHANNELS: u64 = 0xffff_ffff;

#[derive(Clone, Debug, PartialEq, Eq, Hash, PartialOrd, Ord)]
pub enum Tree {
    Leaf(u64),
    Empty,
    Join(Box<Tree>, Box<Tree>),
    Either(Box<Tree>, Box<Tree>),
    Star(Box<Tree>),
}

impl Tree {
    pub fn join(self, next: Tree) -> Tree {
        Tree::Join(Box::new(self), Box::new(next))
    }

    pub fn either(self, other: Tree) -> Tree {
        Tree::Either(Box::new(self), Box::new(other))
    }

    pub fn star(self) -> Tree {
        Tree::Star(Box::new(self))
    }

    pub fn event(event: u8) -> Tree {
        Tree::Leaf(1 << event)
    }

    /// Every word of events 0 to 31.
    pub fn any() -> Tree {
        Tree::Leaf(TWO_CHANNELS).star()
    }

    /// The tree with another set for each leaf's.
    pub fn with_sets(&self, other: &dyn Fn(u64) -> u64) -> Tree {
        match self {
            Tree::Leaf(set) => Tree::Leaf(other(*set)),
            Tree::Empty => Tree::Empty,
            Tree::Join(a, b) => a.with_sets(other).join(b.with_sets(other)),
            Tree::Either(a, b) => a.with_sets(other).either(b.with_sets(other)),
            Tree::Star(a) => a.with_sets(other).star(),
        }
    }

    /// The tree without the events outside a set.
    pub fn only(self, events: u64) -> Tree {
        self.with_sets(&|set| set & events)
    }

    /// The tree with the events of channel 0 and those of a channel exchanged.
    pub fn exchanged(&self, channel: u8) -> Tree {
        self.with_sets(&|set| with_events(set, |event| exchanged(event, channel)))
    }

    pub fn leaves(&self) -> usize {
        match self {
            Tree::Leaf(_) => 1,
            Tree::Empty => 0,
            Tree::Join(a, b) | Tree::Either(a, b) => a.leaves() + b.leaves(),
            Tree::Star(a) => a.leaves(),
        }
    }

    pub fn records(&self) -> usize {
        match self {
            Tree::Leaf(_) | Tree::Empty => 1,
            Tree::Join(a, b) | Tree::Either(a, b) => a.records() + b.records() + 1,
            Tree::Star(a) => a.records() + 1,
        }
    }

    /// Whether a condition may hold this tree.
    pub fn fits(&self) -> bool {
        self.leaves() <= 31 && self.records() <= 96
    }

    /// The records of the tree, without the end record. A leaf with an event above 31
    /// is one of kind 21, any other one of kind 1.
    pub fn write(&self, out: &mut Vec<u8>) {
        match self {
            Tree::Leaf(set) => match u32::try_from(*set) {
                Ok(set) => {
                    out.push(1);
                    out.extend_from_slice(&set.to_le_bytes());
                }
                Err(_) => {
                    out.push(21);
                    out.extend_from_slice(&set.to_le_bytes());
                }
            },
            Tree::Empty => out.push(2),
            Tree::Join(a, b) | Tree::Either(a, b) => {
                a.write(out);
                b.write(out);
                out.push(if matches!(self, Tree::Join(..)) { 3 } else { 4 });
            }
            Tree::Star(a) => {
                a.write(out);
                out.push(5);
            }
        }
    }

    pub fn random(random: &mut Random, depth: usize) -> Tree {
        if depth == 0 {
            return if random.once_in(8) { Tree::Empty } else { Tree::Leaf(random_set(random)) };
        }
        match random.below(6) {
            0 | 1 => Tree::random(random, depth - 1).join(Tree::random(random, depth - 1)),
            2 | 3 => Tree::random(random, depth - 1).either(Tree::random(random, depth - 1)),
            4 => Tree::random(random, depth - 1).star(),
            _ => Tree::random(random, 0),
        }
    }

    /// A word of the tree, if it holds one.
    pub fn word(&self, random: &mut Random, out: &mut Vec<u8>) -> bool {
        match self {
            Tree::Leaf(0) => false,
            Tree::Leaf(set) => {
                let chosen = random.below(set.count_ones() as usize);
                out.extend(events(*set).nth(chosen));
                true
            }
            Tree::Empty => true,
            Tree::Join(a, b) => a.word(random, out) && b.word(random, out),
            Tree::Either(a, b) => {
                let (one, two) = if random.once_in(2) { (a, b) } else { (b, a) };
                let kept = out.len();
                one.word(random, out) || {
                    out.truncate(kept);
                    two.word(random, out)
                }
            }
            Tree::Star(a) => {
                // A star of a star goes round once, or words would grow without end.
                let nested = matches!(**a, Tree::Star(_));
                for _ in 0..if nested { 1 } else { random.below(4) } {
                    let kept = out.len();
                    if !a.word(random, out) {
                        out.truncate(kept);
                    }
                }
                true
            }
        }
    }
}

/// Mostly sets over a few events, so that conditions meet; none above 31.
fn random_set(random: &mut Random) -> u64 {
    match random.below(12) {
        0 => 0,
        1 | 2 => TWO_CHANNELS,
        3 => random.next() & TWO_CHANNELS,
        4 => TWO_CHANNELS & !(1 << random.below(3)),
        5 => 3 | 1 << 31,
        6 | 7 => random.below(8) as u64,
        _ => 1 << random.below(3),
    }
}

/// The events of a set, ascending.
pub fn events(set: u64) -> impl Iterator<Item = u8> {
    (0..64).filter(move |event| set >> event & 1 == 1)
}

/// A set with another event for each of its events.
pub fn with_events(set: u64, other: impl Fn(u8) -> u8) -> u64 {
    events(set).fold(0, |all, event| all | 1 << other(event))
}

/// The events of a channel.
const CHANNEL: u8 = 16;

/// The event for which an event stands in a call by a channel: those of channel 0 and
/// of that channel are exchanged, the others stay.
pub fn exchanged(event: u8, channel: u8) -> u8 {
    match (event / CHANNEL, event % CHANNEL) {
        (0, place) => CHANNEL * channel + place,
        (own, place) if own == channel => place,
        _ => event,
    }
}
