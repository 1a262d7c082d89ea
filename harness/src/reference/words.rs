//! Stepping through a word.
use super::events::Events;
use super::places::Side;
use crate::answer::Answer;

/// For a word of as many events, their holders are looked for one by one.
const FEW: usize = 12;

/// A side with what its steps need, made once for a word.
pub struct Stepping<'a, E> {
    side: &'a Side<E>,
    /// The places that hold each event of the word.
    holding: [u64; 64],
    /// The leaves that hold an event and from which a word can be finished.
    live: u64,
}

/// What the test of a word gives that stops at the empty set alone.
#[derive(Clone, Copy, Debug, PartialEq, Eq)]
pub struct Walk {
    /// Whether the last set ends a word.
    pub held: bool,
    /// Whether a set was not empty, and no word could be finished from it.
    pub hopeless: bool,
}

impl<'a, E: Events> Stepping<'a, E> {
    pub fn new(side: &'a Side<E>, word: &[u8]) -> Stepping<'a, E> {
        let holding = match word.len() {
            0..=FEW => holding_each(side, word),
            _ => side.holding(),
        };
        Stepping { side, holding, live: live(side) }
    }

    /// A set of places stepped by an event 0 to 63, and whether a word can be finished.
    #[inline(always)]
    fn step(&self, set: u64, event: u8) -> (u64, bool) {
        let stepped = self.side.followers(set) & self.holding[event as usize & 63];
        (stepped, stepped & self.live != 0)
    }

    /// Whether the side holds a word and, if not, the length of its longest beginning that
    /// begins some word of the side.
    pub fn test(&self, word: &[u8]) -> Answer {
        let mut set = 1;
        for (length, &event) in word.iter().enumerate() {
            let (stepped, finishes) = self.step(set, event);
            if !finishes {
                return Answer::No(length);
            }
            set = stepped;
        }
        match set & self.side.ends {
            0 => Answer::No(word.len()),
            _ => Answer::Yes,
        }
    }

    /// How a word goes by sets that are not empty.
    pub fn walk(&self, word: &[u8]) -> Walk {
        let mut walk = Walk { held: false, hopeless: false };
        let mut set = 1;
        for &event in word {
            let (stepped, finishes) = self.step(set, event);
            if stepped == 0 {
                return walk;
            }
            walk.hopeless |= !finishes;
            set = stepped;
        }
        walk.held = set & self.side.ends != 0;
        walk
    }
}

/// The places that hold each event of a word; of other events none.
fn holding_each<E: Events>(side: &Side<E>, word: &[u8]) -> [u64; 64] {
    let mut holding = [0; 64];
    for &event in word {
        let sets = side.sets[1..side.places].iter().enumerate();
        let holds = |set: E| (set & E::one(event as usize) != E::NONE) as u64;
        holding[event as usize & 63] = sets.fold(0, |all, (i, &set)| all | holds(set) << (i + 1));
    }
    holding
}

/// From a leaf that ends a word nothing more is needed, from another a live follower. A
/// shortest way to an end takes no star's way back, so it ascends, and one pass from the
/// last leaf on is enough.
fn live<E: Events>(side: &Side<E>) -> u64 {
    let mut live = 0;
    for place in (1..side.places).rev() {
        let ends = side.ends >> place & 1 == 1 || side.follow[place] & live != 0;
        live |= ((ends && side.sets[place] != E::NONE) as u64) << place;
    }
    live
}
