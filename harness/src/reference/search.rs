//! The search of clause 4 in a certificate of many pairs.
use super::clauses::Pair;
use super::events::Events;
use super::places::{members, Side};
use std::collections::HashSet;
use std::hash::{BuildHasherDefault, Hasher};

/// Pairs that are looked at before it is asked whether something is missing still.
const CHUNK: usize = 64;
/// Looks at pairs that take as long as one question to a hash set.
const QUESTION: usize = 32;

/// The pairs of one left place.
struct List<E> {
    sets: Vec<u32>,
    /// The events of the place's leaf that each set serves.
    served: Vec<E>,
    /// Whether only sets are left that serve something and have no other within.
    reduced: bool,
}

pub struct Search<'a, E> {
    left: &'a Side<E>,
    /// The right places that hold each event.
    holding: [u32; 64],
    lists: Vec<List<E>>,
    /// The pairs.
    listed: Keys,
    /// The followers on both sides that were asked for.
    asked: Keys,
}

impl<'a, E: Events> Search<'a, E> {
    pub fn new(left: &'a Side<E>, right: &Side<E>, pairs: &[Pair<E>]) -> Search<'a, E> {
        let mut lists: Vec<List<E>> = (0..64).map(|_| List::empty(false)).collect();
        let mut listed = Keys::with_capacity_and_hasher(pairs.len(), Default::default());
        for pair in pairs {
            let place = pair.place as usize;
            lists[place].sets.push(pair.set);
            lists[place].served.push(pair.shared & left.sets[place]);
            listed.insert((place as u64, pair.set));
        }
        let holding = right.holding().map(|places| places as u32);
        Search { left, holding, lists, listed, asked: Keys::default() }
    }

    /// The first event that is not served, and its place, given the followers of
    /// a pair's place and of its set.
    pub fn unserved(&mut self, follow: u64, union: u32) -> Option<(usize, usize)> {
        if !self.asked.insert((follow, union)) {
            // Nothing was missing, or the first fault would have been found.
            return None;
        }
        let first = |place| match self.missing(place, union) {
            missing if missing == E::NONE => None,
            missing => Some((missing.first(), place)),
        };
        members(follow).filter_map(first).min()
    }

    /// The events of a place that no pair serves within some followers.
    fn missing(&mut self, place: usize, union: u32) -> E {
        let mut events = self.left.sets[place];
        let list = &mut self.lists[place];
        if list.sets.len() > QUESTION * events.count() {
            // An exact certificate lists the greatest set that can serve an event.
            let set = |event: usize| union & self.holding[event];
            let listed = |event: &usize| self.listed.contains(&(place as u64, set(*event)));
            let found = members(events.into()).filter(listed);
            events &= !found.fold(E::NONE, |all, event| all | E::one(event));
        }
        if events == E::NONE {
            return events;
        }
        list.missing(union, events)
    }
}

impl<E: Events> List<E> {
    fn empty(reduced: bool) -> List<E> {
        List { sets: vec![], served: vec![], reduced }
    }

    /// Those of some events that no set within the followers serves.
    fn missing(&mut self, union: u32, mut events: E) -> E {
        self.reduce();
        for (sets, served) in self.sets.chunks(CHUNK).zip(self.served.chunks(CHUNK)) {
            let pairs = sets.iter().zip(served);
            let of = |(set, served): (&u32, &E)| if set & !union == 0 { *served } else { E::NONE };
            events &= !pairs.fold(E::NONE, |all, pair| all | of(pair));
            if events == E::NONE {
                break;
            }
        }
        events
    }

    /// Leaves out sets that serve nothing, and sets with another within, which
    /// serves as much and lies within as many followers.
    fn reduce(&mut self) {
        if self.reduced {
            return;
        }
        let pairs = self.sets.iter().copied().zip(self.served.iter().copied());
        let mut pairs: Vec<(u32, E)> = pairs.filter(|(_, served)| *served != E::NONE).collect();
        pairs.sort_unstable_by_key(|(set, _)| set.count_ones());
        let mut least = List::empty(true);
        for (set, served) in pairs {
            if !least.has_within(set) {
                least.sets.push(set);
                least.served.push(served);
            }
        }
        *self = least;
    }

    /// Whether a set of the list lies within another.
    fn has_within(&self, other: u32) -> bool {
        let within = |sets: &[u32]| sets.iter().fold(false, |any, set| any | (set & !other == 0));
        self.sets.chunks(CHUNK).any(within)
    }
}

/// Places on the left, by number or as a set, and a set of right places.
type Keys = HashSet<(u64, u32), BuildHasherDefault<Mix>>;

/// Multiplies and folds. With keys that collide, a question takes no longer than
/// a look at each of them.
#[derive(Default)]
struct Mix(u64);

impl Hasher for Mix {
    fn write_u64(&mut self, key: u64) {
        let product = (self.0 ^ key) as u128 * 0x9E37_79B9_7F4A_7C15;
        self.0 = (product >> 64) as u64 ^ product as u64;
    }

    fn write_u32(&mut self, key: u32) {
        self.write_u64(key as u64);
    }

    fn write(&mut self, bytes: &[u8]) {
        bytes.iter().for_each(|&byte| self.write_u64(byte as u64));
    }

    fn finish(&self) -> u64 {
        self.0
    }
}
