//! The places of a side and what follows what, as bit sets.

use super::events::Events;
use super::reading::LONG_LEAF;

/// A side has at most 62 leaves and place 0.
const MOST: usize = 64;
/// A condition has at most 96 items waiting.
const DEEPEST: usize = 96;

/// What an enclosing operator needs of an item.
#[derive(Clone, Copy)]
struct Item {
    empty: bool,
    first: u64,
    last: u64,
}

const EMPTY: Item = Item { empty: true, first: 0, last: 0 };

/// A condition's records without its end record, and the channel by which it is read.
#[derive(Clone, Copy)]
pub struct Condition<'a> {
    pub records: &'a [u8],
    pub channel: u8,
}

/// A side's places; made once and filled again for each rule.
pub struct Side<E> {
    /// Places, place 0 among them.
    pub places: usize,
    /// The set of each leaf.
    pub sets: [E; MOST],
    /// The followers of each place.
    pub follow: [u64; MOST],
    /// The places that end a word.
    pub ends: u64,
    stack: [Item; DEEPEST],
}

/// The members of a bit set, ascending.
pub fn members(mut set: u64) -> impl Iterator<Item = usize> {
    std::iter::from_fn(move || {
        if set == 0 {
            return None;
        }
        let member = set.trailing_zeros() as usize;
        set &= set - 1;
        Some(member)
    })
}

impl<E: Events> Side<E> {
    pub fn new() -> Side<E> {
        let (sets, follow, stack) = ([E::NONE; MOST], [0; MOST], [EMPTY; DEEPEST]);
        Side { places: 1, sets, follow, ends: 0, stack }
    }

    /// The side is one condition.
    pub fn whole(&mut self, condition: Condition) {
        self.places = 1;
        let item = self.condition(condition);
        self.close(item);
    }

    /// The side is two conditions joined.
    pub fn joined(&mut self, one: Condition, two: Condition) {
        self.places = 1;
        let a = self.condition(one);
        let b = self.condition(two);
        let item = self.join(a, b);
        self.close(item);
    }

    /// The side is a condition, then one event.
    pub fn before(&mut self, condition: Condition, event: u8) {
        self.places = 1;
        let a = self.condition(condition);
        let b = self.leaf(E::one(event as usize));
        let item = self.join(a, b);
        self.close(item);
    }

    /// The side is one event, then a condition.
    pub fn after(&mut self, event: u8, condition: Condition) {
        self.places = 1;
        let a = self.leaf(E::one(event as usize));
        let b = self.condition(condition);
        let item = self.join(a, b);
        self.close(item);
    }

    fn close(&mut self, item: Item) {
        self.follow[0] = item.first;
        self.ends = item.last | item.empty as u64;
    }

    /// Adds the leaves of a condition.
    #[inline(always)]
    fn condition(&mut self, Condition { records, channel }: Condition) -> Item {
        let start = self.places;
        let item = self.records(records);
        if E::MORE && channel > 0 {
            for set in &mut self.sets[start..self.places] {
                *set = set.exchanged(channel);
            }
        }
        item
    }

    /// Adds leaves in postfix order.
    fn records(&mut self, bytes: &[u8]) -> Item {
        let mut depth = 0;
        let mut at = 0;
        while at < bytes.len() {
            let kind = bytes[at];
            at += 1;
            let item = match kind {
                1 => {
                    let set = [bytes[at], bytes[at + 1], bytes[at + 2], bytes[at + 3]];
                    at += 4;
                    self.leaf(E::from(u32::from_le_bytes(set)))
                }
                LONG_LEAF if E::MORE => {
                    let mut set = [0; 8];
                    set.copy_from_slice(&bytes[at..at + 8]);
                    at += 8;
                    self.leaf(E::of_bytes(set))
                }
                2 => EMPTY,
                3 | 4 => {
                    depth -= 2;
                    let (a, b) = (self.stack[depth], self.stack[depth + 1]);
                    if kind == 3 {
                        self.join(a, b)
                    } else {
                        either(a, b)
                    }
                }
                _ => {
                    depth -= 1;
                    self.star(self.stack[depth])
                }
            };
            self.stack[depth] = item;
            depth += 1;
        }
        self.stack[0]
    }

    fn leaf(&mut self, set: E) -> Item {
        let place = self.places;
        self.places += 1;
        self.sets[place] = set;
        self.follow[place] = 0;
        Item { empty: false, first: 1 << place, last: 1 << place }
    }

    fn join(&mut self, a: Item, b: Item) -> Item {
        self.link(a.last, b.first);
        Item {
            empty: a.empty && b.empty,
            first: if a.empty { a.first | b.first } else { a.first },
            last: if b.empty { a.last | b.last } else { b.last },
        }
    }

    fn star(&mut self, a: Item) -> Item {
        self.link(a.last, a.first);
        Item { empty: true, ..a }
    }

    fn link(&mut self, last: u64, first: u64) {
        for place in members(last) {
            self.follow[place] |= first;
        }
    }

    /// All followers of a set of places.
    pub fn followers(&self, set: u64) -> u64 {
        members(set).fold(0, |all, place| all | self.follow[place])
    }

    /// The places that hold each event.
    pub fn holding(&self) -> [u64; 64] {
        let mut holding = [0; 64];
        for place in 1..self.places {
            for event in members(self.sets[place].into()) {
                holding[event] |= 1 << place;
            }
        }
        holding
    }
}

fn either(a: Item, b: Item) -> Item {
    Item { empty: a.empty || b.empty, first: a.first | b.first, last: a.last | b.last }
}

/// Whether a condition holds the empty word; one bit for each waiting item.
pub fn holds_empty<E: Events>(bytes: &[u8]) -> bool {
    let mut stack = 0u128;
    let mut at = 0;
    while at < bytes.len() {
        match bytes[at] {
            1 => {
                stack <<= 1;
                at += 4;
            }
            LONG_LEAF if E::MORE => {
                stack <<= 1;
                at += 8;
            }
            2 => stack = stack << 1 | 1,
            3 => stack = stack >> 2 << 1 | (stack & stack >> 1 & 1),
            4 => stack = stack >> 2 << 1 | ((stack | stack >> 1) & 1),
            _ => stack |= 1,
        }
        at += 1;
    }
    stack & 1 == 1
}
