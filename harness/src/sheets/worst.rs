//! Certificates from numbers, so that a search can change them.
use super::hostile::{by_call, fitting, spread, turning_over, Order, Pair, TURNS};
use crate::instrument::Instrument;
use crate::random::Random;
use crate::tree::{Tree, TWO_CHANNELS};

/// How to make a certificate: some pairs serve, one for each follower and block of
/// events; the others, fillers, serve nothing that these do not serve.
#[derive(Clone, Debug, PartialEq)]
pub struct Recipe {
    /// The leaves of the two joined conditions on the left, each under a star.
    pub leaves: [usize; 2],
    /// The events of each left leaf, and how many of them one pair serves.
    pub events: usize,
    pub block: usize,
    /// How followers change from pair to pair: 0 not at all; 1 every second right
    /// place follows the place before it alone; 2 the right side is `turning`; 3 the
    /// first condition has two halves, each with a follower of its own.
    pub change: usize,
    /// Shares of the fillers: with a right place that holds nothing; with the events
    /// of a block; with a right place that never follows; for left place 0.
    pub dead: usize,
    pub again: usize,
    pub outside: usize,
    pub start: usize,
    /// The right places of a filler: 0 few, 1 half, 2 most.
    pub density: usize,
    /// How many in a hundred of the pairs that serve stand first, and last; the
    /// others stand among the fillers, evenly (0) or at random (1).
    pub first: usize,
    pub last: usize,
    pub chance: usize,
    /// The order of the pairs that serve: 0 by place, 1 by event, 2 at random.
    pub order: usize,
    /// The places of fillers: 0 the first leaf, 1 leaves of the first condition, 2 all.
    pub places: usize,
}

/// The recipe that takes the library longest of those that were tried: 62 left places
/// with 30 events each, of which 60 follow a filler's, and a pair for each of these
/// 1,860, by event, evenly among fillers that serve nothing. A search found it from
/// one that was set by hand, and the next found none that takes longer. The same in
/// another order, or with a right side that is `turning`, takes some percent less.
pub const WORST: Recipe = Recipe {
    leaves: [31, 31],
    events: 30,
    block: 1,
    change: 3,
    dead: 1,
    again: 0,
    outside: 0,
    start: 0,
    density: 1,
    first: 0,
    last: 0,
    chance: 0,
    order: 1,
    places: 0,
};

/// The same on the entry instrument, where the pairs that serve leave room for few
/// others: 48 left places with 23 events each, a pair for each of these, most of them
/// last, and a right side that is `turning`. A search found it from one that another
/// search had found at random, and which takes some percent less.
pub const WORST_ENTRY: Recipe = Recipe {
    leaves: [24, 24],
    events: 23,
    block: 1,
    change: 2,
    dead: 7,
    again: 3,
    outside: 2,
    start: 5,
    density: 2,
    first: 2,
    last: 94,
    chance: 1,
    order: 0,
    places: 1,
};

/// Which part of a recipe is the number of events, and the most of it with 64 events.
const EVENTS: usize = 2;
const MOST_EVENTS: usize = 64;

/// The least and the greatest number for each part of a recipe on an instrument.
fn ranges(on: &Instrument) -> [(usize, usize); 15] {
    let mut ranges = RANGES;
    if on.events as usize == MOST_EVENTS {
        ranges[EVENTS].1 = MOST_EVENTS;
    }
    ranges
}

/// The same on an instrument of two channels.
const RANGES: [(usize, usize); 15] = [
    (4, 31),
    (0, 31),
    (1, 30),
    (1, 30),
    (0, 3),
    (0, 8),
    (0, 8),
    (0, 8),
    (0, 8),
    (0, 2),
    (0, 100),
    (0, 100),
    (0, 1),
    (0, 2),
    (0, 2),
];

impl Recipe {
    pub fn random(on: &Instrument, random: &mut Random) -> Recipe {
        let mut recipe = WORST;
        for (part, range) in recipe.parts().into_iter().zip(ranges(on)) {
            *part = draw(range, random);
        }
        recipe
    }

    /// The same with one part or two drawn anew.
    pub fn changed(&self, on: &Instrument, random: &mut Random) -> Recipe {
        let mut recipe = self.clone();
        for _ in 0..1 + random.below(2) {
            let number = random.below(RANGES.len());
            *recipe.parts()[number] = draw(ranges(on)[number], random);
        }
        recipe
    }

    fn parts(&mut self) -> [&mut usize; 15] {
        let [one, two] = &mut self.leaves;
        let (dead, again) = (&mut self.dead, &mut self.again);
        let (outside, start) = (&mut self.outside, &mut self.start);
        let (events, block, change) = (&mut self.events, &mut self.block, &mut self.change);
        let (density, first, last) = (&mut self.density, &mut self.first, &mut self.last);
        let (chance, order, places) = (&mut self.chance, &mut self.order, &mut self.places);
        [
            one, two, events, block, change, dead, again, outside, start, density, first, last,
            chance, order, places,
        ]
    }

    /// The sheet, with a certificate of at most so many pairs.
    pub fn sheet(&self, most: usize) -> Vec<u8> {
        let mut random = Random::new(9);
        let serving = self.serving(&mut random);
        let share = |part: usize| serving.len() * part / 100;
        let first = share(self.first);
        let last = share(self.last).min(serving.len() - first);
        let (first, rest) = serving.split_at(first);
        let (among, last) = rest.split_at(rest.len() - last);
        let [one, two] = self.left();
        let long = by_call(&one, &two, &self.right());
        let turns = if self.change == 2 { TURNS } else { [0, 0] };
        let order = Order { random: (self.chance == 1).then(|| Random::new(10)), turns };
        let filler = |before| self.filler(before, &serving, &mut random);
        spread(long, [first, among, last], most, order, filler)
    }

    /// The sheet with as many pairs as fit in so many bytes.
    pub fn of_length(&self, bytes: usize) -> Vec<u8> {
        fitting(|most| self.sheet(most), bytes)
    }

    fn left(&self) -> [Tree; 2] {
        let row = |leaves| either((0..leaves).map(|_| self.mask()));
        let [one, two] = self.leaves;
        if self.change != 3 {
            return [row(one).star(), row(two).star()];
        }
        let half = |leaves: usize| match leaves {
            0 => Tree::Empty,
            1 => row(1),
            _ => row(leaves - 1).join(row(1).either(Tree::Empty)),
        };
        [half(one / 2).either(half(one - one / 2)).star(), half(two).star()]
    }

    /// The events of each left leaf.
    fn mask(&self) -> u64 {
        u64::MAX >> (64 - self.events)
    }

    /// The right places that serve; with links, the first one of each.
    fn server(&self, number: usize) -> u32 {
        2 << (number << (self.change == 1) as usize)
    }

    fn servers(&self) -> usize {
        [30, 14, 25, 30][self.change]
    }

    /// The right place that holds no event.
    fn dead_place(&self) -> u32 {
        self.server(self.servers())
    }

    /// The events of a block, and how many blocks there are, one server each at least.
    fn blocks(&self) -> (usize, usize) {
        let events = self.block.min(self.events).max(self.events.div_ceil(self.servers()));
        (events, self.events.div_ceil(events))
    }

    /// The events that a server holds.
    fn held(&self, number: usize) -> u64 {
        let (events, blocks) = self.blocks();
        self.mask() & ((1 << events) - 1) << (number % blocks * events)
    }

    fn right(&self) -> Tree {
        let own = || Tree::Leaf(self.mask()).either(Tree::Empty);
        let leaf = |number| match self.change {
            1 => Tree::Leaf(self.held(number)).join(own()),
            _ => Tree::Leaf(self.held(number)),
        };
        let all = (0..self.servers()).map(leaf).chain([Tree::Leaf(0)]);
        let all = all.reduce(Tree::either).unwrap_or(Tree::Empty);
        match self.change {
            1 => all.star().either(Tree::Leaf(0)),
            2 if self.events > 32 => turning_over(u64::MAX, all),
            2 => turning_over(TWO_CHANNELS, all),
            _ => all.star(),
        }
    }

    fn serving(&self, random: &mut Random) -> Vec<Pair> {
        let (places, blocks) = (self.leaves[0] + self.leaves[1], self.blocks().1);
        let mut list: Vec<Pair> = (0..places * blocks)
            .map(|i| match self.order {
                1 => (1 + i % places, self.server(i / places)),
                _ => (1 + i / blocks, self.server(i % blocks)),
            })
            .collect();
        if self.order == 2 {
            random.shuffle(&mut list);
        }
        list
    }

    /// A filler after a pair for a place.
    fn filler(&self, before: usize, serving: &[Pair], random: &mut Random) -> Pair {
        let (one, two) = (random.next() as u32, random.next() as u32);
        let dead = self.dead_place();
        let some = [one & two, one, one | two][self.density] & (dead - 1) & !1;
        let half = self.leaves[0] / 2;
        let place = match self.places {
            _ if self.change == 3 => 1 + if before <= half { half } else { 0 },
            0 => 1,
            1 => 1 + random.below(self.leaves[0]),
            _ => 1 + random.below(self.leaves[0] + self.leaves[1]),
        };
        let (again, outside) = (self.dead + self.again, self.dead + self.again + self.outside);
        match random.below(outside + self.start) {
            share if share < self.dead => (place, some | dead),
            share if share < again => serving[random.below(serving.len())],
            share if share < outside => (place, some | 1),
            _ => (0, some | dead),
        }
    }
}

fn draw((least, most): (usize, usize), random: &mut Random) -> usize {
    least + random.below(most + 1 - least)
}

/// One of some leaves; the empty word if there is none.
fn either(sets: impl Iterator<Item = u64>) -> Tree {
    sets.map(Tree::Leaf).reduce(Tree::either).unwrap_or(Tree::Empty)
}
