//! A search for the certificate that takes a loader longest.
use crate::answer::{Doors, Verdict};
use crate::clock;
use crate::instrument::{Instrument, ENTRY};
use crate::random::Random;
use crate::reference;
use crate::sheets::{Recipe, WORST, WORST_ENTRY};
use std::hint::black_box;
use std::time::Duration;

/// Bytes of the sheets that are tried first.
const SHORT: usize = 18_000;
/// Of so many tries, one is at full length.
const RARELY: usize = 4;

/// The recipe that took longest, and its sheet.
struct Best {
    recipe: Recipe,
    sheet: Vec<u8>,
}

/// Tries a number of recipes: a quarter at random, then changes of the best one;
/// in the end some at full length. Prints each that takes longer than the best,
/// which is at first the one that is written down.
pub fn search(doors: &Doors, on: &Instrument, tries: usize, seed: u64) {
    let mut random = Random::new(seed);
    let short = SHORT.min(on.bytes);
    let known = if *on == ENTRY { WORST_ENTRY } else { WORST };
    let mut best = Best { recipe: known.clone(), sheet: known.of_length(short) };
    for number in 0..tries {
        let fresh = number < tries / 4;
        let changed = best.recipe.changed(on, &mut random);
        best.meet(doors, on, if fresh { Recipe::random(on, &mut random) } else { changed }, short);
    }
    println!("at full length");
    best.sheet = vec![];
    for recipe in [best.recipe.clone(), known] {
        best.meet(doors, on, recipe, on.bytes);
    }
    for _ in 0..tries / RARELY {
        best.meet(doors, on, best.recipe.changed(on, &mut random), on.bytes);
    }
}

impl Best {
    /// Takes a recipe whose sheet takes longer by a hundredth each of three times,
    /// in turn with the best, since the speed of a machine changes.
    fn meet(&mut self, doors: &Doors, on: &Instrument, recipe: Recipe, bytes: usize) {
        let sheet = recipe.of_length(bytes);
        if !matches!(reference::load(on, &sheet), Verdict::Accepted(_)) {
            return;
        }
        let mut least = Duration::MAX;
        for _ in 0..3 {
            let time = time(doors, on, &sheet);
            if time <= self::time(doors, on, &self.sheet) * 101 / 100 {
                return;
            }
            least = least.min(time);
        }
        println!("{:.2} ms {recipe:?}", least.as_secs_f64() * 1e3);
        *self = Best { recipe, sheet };
    }
}

/// The processor time of one load.
fn time(doors: &Doors, on: &Instrument, sheet: &[u8]) -> Duration {
    let start = clock::now();
    black_box((doors.load)(on, black_box(sheet)));
    clock::now() - start
}
