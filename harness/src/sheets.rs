//! Seeded sheets and words to try.

mod channels;
mod draft;
mod failing;
mod families;
mod honest;
mod hopeless;
mod hostile;
mod limits;
mod mutate;
mod owners;
mod stopping;
mod stray;
mod words;
mod worst;

use crate::instrument::{ENTRY, FOUR};
use crate::naive;
use crate::random::Random;
pub use channels::{by_channel, EXCHANGES};
#[cfg(test)]
pub use channels::{draft as by_channels, longer_leaves};
pub use draft::Draft;
#[cfg(test)]
pub use draft::{certificate, Method, Step, MOST_PAIRS};
#[cfg(test)]
pub use failing::failing;
use families::entry_rules;
pub use families::{
    channel_rules, four_certificate, large_certificate, many_records, many_rules, new_rules,
    owned_rules, small_channels, small_failing, small_honest, small_owned, small_stopping,
    starred_channel_rules, starred_rules, steady_word, WORDS,
};
#[cfg(test)]
pub use honest::spoil;
#[cfg(test)]
pub use hopeless::tree as hopeless;
pub use hostile::{doubled, each_of_64, HOSTILE};
pub use limits::limits;
#[cfg(test)]
pub use limits::of_length;
pub use owners::{all_owned, rightly_owned};
#[cfg(test)]
pub use owners::{give as give_owners, right as right_owners};
#[cfg(test)]
pub use stopping::{large as large_stopping, stopping};
#[cfg(test)]
pub use stray::{least, row};
pub use words::{words, Test};
pub use worst::{Recipe, WORST, WORST_ENTRY};

/// One sheet of a random sort; a third is of the four-channel instrument, in a third points
/// have owners, and a third has conditions from which words cannot be finished.
pub fn sheet(random: &mut Random) -> Vec<u8> {
    let sheet = match random.below(3) {
        0 => channels::sheet(random),
        _ => any_sort(random),
    };
    let sheet = match random.below(3) {
        0 => owners::owned(&sheet, random),
        _ => sheet,
    };
    match random.below(5) {
        0 | 1 => hopeless::with_hopeless(&sheet, random),
        _ => sheet,
    }
}

fn any_sort(random: &mut Random) -> Vec<u8> {
    match random.below(100) {
        0..=4 => stray::bytes(random),
        5..=19 => stray::records(random),
        20..=21 => stray::at_a_limit(random),
        22..=24 => honest::wild(random),
        25..=39 => stopping::either_edition(random).certified(),
        40..=59 => {
            let mut draft = stopping::either_edition(random);
            honest::spoil(&mut draft, random);
            draft.certified()
        }
        60..=61 => large(random).certified(),
        62..=65 => mutate::mutate(&large(random).certified(), random),
        94..=99 => limits::around_entry(random),
        _ => {
            let mut sheet = stopping::either_edition(random).certified();
            for _ in 0..1 + random.below(2) {
                sheet = mutate::mutate(&sheet, random);
            }
            sheet
        }
    }
}

/// A draft with sides of many leaves, of either edition.
fn large(random: &mut Random) -> Draft {
    match random.below(2) {
        0 => honest::large(random),
        _ => stopping::large(random),
    }
}

/// Whether a sheet is one of the new edition.
pub fn is_new(sheet: &[u8]) -> bool {
    sheet.first() == Some(&18)
}

/// Whether a sheet has a stop among its records.
pub fn has_stop(sheet: &[u8]) -> bool {
    mutate::split(sheet).iter().any(|record| record[0] == 19)
}

/// The numbers of a sheet's points, and of those of them that have an owner.
pub fn points(sheet: &[u8]) -> (usize, usize) {
    let points = mutate::split(sheet).into_iter().filter(|record| mutate::is_point(record));
    points.fold((0, 0), |(all, owned), record| (all + 1, owned + (record[0] == 20) as usize))
}

/// Whether a sheet has a leaf with a set of 8 bytes.
pub fn has_long_leaf(sheet: &[u8]) -> bool {
    mutate::split(sheet).iter().any(|record| record[0] == 21)
}

/// Whether a sheet has a leaf with the set 0.
pub fn has_dead_leaf(sheet: &[u8]) -> bool {
    let dead = |record: &Vec<u8>| match record[..] {
        [1 | 21, ref set @ ..] => set.iter().all(|&byte| byte == 0),
        _ => false,
    };
    mutate::split(sheet).iter().any(dead)
}

/// Whether a sheet has a call by a channel that exchanges something, 1 to 3.
pub fn has_channel(sheet: &[u8]) -> bool {
    let by_channel = |record: &Vec<u8>| record[0] == 22 && matches!(record.get(7), Some(1..=3));
    mutate::split(sheet).iter().any(by_channel)
}

/// What makes a sheet, with its name.
type Named = (&'static str, fn() -> Vec<u8>);

/// Sheets for the entry instrument, of its full length, all accepted: the honest one
/// and the hostile one that took the library longest.
pub const ENTRY_SHEETS: [Named; 2] = [
    ("entry: as many calls as fit, under 35 stars", entry_rules),
    ("entry, hostile: the worst that a search found", || WORST_ENTRY.of_length(ENTRY.bytes)),
];

/// The pairs of a well formed sheet.
pub fn pairs(sheet: &[u8]) -> usize {
    let certificates = naive::read_sheet(&FOUR, sheet).map_or(vec![], |sheet| sheet.certificates);
    certificates.iter().map(Vec::len).sum()
}
