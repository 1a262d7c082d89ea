//! What requests 8 and 11 state of a smaller and a larger instrument, on their answers to
//! one sheet: the smaller one's is refused 1 at its limit, refused 6, refused 2 at a
//! record of a kind that only the larger one takes, refused 7 at an event step, or 13 at
//! an index, with an event that only the larger one has, or the larger one's with all its
//! values. Each of these applies only where the larger one's limit is higher. So a sheet
//! that the smaller one accepts is accepted by the larger one with an equal count.
use crate::answer::{Refusal, Verdict};
use crate::instrument::Instrument;

/// A smaller instrument and a larger one.
pub type Pair = [Instrument; 2];

/// What the smaller one's answer is.
#[derive(Clone, Copy, Debug, PartialEq, Eq)]
pub enum Way {
    TooLong,
    TooMany,
    LaterKind,
    LaterEvent,
    Same,
}

/// Given a sheet and a word, which is empty where none is tested, the smaller one's
/// refusal, if it is one, and whether the answers are equal; nothing where the statement
/// is false.
pub fn way(
    [small, large]: &Pair,
    sheet: &[u8],
    word: &[u8],
    refusal: Option<Refusal>,
    same: bool,
) -> Option<Way> {
    let between = |event: Option<&u8>| {
        event.is_some_and(|event| (small.events..large.events).contains(event))
    };
    let later =
        |kind: Option<&u8>| kind.is_some_and(|kind| (small.kinds + 1..=large.kinds).contains(kind));
    let found = match refusal {
        Some(Refusal { number: 1, place }) if place == Some(small.bytes) => {
            (small.bytes < large.bytes).then_some(Way::TooLong)
        }
        Some(Refusal { number: 6, .. }) => (small.points < large.points).then_some(Way::TooMany),
        Some(Refusal { number: 2, place: Some(at) }) => {
            later(sheet.get(at)).then_some(Way::LaterKind)
        }
        Some(Refusal { number: 7, place: Some(at) }) => {
            (sheet.get(at) == Some(&10) && between(sheet.get(at + 5))).then_some(Way::LaterEvent)
        }
        Some(Refusal { number: 13, place: Some(index) }) => {
            between(word.get(index)).then_some(Way::LaterEvent)
        }
        _ => None,
    };
    found.or(same.then_some(Way::Same))
}

/// How often answers were seen of a smaller and a larger instrument.
#[derive(Default)]
pub struct Ways {
    /// By way, and those that are none.
    pub ways: [usize; 5],
    pub broken: usize,
    /// Answers that are not equal.
    pub differ: usize,
}

impl Ways {
    /// Counts a way, and whether the answers are equal; tells whether the statement is
    /// true.
    pub fn count(&mut self, way: Option<Way>, same: bool) -> bool {
        self.differ += !same as usize;
        *match way {
            Some(way) => &mut self.ways[way as usize],
            None => &mut self.broken,
        } += 1;
        way.is_some()
    }
}

/// The sorts of verdicts.
const SORTS: [&str; 5] = ["accepted", "refused 1", "refused 6", "refused otherwise", "unproved"];

fn sort(verdict: &Verdict) -> usize {
    match verdict {
        Verdict::Accepted(_) => 0,
        Verdict::Refused(Refusal { number: 1, .. }) => 1,
        Verdict::Refused(Refusal { number: 6, .. }) => 2,
        Verdict::Refused(_) => 3,
        Verdict::Unproved { .. } => 4,
    }
}

/// All answers of two instruments.
#[derive(Default)]
pub struct Related {
    pub loads: Ways,
    pub readings: Ways,
    pub words: Ways,
    /// Loads by the sorts of the smaller one's verdict and of the larger one's.
    sorts: [[usize; 5]; 5],
}

impl Related {
    /// Counts two verdicts; tells whether the statement is true.
    pub fn verdicts(&mut self, pair: &Pair, sheet: &[u8], verdicts: &[Verdict; 2]) -> bool {
        let [smaller, larger] = verdicts;
        self.sorts[sort(smaller)][sort(larger)] += 1;
        let same = smaller == larger;
        self.loads.count(way(pair, sheet, &[], smaller.refusal(), same), same)
    }

    pub fn print(&self, small: &str, large: &str) {
        println!("\n| {small}'s answer | loads | readings | word tests |");
        println!("|---|---|---|---|");
        let names = [
            "refused 1 at its limit".to_string(),
            "refused 6".to_string(),
            format!("refused 2 at a record of a kind of {large}'s alone"),
            format!("refused 7 or 13 at an event of {large}'s alone"),
            format!("none of these, and {large}'s"),
        ];
        let all = [&self.loads, &self.readings, &self.words];
        let row = |name: &str, cells: [usize; 3]| {
            let [loads, readings, words] = cells;
            println!("| {name} | {loads} | {readings} | {words} |");
        };
        for (i, name) in names.iter().enumerate() {
            row(name, all.map(|seen| seen.ways[i]));
        }
        row("none of these five", all.map(|seen| seen.broken));
        row(&format!("not {large}'s"), all.map(|seen| seen.differ));
        println!("\n| loads by {small}, and by {large}: | {} |", SORTS.join(" | "));
        println!("|---|{}", "---|".repeat(SORTS.len()));
        for (name, row) in SORTS.iter().zip(&self.sorts) {
            let cells: Vec<String> = row.iter().map(usize::to_string).collect();
            println!("| {name} | {} |", cells.join(" | "));
        }
    }
}
