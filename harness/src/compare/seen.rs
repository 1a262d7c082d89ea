//! How often each kind of answer was seen.
use crate::answer::{Answer, Verdict};
use crate::instrument::{Instrument, ALL, ENTRY, LARGE};
use crate::sheets;

/// The numbers of refusals.
const REFUSALS: [usize; 19] = [1, 2, 3, 4, 5, 6, 7, 8, 9, 10, 12, 13, 14, 18, 19, 20, 24, 25, 26];

/// The answers on one instrument.
#[derive(Default)]
struct Answers {
    accepted: usize,
    /// Accepted sheets of the new edition, and those of them with a stop.
    accepted_new: usize,
    accepted_stops: usize,
    /// Accepted sheets with owners: for some points, and for all.
    accepted_owned: usize,
    accepted_all_owned: usize,
    /// Accepted sheets with a leaf of 8 bytes, and with a call by a channel 1 to 3.
    accepted_long: usize,
    accepted_channel: usize,
    /// Unproved sheets of the new edition, those with owners, those with a call by a
    /// channel 1 to 3, and those with an event 32 to 63 at fault.
    unproved_new: usize,
    unproved_owned: usize,
    unproved_channel: usize,
    unproved_high: usize,
    refused: [usize; 27],
    /// By rule and clause.
    unproved: [[usize; 6]; 27],
    yes: usize,
    no: No,
    word_refused: [usize; 27],
}

/// How often no came, by its number.
#[derive(Default)]
struct No {
    empty_word: usize,
    none: usize,
    some: usize,
    whole: usize,
    /// Those where a set of places was not empty, and no word could be finished from it.
    hopeless: usize,
}

impl No {
    fn count(&mut self, length: usize, word: usize) {
        *match (length, word) {
            (_, 0) => &mut self.empty_word,
            (0, _) => &mut self.none,
            _ if length == word => &mut self.whole,
            _ => &mut self.some,
        } += 1;
    }
}

/// Sheets with so many bytes or points, and those of them that each instrument accepts.
#[derive(Clone, Copy, Default)]
struct Near {
    sheets: usize,
    accepted: [usize; 2],
}

/// The answers on each instrument, and the sheets around the limits of the smallest.
#[derive(Default)]
pub struct Seen {
    /// Sheets, and those of them that have a leaf with the set 0.
    sheets: usize,
    dead_leaf: usize,
    on: [Answers; ALL.len()],
    bytes: [Near; 3],
    points: [Near; 3],
}

/// The number before a limit, the limit, and the one after: which it is.
fn around(number: usize, limit: usize) -> Option<usize> {
    (number + 1).checked_sub(limit).filter(|which| *which < 3)
}

impl Seen {
    fn answers(&mut self, on: &Instrument) -> Option<&mut Answers> {
        let which = ALL.iter().position(|one| one == on)?;
        Some(&mut self.on[which])
    }

    pub fn sheet(&mut self, sheet: &[u8]) {
        self.sheets += 1;
        self.dead_leaf += sheets::has_dead_leaf(sheet) as usize;
    }

    /// A verdict; one on other limits is not counted.
    pub fn verdict(&mut self, on: &Instrument, sheet: &[u8], verdict: &Verdict) {
        let Some(seen) = self.answers(on) else { return };
        let new = sheets::is_new(sheet) as usize;
        let (points, owned) = sheets::points(sheet);
        match verdict {
            Verdict::Accepted(_) => {
                seen.accepted += 1;
                seen.accepted_new += new;
                seen.accepted_stops += sheets::has_stop(sheet) as usize;
                seen.accepted_owned += (owned > 0 && owned < points) as usize;
                seen.accepted_all_owned += (owned == points) as usize;
                seen.accepted_long += sheets::has_long_leaf(sheet) as usize;
                seen.accepted_channel += sheets::has_channel(sheet) as usize;
            }
            Verdict::Refused(refusal) => seen.refused[refusal.number] += 1,
            Verdict::Unproved { rule, fault, .. } => {
                seen.unproved[*rule][fault.clause] += 1;
                seen.unproved_new += new;
                seen.unproved_owned += (owned > 0) as usize;
                seen.unproved_channel += sheets::has_channel(sheet) as usize;
                seen.unproved_high += (fault.event > 31) as usize;
            }
        }
    }

    /// A word's answer; one on other limits is not counted.
    pub fn answer(&mut self, on: &Instrument, answer: &Answer, word: &[u8]) {
        let Some(seen) = self.answers(on) else { return };
        match answer {
            Answer::Yes => seen.yes += 1,
            Answer::No(length) => seen.no.count(*length, word.len()),
            Answer::Refused(refusal) => seen.word_refused[refusal.number] += 1,
        }
    }

    /// A word that came to a set of places from which no word can be finished.
    pub fn hopeless(&mut self, on: &Instrument) {
        let Some(seen) = self.answers(on) else { return };
        seen.no.hopeless += 1;
    }

    /// A sheet's bytes and, if it reads well, its points, with the verdicts on the large
    /// and the entry instrument.
    pub fn near(&mut self, bytes: usize, points: Option<usize>, verdicts: [&Verdict; 2]) {
        let accepted = verdicts.map(|verdict| matches!(verdict, Verdict::Accepted(_)) as usize);
        let bytes = around(bytes, ENTRY.bytes).map(|which| &mut self.bytes[which]);
        let points = points.and_then(|number| around(number, ENTRY.points));
        let points = points.map(|which| &mut self.points[which]);
        for near in [bytes, points].into_iter().flatten() {
            near.sheets += 1;
            near.accepted[0] += accepted[0];
            near.accepted[1] += accepted[1];
        }
    }

    pub fn print(&self) {
        println!("{} sheets, {} with a leaf of the set 0\n", self.sheets, self.dead_leaf);
        self.print_answers();
        for (on, seen) in ALL.iter().zip(&self.on).filter(|(on, _)| on.points > ENTRY.points) {
            let clauses: Vec<String> = (1..6).map(|clause| format!("clause {clause}")).collect();
            println!("\n| unproved on {} | {} |", on.name, clauses.join(" | "));
            println!("|---|{}", "---|".repeat(clauses.len()));
            for (rule, clauses) in seen.unproved.iter().enumerate().skip(1) {
                row(&format!("rule {rule}"), &clauses[1..]);
            }
        }
        let [large, entry] = [LARGE, ENTRY].map(|on| on.name);
        println!("\n| sheets of | all | accepted on {large} | accepted on {entry} |");
        println!("|---|---|---|---|");
        print_near(&self.bytes, ENTRY.bytes, "bytes");
        print_near(&self.points, ENTRY.points, "points");
    }

    fn print_answers(&self) {
        type Cell = fn(&Answers) -> usize;
        let rows: [(&str, Cell); 13] = [
            ("accepted", |seen| seen.accepted),
            ("accepted, new edition", |seen| seen.accepted_new),
            ("accepted, with a stop", |seen| seen.accepted_stops),
            ("accepted, owners of some points", |seen| seen.accepted_owned),
            ("accepted, owners of all points", |seen| seen.accepted_all_owned),
            ("accepted, with a leaf of 8 bytes", |seen| seen.accepted_long),
            ("accepted, with a call by a channel 1 to 3", |seen| seen.accepted_channel),
            ("unproved", |seen| seen.unproved.iter().flatten().sum()),
            ("unproved, new edition", |seen| seen.unproved_new),
            ("unproved, with owners", |seen| seen.unproved_owned),
            ("unproved, with a call by a channel 1 to 3", |seen| seen.unproved_channel),
            ("unproved, event 32 to 63", |seen| seen.unproved_high),
            ("refused", |seen| seen.refused.iter().sum()),
        ];
        let names = ALL.map(|on| on.name).join(" | ");
        println!("| loads | {names} |");
        println!("|---|{}", "---|".repeat(ALL.len()));
        for (name, cell) in rows {
            row(name, &self.on.each_ref().map(cell));
        }
        for number in REFUSALS.into_iter().filter(|number| !WORDS_ALONE.contains(number)) {
            row(&format!("refused {number}"), &self.on.each_ref().map(|seen| seen.refused[number]));
        }
        self.print_words(&names);
    }

    fn print_words(&self, names: &str) {
        type Cell = fn(&Answers) -> usize;
        let rows: [(&str, Cell); 6] = [
            ("yes", |seen| seen.yes),
            ("no 0, of the empty word", |seen| seen.no.empty_word),
            ("no 0, of another word", |seen| seen.no.none),
            ("no, number between 0 and the word's length", |seen| seen.no.some),
            ("no, number the word's length", |seen| seen.no.whole),
            ("no, with places from which no word can be finished", |seen| seen.no.hopeless),
        ];
        println!("\n| word tests | {names} |");
        println!("|---|{}", "---|".repeat(ALL.len()));
        for (name, cell) in rows {
            row(name, &self.on.each_ref().map(cell));
        }
        for number in REFUSALS {
            let cells = self.on.each_ref().map(|seen| seen.word_refused[number]);
            row(&format!("refused {number}"), &cells);
        }
    }
}

/// The refusals of word tests alone.
const WORDS_ALONE: [usize; 3] = [12, 13, 14];

fn row(name: &str, cells: &[usize]) {
    let cells: Vec<String> = cells.iter().map(usize::to_string).collect();
    println!("| {name} | {} |", cells.join(" | "));
}

fn print_near(rows: &[Near; 3], limit: usize, what: &str) {
    for (which, near) in rows.iter().enumerate() {
        let [large, entry] = near.accepted;
        row(&format!("{} {what}", limit + which - 1), &[near.sheets, large, entry]);
    }
}
