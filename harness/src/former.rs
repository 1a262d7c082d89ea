//! What requests 2, 4 and 9 leave as it was, on the answers to one sheet with kinds up to
//! a former highest one and with all kinds: the former answer is refused 2 at a record
//! of a later kind, or equal to the latter with all its values. And what request 3 leaves
//! as it was: yes and no are those of the test that stops at the empty set alone.
use crate::answer::{Answer, Refusal, Verdict};
use crate::instrument::{Instrument, FORMER_KINDS};

/// What the former answer is.
#[derive(Clone, Copy, Debug, PartialEq, Eq)]
pub enum Way {
    LaterKind,
    Same,
}

/// Given the former highest kind and the highest of the instrument, the refusal by the
/// former, if it is one, and whether the answers are equal; nothing where the statement is
/// false.
pub fn way(
    sheet: &[u8],
    [former, now]: [u8; 2],
    refusal: Option<Refusal>,
    same: bool,
) -> Option<Way> {
    let later = |at: usize| sheet.get(at).is_some_and(|&kind| kind > former && kind <= now);
    match refusal {
        Some(Refusal { number: 2, place: Some(at) }) if later(at) => Some(Way::LaterKind),
        _ => same.then_some(Way::Same),
    }
}

/// How often the statement held in each way.
#[derive(Default)]
pub struct Ways {
    later_kind: usize,
    same: usize,
    broken: usize,
}

impl Ways {
    fn count(&mut self, way: Option<Way>) {
        *match way {
            Some(Way::LaterKind) => &mut self.later_kind,
            Some(Way::Same) => &mut self.same,
            None => &mut self.broken,
        } += 1;
    }
}

/// What was asked.
#[derive(Clone, Copy)]
pub enum Asked {
    Load,
    Reading,
    Word,
}

/// All answers with kinds up to a former highest one and with all.
pub struct Former {
    pub kinds: u8,
    /// By what was asked.
    ways: [Ways; 3],
    /// Sheets with a record of a later kind by their verdict: accepted, refused, unproved.
    now: [usize; 3],
}

impl Former {
    /// One for each former highest kind.
    pub fn all() -> [Former; FORMER_KINDS.len()] {
        FORMER_KINDS.map(|kinds| Former { kinds, ways: Default::default(), now: [0; 3] })
    }

    /// Counts an answer on an instrument, given the former refusal, if it is one, and
    /// whether the answers are equal; tells whether the statement is true.
    pub fn count(
        &mut self,
        asked: Asked,
        on: &Instrument,
        sheet: &[u8],
        refusal: Option<Refusal>,
        same: bool,
    ) -> bool {
        let way = way(sheet, [self.kinds, on.kinds], refusal, same);
        self.ways[asked as usize].count(way);
        way.is_some()
    }

    /// Counts two verdicts; tells whether the statement is true.
    pub fn verdicts(
        &mut self,
        on: &Instrument,
        sheet: &[u8],
        former: &Verdict,
        now: &Verdict,
    ) -> bool {
        let same = former == now;
        let kinds = [self.kinds, on.kinds];
        if way(sheet, kinds, former.refusal(), same) == Some(Way::LaterKind) {
            self.now[match now {
                Verdict::Accepted(_) => 0,
                Verdict::Refused(_) => 1,
                Verdict::Unproved { .. } => 2,
            }] += 1;
        }
        self.count(Asked::Load, on, sheet, former.refusal(), same)
    }

    pub fn print(&self) {
        println!("\n| answer with kinds up to {} | loads | readings | word tests |", self.kinds);
        println!("|---|---|---|---|");
        let row = |name: &str, cell: fn(&Ways) -> usize| {
            let [loads, readings, words] = self.ways.each_ref().map(cell);
            println!("| {name} | {loads} | {readings} | {words} |");
        };
        row("refused 2 at a record of a later kind", |ways| ways.later_kind);
        row("not so, and the answer with all kinds", |ways| ways.same);
        row("neither", |ways| ways.broken);
        let [accepted, refused, unproved] = self.now;
        print!("\nloads of the first row, with all kinds: {accepted} accepted, ");
        println!("{refused} refused, {unproved} unproved");
    }
}

/// How often a word's yes or no was that of the test that stops at the empty set alone.
#[derive(Default)]
pub struct OldTest {
    yes: usize,
    no: usize,
    broken: usize,
}

impl OldTest {
    /// Counts an answer, given that of the old test; tells whether the statement is true.
    /// It is not asked of refusals.
    pub fn count(&mut self, held: bool, now: &Answer) -> bool {
        match (held, now) {
            (_, Answer::Refused(_)) => return true,
            (true, Answer::Yes) => self.yes += 1,
            (false, Answer::No(_)) => self.no += 1,
            _ => {
                self.broken += 1;
                return false;
            }
        }
        true
    }

    pub fn print(&self) {
        println!("\n| word test that stops at the empty set alone | words |");
        println!("|---|---|");
        println!("| yes, and yes | {} |", self.yes);
        println!("| no, and no with a number | {} |", self.no);
        println!("| neither | {} |", self.broken);
    }
}
