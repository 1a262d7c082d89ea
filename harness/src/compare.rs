//! Two loaders on the same random sheets and words, on smaller and larger instruments;
//! what requests 8 and 11 state of the instruments, and what requests 2, 3, 4 and 9 leave
//! as it was.
mod seen;

use crate::answer::{Answer, Counts, Doors, Refusal, Verdict};
use crate::former::{Asked, Former, OldTest};
use crate::instrument::{Instrument, ENTRY, FORMER_KINDS, FOUR, LARGE};
use crate::random::Random;
use crate::reference;
use crate::sheets::{self, Test};
use crate::smaller::{way, Pair, Related};
use crate::vectors;
use seen::Seen;
use std::fmt::Display;

/// Differences that are shown.
const SHOWN: usize = 5;
/// Bytes of a sheet that are shown.
const SHOWN_BYTES: usize = 4_096;

/// The instruments that there are, each no larger than the next.
const MODELS: [Instrument; 3] = [ENTRY, LARGE, FOUR];

/// One loader's answers to a sheet and its words on one instrument.
struct Answers {
    load: Verdict,
    read: Result<Counts, Refusal>,
    words: Vec<Answer>,
}

struct Comparison<'a> {
    one: &'a Doors,
    two: &'a Doors,
    loads: usize,
    words: usize,
    differences: usize,
    seen: Seen,
    /// The second loader's answers on the entry and the large instrument, on the large and
    /// the four-channel one, and on two instruments with random limits.
    models: [Related; 2],
    limits: Related,
    /// The first loader's answers with fewer kinds, and the second's with all.
    former: [Former; FORMER_KINDS.len()],
    /// The second loader's answers to words, and those of the old test.
    old_test: OldTest,
    /// Whether the second loader takes any limits.
    any_limits: bool,
}

/// Compares two loaders on a number of sheets; returns the differences.
pub fn compare(one: &Doors, two: &Doors, sheets: usize, seed: u64) -> usize {
    run(one, two, sheets, seed, false)
}

/// The same, and on two instruments with random limits for each sheet.
pub fn self_check(one: &Doors, two: &Doors, sheets: usize, seed: u64) -> usize {
    run(one, two, sheets, seed, true)
}

fn run(one: &Doors, two: &Doors, sheets: usize, seed: u64, any_limits: bool) -> usize {
    let mut comparison = Comparison {
        one,
        two,
        loads: 0,
        words: 0,
        differences: 0,
        seen: Seen::default(),
        models: Default::default(),
        limits: Related::default(),
        former: Former::all(),
        old_test: OldTest::default(),
        any_limits,
    };
    let mut seeds = Random::new(seed);
    for _ in 0..sheets {
        let mut random = Random::new(seeds.next());
        let sheet = sheets::sheet(&mut random);
        let words = sheets::words(&sheet, &mut random);
        comparison.seen.sheet(&sheet);
        comparison.models(&sheet, &words);
        if any_limits {
            comparison.limits(&sheet, &words, sheets::limits(&sheet, &mut random));
        }
    }
    comparison.report(seed);
    comparison.differences
}

impl Comparison<'_> {
    /// A sheet and its words on the entry, the large and the four-channel instrument.
    fn models(&mut self, sheet: &[u8], words: &[Test]) {
        let mut related = std::mem::take(&mut self.models);
        let [entry, large, four] = MODELS.map(|on| self.answers(&on, sheet, words));
        self.relate(sheet, words, [(ENTRY, &entry), (LARGE, &large)], &mut related[0]);
        self.relate(sheet, words, [(LARGE, &large), (FOUR, &four)], &mut related[1]);
        self.models = related;
        let points = large.read.ok().map(|counts| counts.points);
        self.seen.near(sheet.len(), points, [&large.load, &entry.load]);
        let alone = (self.two.load_entry)(sheet);
        if alone != entry.load {
            self.differ(sheet, "load", [("load", &entry.load), ("load_entry", &alone)]);
        }
    }

    /// The same on two others.
    fn limits(&mut self, sheet: &[u8], words: &[Test], [small, large]: Pair) {
        let mut related = std::mem::take(&mut self.limits);
        let [one, two] = [small, large].map(|on| self.answers(&on, sheet, words));
        self.relate(sheet, words, [(small, &one), (large, &two)], &mut related);
        self.limits = related;
    }

    /// The second loader's answers on an instrument, after all comparisons with the first.
    fn answers(&mut self, on: &Instrument, sheet: &[u8], words: &[Test]) -> Answers {
        let load = self.load(on, sheet);
        let read = self.reading(on, sheet);
        Answers { load, read, words: words.iter().map(|test| self.word(on, sheet, test)).collect() }
    }

    /// What is stated of the answers on a smaller and a larger instrument.
    fn relate(
        &mut self,
        sheet: &[u8],
        words: &[Test],
        [(small, one), (large, two)]: [(Instrument, &Answers); 2],
        related: &mut Related,
    ) {
        let pair = [small, large];
        if !related.verdicts(&pair, sheet, &[one.load, two.load]) {
            self.broken(sheet, "load", pair, [&one.load, &two.load]);
        }
        let same = one.read == two.read;
        if !related.readings.count(way(&pair, sheet, &[], one.read.err(), same), same) {
            self.broken(
                sheet,
                "read",
                pair,
                [&vectors::line(&one.read), &vectors::line(&two.read)],
            );
        }
        for (test, (one, two)) in words.iter().zip(one.words.iter().zip(&two.words)) {
            let same = one == two;
            let way = way(&pair, sheet, &test.word, one.refusal(), same);
            if !related.words.count(way, same) {
                self.broken(sheet, &said(test), pair, [one, two]);
            }
        }
    }

    fn load(&mut self, on: &Instrument, sheet: &[u8]) -> Verdict {
        self.loads += 1;
        let one = (self.one.load)(on, sheet);
        let two = (self.two.load)(on, sheet);
        self.seen.verdict(on, sheet, &one);
        if one != two {
            self.unlike(sheet, "load", on, [&one, &two]);
        }
        for which in 0..self.former.len() {
            let before = on.former(self.former[which].kinds);
            let former = (self.one.load)(&before, sheet);
            if !self.former[which].verdicts(on, sheet, &former, &two) {
                self.changed(sheet, "load", [&before, on], [&former, &two]);
            }
        }
        two
    }

    fn reading(&mut self, on: &Instrument, sheet: &[u8]) -> Result<Counts, Refusal> {
        let one = (self.one.read)(on, sheet);
        let two = (self.two.read)(on, sheet);
        if one != two {
            self.unlike(sheet, "read", on, [&vectors::line(&one), &vectors::line(&two)]);
        }
        self.former_reading(sheet, on, &two);
        two
    }

    /// Reading with fewer kinds, by the first loader and, if it takes any limits, by the
    /// second.
    fn former_reading(&mut self, sheet: &[u8], on: &Instrument, now: &Result<Counts, Refusal>) {
        for which in 0..self.former.len() {
            let before = on.former(self.former[which].kinds);
            let former = (self.one.read)(&before, sheet);
            let same = former == *now;
            if !self.former[which].count(Asked::Reading, on, sheet, former.err(), same) {
                let lines = [vectors::line(&former), vectors::line(now)];
                self.changed(sheet, "read", [&before, on], [&lines[0], &lines[1]]);
            }
            if self.any_limits {
                let two = (self.two.read)(&before, sheet);
                if former != two {
                    let lines = [vectors::line(&former), vectors::line(&two)];
                    self.unlike(sheet, "read", &before, [&lines[0], &lines[1]]);
                }
            }
        }
    }

    fn former_word(&mut self, sheet: &[u8], test: &Test, on: &Instrument, now: &Answer) {
        for which in 0..self.former.len() {
            let before = on.former(self.former[which].kinds);
            let former = (self.one.word_test)(&before, sheet, test.condition, &test.word);
            let same = former == *now;
            if !self.former[which].count(Asked::Word, on, sheet, former.refusal(), same) {
                self.changed(sheet, &said(test), [&before, on], [&former, now]);
            }
        }
    }

    fn word(&mut self, on: &Instrument, sheet: &[u8], test: &Test) -> Answer {
        self.words += 1;
        let one = (self.one.word_test)(on, sheet, test.condition, &test.word);
        let two = (self.two.word_test)(on, sheet, test.condition, &test.word);
        self.seen.answer(on, &one, &test.word);
        if one != two {
            self.unlike(sheet, &said(test), on, [&one, &two]);
        }
        self.former_word(sheet, test, on, &two);
        if one.refusal().is_none() {
            self.old_word(sheet, test, on, &two);
        }
        two
    }

    /// The test of a word that stops at the empty set alone, by the reference.
    fn old_word(&mut self, sheet: &[u8], test: &Test, on: &Instrument, now: &Answer) {
        let Ok(walk) = reference::walk(on, sheet, test.condition, &test.word) else { return };
        if walk.hopeless {
            self.seen.hopeless(on);
        }
        if !self.old_test.count(walk.held, now) {
            let old = if walk.held { "yes" } else { "no" };
            self.differ(sheet, &said(test), [("old test", &old), (self.two.name, now)]);
        }
    }

    /// The loaders' answers differ.
    fn unlike(&mut self, sheet: &[u8], what: &str, on: &Instrument, [one, two]: [&dyn Display; 2]) {
        let answers = [(self.one.name, one), (self.two.name, two)];
        self.differ(sheet, &format!("{what}, {}", limits(on)), answers);
    }

    /// What is stated of two instruments is false of the second loader's answers.
    fn broken(&mut self, sheet: &[u8], what: &str, pair: Pair, [one, two]: [&dyn Display; 2]) {
        let [small, large] = pair.map(|on| limits(&on));
        let what = format!("{what}, {} on two instruments", self.two.name);
        self.differ(sheet, &what, [(&small, one), (&large, two)]);
    }

    /// A sheet is not judged as before.
    fn changed(
        &mut self,
        sheet: &[u8],
        what: &str,
        [before, now]: [&Instrument; 2],
        [one, two]: [&dyn Display; 2],
    ) {
        let whose = [(self.one.name, before), (self.two.name, now)];
        let [before, now] = whose.map(|(name, on)| format!("{name}, {}", limits(on)));
        self.differ(sheet, what, [(&before, one), (&now, two)]);
    }

    fn differ(&mut self, sheet: &[u8], what: &str, answers: [(&str, &dyn Display); 2]) {
        self.differences += 1;
        if self.differences <= SHOWN {
            println!("difference {}: {what}, sheet of {} bytes", self.differences, sheet.len());
            for (whose, answer) in answers {
                println!("  {whose}: {answer}");
            }
            println!("  {}", hex(sheet));
        }
    }

    fn report(&self, seed: u64) {
        println!("{} against {}, seed {seed}", self.one.name, self.two.name);
        println!("{} loads and readings, {} words tested", self.loads, self.words);
        println!("{} differences", self.differences);
        self.seen.print();
        let [first, second] = &self.models;
        first.print(ENTRY.name, LARGE.name);
        second.print(LARGE.name, FOUR.name);
        if self.any_limits {
            self.limits.print("the smaller", "the larger");
        }
        self.former.iter().for_each(Former::print);
        self.old_test.print();
    }
}

fn limits(on: &Instrument) -> String {
    let Instrument { name, bytes, points, kinds, events, .. } = on;
    format!("{name} ({bytes} bytes, {points} points, kinds up to {kinds}, {events} events)")
}

/// What is asked of a word.
fn said(test: &Test) -> String {
    format!("condition {}, word {}", test.condition, hex(&test.word))
}

fn hex(bytes: &[u8]) -> String {
    let shown = &bytes[..bytes.len().min(SHOWN_BYTES)];
    let mut text: String = shown.iter().map(|byte| format!("{byte:02X}")).collect();
    if shown.len() < bytes.len() {
        text.push_str("..");
    }
    text
}
