//! Random runs of sheets, checked state by state.
use crate::answer::{Doors, Verdict};
use crate::instrument::{Instrument, FOUR, LARGE};
use crate::naive::{self, Exchange, Outcome};
use crate::random::Random;
use crate::runs::{random_move, Broken, Call, Languages, Run};
use crate::{sheets, vectors};
use std::collections::BTreeMap;

const RUNS: usize = 400;
const MOVES: usize = 40;
const LONGEST: usize = 100;

/// Runs of a sheet whose points have owners, and random sheets of that sort.
const OWNED_RUNS: usize = 40;
const OWNED_SHEETS: usize = 2_000;

/// Random sheets with calls by a channel, for each way to read the conditions.
const CHANNEL_SHEETS: usize = 100;

#[derive(Default)]
pub struct Totals {
    pub sheets: usize,
    pub runs: usize,
    pub states: usize,
    pub ended: usize,
    /// Calls that failed in a state that was looked at, and runs that ended so.
    pub failed: usize,
    pub ended_failed: usize,
    /// Runs that ended by a stop, and those of them that ended so in a called method.
    pub stopped: usize,
    pub stopped_inside: usize,
    /// Calls that were open at a stop, and calls that had returned.
    pub left_open: usize,
    pub left_returned: usize,
    /// Calls by a channel 1 to 3 in a state that was looked at.
    pub by_channel: usize,
    pub owed: usize,
    /// Of these futures, those of calls that failed, and of calls by a channel 1 to 3.
    pub owed_failed: usize,
    pub owed_channel: usize,
    pub past_maker: usize,
    pub broken: BTreeMap<Broken, usize>,
    /// Of these, those of calls that failed, those at a stop, and those of calls by a
    /// channel 1 to 3.
    pub broken_failed: BTreeMap<Broken, usize>,
    pub broken_stopped: BTreeMap<Broken, usize>,
    pub broken_channel: BTreeMap<Broken, usize>,
}

/// Whether a call has failed.
fn has_failed(call: &Call) -> bool {
    call.returned.is_some_and(|(_, outcome)| outcome == Outcome::Failed)
}

/// Goes on with a run at random. Each of its states is checked, the last one too, up to
/// the first that does not pass; returns the run if all pass.
fn walk<'a>(
    mut run: Run<'a>,
    random: &mut Random,
    mut passes: impl FnMut(&Run) -> bool,
) -> Option<Run<'a>> {
    for left in (0..=MOVES).rev() {
        if !passes(&run) {
            return None;
        }
        if left == 0 || run.ended() || run.history.len() > LONGEST {
            break;
        }
        let next = random_move(&run, random);
        run.make(&next);
    }
    Some(run)
}

impl Totals {
    fn state(&mut self, run: &Run) {
        self.states += 1;
        for (number, call) in run.calls.iter().enumerate() {
            let failed = has_failed(call) as usize;
            let by_channel = (run.channel(call) > 0) as usize;
            self.failed += failed;
            self.by_channel += by_channel;
            if call.returned.is_some() && run.in_caller(number) {
                self.owed += 1;
                self.owed_failed += failed;
                self.owed_channel += by_channel;
                self.past_maker += (call.maker != run.open.last().copied()) as usize;
            }
        }
    }

    /// Random runs of a sheet on an instrument, each up to its first break.
    pub fn sheet(&mut self, on: &Instrument, bytes: &[u8], random: &mut Random) {
        let Ok(sheet) = naive::read_sheet(on, bytes) else {
            return;
        };
        self.sheets += 1;
        let mut languages = Languages::new(&sheet);
        for _ in 0..RUNS {
            self.runs += 1;
            let run = walk(Run::start(&sheet), random, |run| self.passes(run, &mut languages));
            run.iter().for_each(|run| self.end(run));
        }
    }

    /// Random runs of those of some sheets that a loader accepts.
    fn accepted(&mut self, doors: &Doors, on: &Instrument, sheets: &Sheets, random: &mut Random) {
        for sheet in sheets {
            if matches!((doors.load)(on, sheet), Verdict::Accepted(_)) {
                self.sheet(on, sheet, random);
            }
        }
    }

    /// The same of random sheets with calls by a channel, whose certificates are for a
    /// loader that reads the conditions of primitives in some way.
    pub fn channels(
        &mut self,
        doors: &Doors,
        exchange: &Exchange,
        count: usize,
        random: &mut Random,
    ) {
        let sheets: Vec<Vec<u8>> =
            (0..count).map(|_| sheets::by_channel(exchange, random)).collect();
        self.accepted(doors, &FOUR, &sheets, random);
    }

    /// Whether a state breaks nothing.
    fn passes(&mut self, run: &Run, languages: &mut Languages) -> bool {
        self.state(run);
        let Some((call, broken)) = languages.first_break(run) else {
            return true;
        };
        *self.broken.entry(broken).or_default() += 1;
        if has_failed(&run.calls[call]) {
            *self.broken_failed.entry(broken).or_default() += 1;
        }
        if run.channel(&run.calls[call]) > 0 {
            *self.broken_channel.entry(broken).or_default() += 1;
        }
        if run.stopped {
            *self.broken_stopped.entry(broken).or_default() += 1;
        }
        false
    }

    /// A run without a break, where it was left.
    fn end(&mut self, run: &Run) {
        self.ended += run.ended() as usize;
        self.ended_failed += has_failed(&run.calls[0]) as usize;
        if run.stopped {
            self.stopped += 1;
            self.stopped_inside += (run.open.len() > 1) as usize;
            self.left_open += run.open.len();
            self.left_returned += run.calls.len() - run.open.len();
        }
    }

    fn print(&self, on: &Instrument, loader: &str) {
        let Totals { by_channel, owed_channel, .. } = self;
        let Totals { sheets, runs, states, ended, owed, past_maker, broken, .. } = self;
        let Totals { failed, ended_failed, owed_failed, .. } = self;
        let Totals { stopped, stopped_inside, left_open, left_returned, .. } = self;
        println!("{}: {sheets} sheets that the {loader} accepts, {runs} runs", on.name);
        println!("{ended} runs ended, {ended_failed} of them as method 0 failed");
        println!("{stopped} runs ended by a stop, {stopped_inside} of them in a called method");
        println!("{left_open} calls open at a stop, {left_returned} returned before it");
        print!("{states} states, with {failed} calls that failed, ");
        println!("{by_channel} calls by a channel 1 to 3");
        println!("{owed} futures owed, {past_maker} after the caller's return");
        print!("{owed_failed} futures owed of calls that failed, ");
        println!("{owed_channel} of calls by a channel 1 to 3");
        println!("{} breaks {broken:?}", broken.values().sum::<usize>());
    }
}

type Sheets = [Vec<u8>];

/// Runs of sheets that a loader reads whole, accepted or not, and whose points all have
/// owners: the owner of the run's point is the active call's method.
#[derive(Debug, Default)]
pub struct Owned {
    pub read: usize,
    pub accepted: usize,
    /// States with an open call, those in a called method, and those at a stop.
    pub states: usize,
    pub inside: usize,
    pub stopped: usize,
    /// Runs with a state in which the owner is another.
    pub broken: usize,
}

impl Owned {
    /// Random runs of a sheet on an instrument. Its parts are found without refusal 24,
    /// which is left to the loader.
    pub fn sheet(&mut self, doors: &Doors, on: &Instrument, bytes: &[u8], random: &mut Random) {
        if (doors.read)(on, bytes).is_err() {
            return;
        }
        let Ok(sheet) = naive::read_without(Some(24), on, bytes) else {
            return;
        };
        if !sheet.all_owned() {
            return;
        }
        self.read += 1;
        self.accepted += matches!((doors.load)(on, bytes), Verdict::Accepted(_)) as usize;
        for _ in 0..OWNED_RUNS {
            let run = walk(Run::start(&sheet), random, |run| self.passes(run));
            self.broken += run.is_none() as usize;
        }
    }

    /// Random runs of random sheets, on the large and the four-channel instrument in turn.
    pub fn sheets(&mut self, doors: &Doors, count: usize, random: &mut Random) {
        for on in [LARGE, FOUR].iter().cycle().take(count) {
            let sheet = sheets::all_owned(on, random);
            self.sheet(doors, on, &sheet, random);
        }
    }

    fn passes(&mut self, run: &Run) -> bool {
        self.states += !run.open.is_empty() as usize;
        self.inside += (run.open.len() > 1) as usize;
        self.stopped += run.stopped as usize;
        !run.elsewhere()
    }

    fn print(&self, loader: &str) {
        let Owned { read, accepted, states, inside, stopped, broken } = self;
        print!("{read} sheets with owners of all points that the {loader} reads whole, ");
        println!("{accepted} of them accepted");
        print!("{states} states with an open call, {inside} of them in a called method, ");
        println!("{stopped} at a stop");
        println!("{broken} runs at a point of another owner");
    }
}

/// Runs of the stored sheets that the loader accepts, of random sheets with calls by a
/// channel, and of sheets with owners, the stored ones and random ones. Returns the breaks.
pub fn simulate(crates: &str, doors: &Doors, seed: u64) -> Result<usize, String> {
    let stored = vectors::stored_sheets(crates, vectors::SHEETS)?;
    let stored_four = vectors::stored_sheets(crates, vectors::FOUR_SHEETS)?;
    let [mut random, mut other, mut third] = [0; 3].map(|_| Random::new(seed));
    let [mut large, mut four] = [0; 2].map(|_| Totals::default());
    large.accepted(doors, &LARGE, &stored, &mut random);
    four.accepted(doors, &FOUR, &stored_four, &mut third);
    for exchange in &sheets::EXCHANGES {
        four.channels(doors, exchange, CHANNEL_SHEETS, &mut third);
    }
    let mut owned = Owned::default();
    for (on, sheets) in [(LARGE, stored), (FOUR, stored_four)] {
        for sheet in sheets {
            let sheet = sheets::rightly_owned(&sheet, &mut other);
            owned.sheet(doors, &on, &sheet, &mut other);
        }
    }
    owned.sheets(doors, OWNED_SHEETS, &mut other);
    large.print(&LARGE, doors.name);
    four.print(&FOUR, doors.name);
    owned.print(doors.name);
    let broken = [large, four].map(|totals| totals.broken.values().sum::<usize>());
    Ok(broken.iter().sum::<usize>() + owned.broken)
}
