//! Runs of a sheet and what is promised of them: document 01, "Runs", with
//! demand 3, and document 02, Asks 2, 4, 9, 11 and 12.
use crate::derivatives::missing_word;
use crate::naive::{holds, Act, Outcome, Sheet};
use crate::random::Random;
use std::collections::HashMap;

/// A call. Histories are lengths: each is a beginning of the present one.
pub struct Call {
    pub method: usize,
    pub step: Option<usize>,
    pub began: usize,
    /// The history at its return, and its outcome.
    pub returned: Option<(usize, Outcome)>,
    /// The activation that made it.
    pub maker: Option<usize>,
}

/// A step's outcome and word are those of a call of a primitive, and not read otherwise.
pub enum Move {
    Return(Outcome),
    Step(usize, Outcome, Vec<u8>),
}

const OUTCOMES: [Outcome; 2] = [Outcome::Normal, Outcome::Failed];

/// What a call breaks.
#[derive(Clone, Copy, Debug, PartialEq, Eq, Hash, PartialOrd, Ord)]
pub enum Broken {
    Pre,
    Trace,
    Future,
    Owed,
    /// Whether a future that is owed is met was not found out.
    Undecided,
}

pub struct Run<'a> {
    sheet: &'a Sheet,
    pub history: Vec<u8>,
    /// In the order in which they began.
    pub calls: Vec<Call>,
    /// Numbers of open calls, the innermost last.
    pub open: Vec<usize>,
    pub point: usize,
    /// Whether the run ended by a stop; the open calls stay open.
    pub stopped: bool,
}

impl<'a> Run<'a> {
    /// The run that has made no move; the first method has a body.
    pub fn start(sheet: &'a Sheet) -> Run<'a> {
        let entry = sheet.methods[0].entry.unwrap();
        let mut run = Run {
            sheet,
            history: vec![],
            calls: vec![],
            open: vec![],
            point: entry,
            stopped: false,
        };
        run.begin(0, None);
        run
    }

    /// Whether the outermost call has returned, or a stop was made.
    pub fn ended(&self) -> bool {
        self.stopped || self.open.is_empty()
    }

    fn begin(&mut self, method: usize, step: Option<usize>) {
        let maker = self.open.last().copied();
        self.calls.push(Call { method, step, began: self.history.len(), returned: None, maker });
        self.open.push(self.calls.len() - 1);
    }

    /// Ends the active call with an outcome and leads to a point.
    fn close(&mut self, outcome: Outcome, target: usize) {
        let call = self.open.pop().unwrap();
        self.calls[call].returned = Some((self.history.len(), outcome));
        self.point = target;
    }

    /// Makes a move if it can be made; tells whether it was made.
    pub fn make(&mut self, what: &Move) -> bool {
        let active = match self.open.last() {
            Some(&active) if !self.stopped => active,
            _ => return false,
        };
        match what {
            Move::Return(outcome) => self.make_return(active, *outcome),
            Move::Step(number, outcome, word) => self.make_step(*number, *outcome, word),
        }
    }

    /// Whether control is at the active method's exit to an outcome.
    fn at_exit(&self, active: usize, outcome: Outcome) -> bool {
        let ending = self.sheet.methods[self.calls[active].method].ending(outcome);
        ending.is_some_and(|ending| ending.exit == Some(self.point))
    }

    /// The outcomes with which the active call can return.
    fn exits(&self) -> Vec<Outcome> {
        let active = self.open.last();
        let can = |outcome: &Outcome| active.is_some_and(|&call| self.at_exit(call, *outcome));
        OUTCOMES.into_iter().filter(can).collect()
    }

    fn make_return(&mut self, active: usize, outcome: Outcome) -> bool {
        if !self.at_exit(active, outcome) {
            return false;
        }
        let call = &self.calls[active];
        // The outermost call has no step, and control stays where it is.
        let target = match call.step {
            Some(step) => self.sheet.steps[step].target(outcome),
            None => Some(self.point),
        };
        let Some(target) = target else {
            return false;
        };
        self.close(outcome, target);
        true
    }

    fn make_step(&mut self, number: usize, outcome: Outcome, word: &[u8]) -> bool {
        let Some(step) = self.sheet.steps.get(number).filter(|step| step.from == self.point) else {
            return false;
        };
        match step.act {
            Act::Event(event) => self.history.push(event),
            Act::Pass => {}
            Act::Call(method) => return self.make_call(number, method, outcome, word),
            Act::Stop => self.stopped = true,
        }
        // A stop has no target, and control stays where it is.
        self.point = step.to.unwrap_or(self.point);
        true
    }

    fn make_call(&mut self, step: usize, method: usize, outcome: Outcome, word: &[u8]) -> bool {
        let called = &self.sheet.methods[method];
        if let Some(entry) = called.entry {
            self.begin(method, Some(step));
            self.point = entry;
            return true;
        }
        let target = self.sheet.steps[step].target(outcome);
        let (Some(ending), Some(target)) = (called.ending(outcome), target) else {
            return false;
        };
        let trace = &self.sheet.conditions[ending.trace];
        if !holds(&trace.exchanged(self.sheet.steps[step].channel), word) {
            return false;
        }
        self.begin(method, Some(step));
        self.history.extend_from_slice(word);
        self.close(outcome, target);
        true
    }

    /// Whether a call is open, and control is at a point whose owner is not the active
    /// call's method.
    pub fn elsewhere(&self) -> bool {
        let owner = self.sheet.points[self.point].owner;
        let active = self.open.last().map(|&call| self.calls[call].method);
        active.is_some() && owner.is_some() && active != owner
    }

    /// The channel of a call; 0 if its step has none.
    pub fn channel(&self, call: &Call) -> u8 {
        call.step.map_or(0, |step| self.sheet.steps[step].channel)
    }

    /// Whether control is in the activation that made a call, or in one of that
    /// activation's callers.
    pub fn in_caller(&self, call: usize) -> bool {
        let mut caller = self.calls[call].maker;
        while let Some(number) = caller {
            if self.open.last() == Some(&number) {
                return true;
            }
            caller = self.calls[number].maker;
        }
        false
    }
}

/// A condition by its number, and the channel by which it is read.
type Name = (usize, u8);

/// What is known of a sheet's conditions.
pub struct Languages<'a> {
    sheet: &'a Sheet,
    held: HashMap<(Name, Vec<u8>), bool>,
    within: HashMap<(usize, Name, Vec<u8>), Option<Broken>>,
}

impl<'a> Languages<'a> {
    pub fn new(sheet: &'a Sheet) -> Languages<'a> {
        Languages { sheet, held: HashMap::new(), within: HashMap::new() }
    }

    fn holds(&mut self, name: Name, word: &[u8]) -> bool {
        let tree = || self.sheet.conditions[name.0].exchanged(name.1);
        *self.held.entry((name, word.to_vec())).or_insert_with(|| holds(&tree(), word))
    }

    /// Whether the events, followed by any word of the due, lie in the future.
    fn owed(&mut self, due: usize, future: Name, since: &[u8]) -> Option<Broken> {
        let conditions = &self.sheet.conditions;
        *self.within.entry((due, future, since.to_vec())).or_insert_with(|| {
            let future = conditions[future.0].exchanged(future.1);
            match missing_word(&conditions[due], &future, since) {
                Ok(None) => None,
                Ok(Some(_)) => Some(Broken::Owed),
                Err(()) => Some(Broken::Undecided),
            }
        })
    }

    /// What a call breaks, if anything, with its conditions read by the channel of its
    /// step. One that is still open owes its pre alone.
    fn broken_call(&mut self, run: &Run, number: usize) -> Option<Broken> {
        let call = &run.calls[number];
        let method = &self.sheet.methods[call.method];
        let channel = run.channel(call);
        if !self.holds((method.pre, channel), &run.history[..call.began]) {
            return Some(Broken::Pre);
        }
        let (returned, outcome) = call.returned?;
        let ending = method.ending(outcome).unwrap();
        let since = &run.history[returned..];
        let future = (ending.future, channel);
        if !self.holds((ending.trace, channel), &run.history[call.began..returned]) {
            return Some(Broken::Trace);
        }
        if run.ended() && !self.holds(future, since) {
            return Some(Broken::Future);
        }
        if run.in_caller(number) {
            return self.owed(self.sheet.points[run.point].due, future, since);
        }
        None
    }

    /// The first call that breaks what is promised.
    pub fn first_break(&mut self, run: &Run) -> Option<(usize, Broken)> {
        (0..run.calls.len()).find_map(|call| Some((call, self.broken_call(run, call)?)))
    }
}

/// A move, mostly one that control allows.
pub fn random_move(run: &Run, random: &mut Random) -> Move {
    let sheet = run.sheet;
    if random.once_in(5) {
        let word = (0..random.below(3)).map(|_| random.below(4) as u8).collect();
        let outcome = OUTCOMES[random.below(2)];
        return match random.below(sheet.steps.len() + 2) {
            0 => Move::Return(outcome),
            number => Move::Step(number - 1, outcome, word),
        };
    }
    let fitting = |&step: &usize| sheet.steps[step].from == run.point;
    let steps: Vec<usize> = (0..sheet.steps.len()).filter(fitting).collect();
    if steps.is_empty() || random.once_in(3) {
        return Move::Return(one_of(&run.exits(), random));
    }
    let step = steps[random.below(steps.len())];
    let Act::Call(method) = sheet.steps[step].act else {
        return Move::Step(step, Outcome::Normal, vec![]);
    };
    let has = |outcome: &Outcome| sheet.methods[method].ending(*outcome).is_some();
    let outcome = one_of(&OUTCOMES.into_iter().filter(has).collect::<Vec<_>>(), random);
    let mut word = vec![];
    if let Some(ending) = sheet.methods[method].ending(outcome) {
        let trace = sheet.conditions[ending.trace].exchanged(sheet.steps[step].channel);
        trace.word(random, &mut word);
    }
    Move::Step(step, outcome, word)
}

/// One of some outcomes; the normal one if there is none.
fn one_of(outcomes: &[Outcome], random: &mut Random) -> Outcome {
    match outcomes {
        [] => Outcome::Normal,
        some => some[random.below(some.len())],
    }
}
