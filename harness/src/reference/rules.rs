//! The rules, in order.
use super::clauses::{self, Pair};
use super::events::Events;
use super::places::{holds_empty, Side};
use super::reading::{Act, Name, Outcome, Point, Sheet};
use crate::answer::{Fault, Verdict};

/// Of each outcome, the numbers of the rules of an exit, and of a call's target.
const EXIT: [usize; 2] = [5, 6];
const FAILED_EXIT: [usize; 2] = [22, 23];
const TARGET: [usize; 4] = [11, 12, 13, 14];
const FAILED_TARGET: [usize; 4] = [18, 19, 20, 21];

/// A left side, by the names of its conditions.
enum Left {
    Whole(Name),
    Joined(Name, Name),
    Before(Name, u8),
    After(u8, Name),
}

struct Tester<'a, E> {
    sheet: &'a Sheet<'a>,
    /// Where the next certificate starts.
    at: usize,
    left: Side<E>,
    right: Side<E>,
    pairs: Vec<Pair<E>>,
}

/// Tests every rule; an error is the first unproved one.
pub fn test<E: Events>(sheet: &Sheet) -> Result<(), Verdict> {
    let room = (sheet.bytes.len() - sheet.certificates_at) / 6;
    let mut tester: Tester<E> = Tester {
        sheet,
        at: sheet.certificates_at,
        left: Side::new(),
        right: Side::new(),
        pairs: Vec::with_capacity(room),
    };
    if let Some(main) = sheet.body(0) {
        tester.empty(1, 0, main.pre)?;
        tester.empty(2, 0, main.normal.0.future)?;
    }
    for number in 0..sheet.counts.methods {
        tester.method(number)?;
    }
    for number in 0..sheet.counts.steps {
        tester.step(number)?;
    }
    Ok(())
}

impl<E: Events> Tester<'_, E> {
    fn method(&mut self, number: usize) -> Result<(), Verdict> {
        let Some(body) = self.sheet.body(number) else {
            return Ok(());
        };
        let entry = self.sheet.point(body.entry);
        self.within(3, number, Left::Whole(body.pre), entry.past)?;
        self.empty(4, number, entry.own)?;
        self.exit(EXIT, number, body.normal)?;
        let Some(failed) = body.failed else {
            return Ok(());
        };
        self.exit(FAILED_EXIT, number, failed)?;
        match number {
            0 => self.empty(24, 0, failed.0.future),
            _ => Ok(()),
        }
    }

    /// The rules of a method's exit to an outcome.
    fn exit(
        &mut self,
        [own, due]: [usize; 2],
        number: usize,
        (outcome, exit): (Outcome, usize),
    ) -> Result<(), Verdict> {
        let exit = self.sheet.point(exit);
        self.within(own, number, Left::Whole(exit.own), outcome.trace)?;
        self.within(due, number, Left::Whole(outcome.future), exit.due)
    }

    fn step(&mut self, number: usize) -> Result<(), Verdict> {
        let step = self.sheet.step(number);
        let p = self.sheet.point(step.from);
        match step.act {
            Act::Event(a, to) => {
                let q = self.sheet.point(to);
                self.within(7, number, Left::Before(p.past, a), q.past)?;
                self.within(8, number, Left::Before(p.own, a), q.own)?;
                self.within(9, number, Left::After(a, q.due), p.due)
            }
            Act::Call(call) => {
                self.within(10, number, Left::Whole(p.past), call.pre)?;
                self.target(TARGET, number, p, call.normal)?;
                if let Some(failed) = call.failed {
                    self.target(FAILED_TARGET, number, p, failed)?;
                }
                let Some(entry) = call.entry else {
                    return Ok(());
                };
                let entry = self.sheet.point(entry);
                self.within(26, number, Left::Whole(entry.due), p.due)
            }
            Act::Pass(to) => {
                let q = self.sheet.point(to);
                self.within(15, number, Left::Whole(p.past), q.past)?;
                self.within(16, number, Left::Whole(p.own), q.own)?;
                self.within(17, number, Left::Whole(q.due), p.due)
            }
            Act::Stop => self.empty(25, number, p.due),
        }
    }

    /// The rules of a call's target for an outcome.
    fn target(
        &mut self,
        [past, own, future, due]: [usize; 4],
        number: usize,
        p: Point,
        (outcome, target): (Outcome, usize),
    ) -> Result<(), Verdict> {
        let q = self.sheet.point(target);
        self.within(past, number, Left::Joined(p.past, outcome.trace), q.past)?;
        self.within(own, number, Left::Joined(p.own, outcome.trace), q.own)?;
        self.within(future, number, Left::Whole(q.due), outcome.future)?;
        self.within(due, number, Left::Joined(outcome.trace, q.due), p.due)
    }

    /// A rule that a condition holds the empty word.
    fn empty(&self, rule: usize, subject: usize, condition: Name) -> Result<(), Verdict> {
        if holds_empty::<E>(self.sheet.condition(condition).records) {
            return Ok(());
        }
        Err(Verdict::Unproved { rule, subject, fault: Fault::of(5, 0) })
    }

    /// A rule that one side is in another, by the next certificate.
    fn within(
        &mut self,
        rule: usize,
        subject: usize,
        left: Left,
        right: Name,
    ) -> Result<(), Verdict> {
        let sheet = self.sheet;
        match left {
            Left::Whole(a) => self.left.whole(sheet.condition(a)),
            Left::Joined(a, b) => self.left.joined(sheet.condition(a), sheet.condition(b)),
            Left::Before(a, event) => self.left.before(sheet.condition(a), event),
            Left::After(event, b) => self.left.after(event, sheet.condition(b)),
        }
        self.right.whole(sheet.condition(right));
        self.at = clauses::read(sheet.bytes, self.at, &self.right, &mut self.pairs);
        clauses::check(&self.left, &self.right, &self.pairs).map_err(|fault| Verdict::Unproved {
            rule,
            subject,
            fault,
        })
    }
}
