//! A second loader that follows the document's words as plainly as it can:
//! records in a list, conditions as trees, the rules as a list, and every
//! clause tested as it is stated. Slow.

mod beginnings;
mod glushkov;
mod matching;
mod reading;

use crate::answer::{Answer, Counts, Doors, Fault, Refusal, Verdict};
use crate::instrument::{Instrument, ENTRY};
use crate::tree::Tree;
#[cfg(test)]
pub use beginnings::{by_cuts, by_places, by_positions};
pub use glushkov::Side;
pub use matching::{holds, holds_empty};
pub use reading::{read as read_sheet, read_without, Act, Outcome, Sheet, Step};
use reading::{Method, Point};

pub const DOORS: Doors = Doors { name: "naive", load, load_entry, word_test, read };

/// What a rule asks.
#[derive(PartialEq)]
pub enum Ask {
    Empty(Tree),
    Within(Tree, Tree),
}

pub struct Rule {
    pub number: usize,
    pub subject: usize,
    pub ask: Ask,
}

type Pairs = [(usize, u32)];

/// How a loader reads the conditions of a primitive that is called by a channel.
pub struct Exchange {
    pub pre: fn(&Tree, u8) -> Tree,
    pub trace: fn(&Tree, u8) -> Tree,
    pub future: fn(&Tree, u8) -> Tree,
}

/// As the document has it: the events of channel 0 and of that channel are exchanged in
/// all three.
pub const EXCHANGE: Exchange =
    Exchange { pre: Tree::exchanged, trace: Tree::exchanged, future: Tree::exchanged };

pub fn read(on: &Instrument, bytes: &[u8]) -> Result<Counts, Refusal> {
    reading::read(on, bytes).map(|sheet| sheet.counts())
}

pub fn load_entry(bytes: &[u8]) -> Verdict {
    load(&ENTRY, bytes)
}

pub fn load(on: &Instrument, bytes: &[u8]) -> Verdict {
    load_by(&EXCHANGE, on, bytes)
}

/// Loading that reads conditions in another way where they are called by a channel.
pub fn load_by(exchange: &Exchange, on: &Instrument, bytes: &[u8]) -> Verdict {
    let sheet = match reading::read(on, bytes) {
        Ok(sheet) => sheet,
        Err(refusal) => return Verdict::Refused(refusal),
    };
    let rules = rules_by(exchange, &sheet);
    let needed = rules.iter().filter(|rule| matches!(rule.ask, Ask::Within(..))).count();
    if needed != sheet.certificates.len() {
        return Verdict::Refused(Refusal::at(10, bytes.len()));
    }
    let mut certificates = sheet.certificates.iter();
    for rule in &rules {
        let fault = match &rule.ask {
            Ask::Empty(tree) if matching::holds_empty(tree) => None,
            Ask::Empty(_) => Some(Fault::of(5, 0)),
            Ask::Within(left, right) => fault(on.events, left, right, certificates.next().unwrap()),
        };
        if let Some(fault) = fault {
            return Verdict::Unproved { rule: rule.number, subject: rule.subject, fault };
        }
    }
    // The count adds up to the number of rules.
    Verdict::Accepted(rules.len())
}

/// The rules of a sheet, in the order in which they are tested.
#[cfg(test)]
pub fn rules(sheet: &Sheet) -> Vec<Rule> {
    rules_by(&EXCHANGE, sheet)
}

/// The rules of a sheet, in the order in which they are tested, for a way to read the
/// conditions of a primitive that is called by a channel.
pub fn rules_by(exchange: &Exchange, sheet: &Sheet) -> Vec<Rule> {
    let mut list = vec![];
    let mut add = |number, subject, ask| list.push(Rule { number, subject, ask });
    let first = &sheet.methods[0];
    add(1, 0, Ask::Empty(sheet.conditions[first.pre].clone()));
    add(2, 0, Ask::Empty(sheet.conditions[first.normal.future].clone()));
    for (subject, method) in sheet.methods.iter().enumerate() {
        for (number, ask) in method_rules(sheet, method) {
            add(number, subject, ask);
        }
        if let (0, Some(failed)) = (subject, &method.failed) {
            add(24, 0, Ask::Empty(sheet.conditions[failed.future].clone()));
        }
    }
    for (subject, step) in sheet.steps.iter().enumerate() {
        for (number, ask) in step_rules(exchange, sheet, step) {
            add(number, subject, ask);
        }
    }
    list
}

/// The rules of a method with body; those of the first method alone are not among them.
fn method_rules(sheet: &Sheet, method: &Method) -> Vec<(usize, Ask)> {
    let Some(entry) = method.entry else {
        return vec![];
    };
    let tree = |number: usize| sheet.conditions[number].clone();
    let entry = sheet.points[entry];
    let mut list = vec![
        (3, Ask::Within(tree(method.pre), tree(entry.past))),
        (4, Ask::Empty(tree(entry.own))),
    ];
    for (outcome, [own, due]) in [(Outcome::Normal, [5, 6]), (Outcome::Failed, [22, 23])] {
        let Some(ending) = method.ending(outcome) else { continue };
        let exit = sheet.points[ending.exit.unwrap()];
        list.push((own, Ask::Within(tree(exit.own), tree(ending.trace))));
        list.push((due, Ask::Within(tree(ending.future), tree(exit.due))));
    }
    list
}

fn step_rules(exchange: &Exchange, sheet: &Sheet, step: &Step) -> Vec<(usize, Ask)> {
    let p = sheet.points[step.from];
    let tree = |number: usize| sheet.conditions[number].clone();
    let past = |p: Point| tree(p.past);
    let own = |p: Point| tree(p.own);
    let due = |p: Point| tree(p.due);
    let target = |outcome| Some(sheet.points[step.target(outcome)?]);
    // Only a stop has no target.
    let q = || target(Outcome::Normal).unwrap();
    let list = match step.act {
        Act::Event(event) => {
            let (a, q) = (Tree::event(event), q());
            vec![
                (7, past(p).join(a.clone()), past(q)),
                (8, own(p).join(a.clone()), own(q)),
                (9, a.join(due(q)), due(p)),
            ]
        }
        Act::Call(method) => {
            let called = &sheet.methods[method];
            let pre = (exchange.pre)(&tree(called.pre), step.channel);
            let mut list = vec![(10, past(p), pre)];
            for (outcome, first) in [(Outcome::Normal, 11), (Outcome::Failed, 18)] {
                let Some(q) = target(outcome) else { continue };
                // Reading has it that a call has as many outcomes as its method.
                let ending = called.ending(outcome).unwrap();
                let t = (exchange.trace)(&tree(ending.trace), step.channel);
                let future = (exchange.future)(&tree(ending.future), step.channel);
                list.extend([
                    (first, past(p).join(t.clone()), past(q)),
                    (first + 1, own(p).join(t.clone()), own(q)),
                    (first + 2, due(q), future),
                    (first + 3, t.join(due(q)), due(p)),
                ]);
            }
            if let (true, Some(entry)) = (sheet.new_edition, called.entry) {
                list.push((26, due(sheet.points[entry]), due(p)));
            }
            list
        }
        Act::Pass => {
            let q = q();
            vec![(15, past(p), past(q)), (16, own(p), own(q)), (17, due(q), due(p))]
        }
        Act::Stop => return vec![(25, Ask::Empty(due(p)))],
    };
    list.into_iter().map(|(number, left, right)| (number, Ask::Within(left, right))).collect()
}

/// The first fault of a certificate, clause by clause.
fn fault(events: u8, left: &Tree, right: &Tree, pairs: &Pairs) -> Option<Fault> {
    if pairs.is_empty() || pairs[0] != (0, 1) {
        return Some(Fault::of(1, 0));
    }
    let (left, right) = (Side::new(left), Side::new(right));
    for (index, &(place, set)) in pairs.iter().enumerate() {
        let listed = numbers(set);
        if place >= left.places() || listed.iter().any(|&k| k >= right.places()) {
            return Some(Fault::of(2, index));
        }
        if left.ends(place) && !listed.iter().any(|&k| right.ends(k)) {
            return Some(Fault::of(3, index));
        }
        let found = (0..events as usize).find_map(|event| {
            Some((event, clause_four(&left, &right, (place, &listed), event, pairs)?))
        });
        if let Some((event, place)) = found {
            return Some(Fault { clause: 4, pair: index, event, place });
        }
    }
    None
}

/// The first follower holding an event that no pair is listed for.
fn clause_four(
    left: &Side,
    right: &Side,
    (place, set): (usize, &[usize]),
    event: usize,
    pairs: &Pairs,
) -> Option<usize> {
    let mut holders = left.follow(place).iter().filter(|&&l| left.leaf_holds(l, event)).peekable();
    holders.peek()?;
    let stepped = right.step(set, event);
    let within = |listed: u32| (0..32).all(|k| listed >> k & 1 == 0 || stepped.contains(&k));
    let served = |follower: usize| pairs.iter().any(|&(l, set)| l == follower && within(set));
    holders.copied().find(|&follower| !served(follower))
}

/// The bits of a set.
fn numbers(set: u32) -> Vec<usize> {
    (0..32).filter(|k| set >> k & 1 == 1).collect()
}

pub fn word_test(on: &Instrument, bytes: &[u8], condition: usize, word: &[u8]) -> Answer {
    let sheet = match reading::read(on, bytes) {
        Ok(sheet) => sheet,
        Err(refusal) => return Answer::Refused(refusal),
    };
    let Some(tree) = sheet.conditions.get(condition) else {
        return Answer::Refused(Refusal::bare(14));
    };
    if word.len() > 4_096 {
        return Answer::Refused(Refusal::bare(12));
    }
    for (index, &event) in word.iter().enumerate() {
        if event >= on.events {
            return Answer::Refused(Refusal::at(13, index));
        }
    }
    if matching::holds(tree, word) {
        Answer::Yes
    } else {
        Answer::No(beginnings::longest(tree, word))
    }
}
