//! Reading by looking back over the list of records before each record.
use crate::answer::{Counts, Refusal};
use crate::instrument::Instrument;
use crate::tree::Tree;

const BODY_LENGTHS: [usize; 22] =
    [4, 0, 0, 0, 0, 0, 6, 6, 10, 5, 6, 4, 5, 0, 10, 16, 8, 0, 2, 8, 8, 7];

/// The records of a condition, and those of them that are leaves.
const TOKENS: [u8; 6] = [1, 2, 3, 4, 5, 21];
const LEAVES: [u8; 2] = [1, 21];
const POINTS: [u8; 2] = [7, 20];
const METHODS: [u8; 4] = [8, 9, 15, 16];
const STEPS: [u8; 6] = [10, 11, 12, 17, 19, 22];

struct Record<'a> {
    offset: usize,
    kind: u8,
    body: &'a [u8],
}

#[derive(Clone, Copy)]
pub struct Point {
    pub past: usize,
    pub own: usize,
    pub due: usize,
    /// A method's number.
    pub owner: Option<usize>,
}

/// How a call returns.
#[derive(Clone, Copy, Debug, PartialEq, Eq, Hash, PartialOrd, Ord)]
pub enum Outcome {
    Normal,
    Failed,
}

/// What a method has for one outcome; a primitive has no exit.
pub struct Ending {
    pub trace: usize,
    pub future: usize,
    pub exit: Option<usize>,
}

pub struct Method {
    pub pre: usize,
    /// A primitive has none.
    pub entry: Option<usize>,
    pub normal: Ending,
    pub failed: Option<Ending>,
}

impl Method {
    pub fn ending(&self, outcome: Outcome) -> Option<&Ending> {
        match outcome {
            Outcome::Normal => Some(&self.normal),
            Outcome::Failed => self.failed.as_ref(),
        }
    }
}

pub enum Act {
    Event(u8),
    Call(usize),
    Pass,
    Stop,
}

pub struct Step {
    pub from: usize,
    /// A stop has none.
    pub to: Option<usize>,
    /// The failed target of a call of kind 17.
    pub failed: Option<usize>,
    /// The channel of a call of kind 22; any other step has channel 0, which exchanges
    /// nothing.
    pub channel: u8,
    pub act: Act,
}

impl Step {
    pub fn target(&self, outcome: Outcome) -> Option<usize> {
        match outcome {
            Outcome::Normal => self.to,
            Outcome::Failed => self.failed,
        }
    }
}

#[derive(Default)]
pub struct Sheet {
    pub new_edition: bool,
    pub conditions: Vec<Tree>,
    pub points: Vec<Point>,
    pub methods: Vec<Method>,
    pub steps: Vec<Step>,
    pub certificates: Vec<Vec<(usize, u32)>>,
}

impl Sheet {
    /// Whether every point has an owner.
    pub fn all_owned(&self) -> bool {
        self.points.iter().all(|point| point.owner.is_some())
    }

    pub fn counts(&self) -> Counts {
        Counts {
            conditions: self.conditions.len(),
            points: self.points.len(),
            methods: self.methods.len(),
            steps: self.steps.len(),
            certificates: self.certificates.len(),
        }
    }
}

pub fn read(on: &Instrument, bytes: &[u8]) -> Result<Sheet, Refusal> {
    read_without(None, on, bytes)
}

/// Reading that leaves out one of the refusals of a record.
pub fn read_without(
    left_out: Option<usize>,
    on: &Instrument,
    bytes: &[u8],
) -> Result<Sheet, Refusal> {
    if bytes.len() > on.bytes {
        return Err(Refusal::at(1, on.bytes));
    }
    let (records, cut) = split(on, bytes);
    for (i, record) in records.iter().enumerate() {
        let mut refusals = refusals(on, &records[..i], record);
        if let Some(number) = refusals.find(|number| Some(*number) != left_out) {
            return Err(Refusal::at(number, record.offset));
        }
    }
    if let Some(refusal) = cut {
        return Err(refusal);
    }
    let last = records.last().map_or(0, |record| record.kind);
    if TOKENS.contains(&last) || last == 13 {
        return Err(Refusal::at(8, bytes.len()));
    }
    if count(&records, &METHODS) == 0 {
        return Err(Refusal::at(9, bytes.len()));
    }
    if let Some(point) = records.iter().find(|record| unknown_owner(&records, record)) {
        return Err(Refusal::at(25, point.offset));
    }
    Ok(build(&records))
}

/// The records, and refusal 2 or 3 where they stop early.
fn split<'a>(on: &Instrument, bytes: &'a [u8]) -> (Vec<Record<'a>>, Option<Refusal>) {
    let mut records = vec![];
    let mut rest = bytes;
    while let Some((&kind, after)) = rest.split_first() {
        let offset = bytes.len() - rest.len();
        if !(1..=on.kinds).contains(&kind) {
            return (records, Some(Refusal::at(2, offset)));
        }
        let length = BODY_LENGTHS[kind as usize - 1];
        if after.len() < length {
            return (records, Some(Refusal::at(3, offset)));
        }
        records.push(Record { offset, kind, body: &after[..length] });
        rest = &after[length..];
    }
    (records, None)
}

/// Those of 4 to 7, 9, 18 to 20, 24 and 26 that apply to a record, in their order.
fn refusals<'a>(
    on: &'a Instrument,
    before: &'a [Record],
    record: &'a Record,
) -> impl Iterator<Item = usize> + 'a {
    type Test = fn(&Instrument, &[Record], &Record) -> bool;
    let tests: [(usize, Test); 10] = [
        (4, |_, before, record| misplaced(before, record)),
        (19, |_, before, record| record.kind == 18 && !before.is_empty()),
        (20, |_, before, record| record.kind == 19 && !new_edition(before)),
        (5, |_, before, record| malformed(before, record)),
        (6, too_many),
        (7, misnamed),
        (9, |_, before, record| primitive_first(before, record)),
        (18, |_, before, record| other_outcomes(before, record)),
        (24, |_, before, record| other_owners(before, record)),
        (26, |_, before, record| no_call_by_channel(before, record)),
    ];
    let applies = move |&(_, test): &(usize, Test)| test(on, before, record);
    tests.into_iter().filter(applies).map(|(number, _)| number)
}

fn section(kind: u8) -> usize {
    let sections: [&[u8]; 5] = [&[1, 2, 3, 4, 5, 6, 18, 21], &POINTS, &METHODS, &STEPS, &[13, 14]];
    sections.iter().position(|kinds| kinds.contains(&kind)).unwrap()
}

fn new_edition(records: &[Record]) -> bool {
    records.first().is_some_and(|record| record.kind == 18)
}

fn count(records: &[Record], kinds: &[u8]) -> usize {
    records.iter().filter(|record| kinds.contains(&record.kind)).count()
}

/// The records of the condition that is open, if any.
fn open_condition<'a, 'b>(before: &'b [Record<'a>]) -> &'b [Record<'a>] {
    let start =
        before.iter().rposition(|record| !TOKENS.contains(&record.kind)).map_or(0, |i| i + 1);
    &before[start..]
}

fn misplaced(before: &[Record], record: &Record) -> bool {
    let Some(last) = before.last() else {
        return false;
    };
    let open = TOKENS.contains(&last.kind);
    let goes_on = TOKENS.contains(&record.kind) || record.kind == 6;
    section(last.kind) > section(record.kind) || (open && !goes_on)
}

fn malformed(before: &[Record], record: &Record) -> bool {
    if record.kind > 6 {
        return false;
    }
    let open = open_condition(before);
    let items = count(open, &[1, 2, 21]) - count(open, &[3, 4]);
    match record.kind {
        3 | 4 => items < 2,
        5 => items < 1,
        6 => items != 1,
        _ => false,
    }
}

fn too_many(on: &Instrument, before: &[Record], record: &Record) -> bool {
    match record.kind {
        1 | 21 if count(open_condition(before), &LEAVES) + 1 > 31 => true,
        kind if TOKENS.contains(&kind) => open_condition(before).len() + 1 > 96,
        6 => count(before, &[6]) + 1 > 256,
        kind if POINTS.contains(&kind) => count(before, &POINTS) + 1 > on.points,
        kind if METHODS.contains(&kind) => count(before, &METHODS) + 1 > 64,
        kind if STEPS.contains(&kind) => count(before, &STEPS) + 1 > 512,
        _ => false,
    }
}

fn name(body: &[u8], index: usize) -> usize {
    body[2 * index] as usize + 256 * body[2 * index + 1] as usize
}

fn misnamed(on: &Instrument, before: &[Record], record: &Record) -> bool {
    let body = record.body;
    let any = |indices: &[usize], kinds: &[u8]| {
        let bound = count(before, kinds);
        indices.iter().any(|&i| name(body, i) >= bound)
    };
    match record.kind {
        7 | 8 | 20 => any(&[0, 1, 2], &[6]),
        9 => any(&[0, 1, 2], &[6]) || any(&[3, 4], &POINTS),
        10 => any(&[0, 1], &POINTS) || body[4] >= on.events,
        11 | 22 => any(&[0, 1], &POINTS) || any(&[2], &METHODS),
        12 => any(&[0, 1], &POINTS),
        19 => any(&[0], &POINTS),
        15 => any(&[0, 1, 2, 3, 4], &[6]),
        16 => any(&[0, 1, 2, 5, 6], &[6]) || any(&[3, 4, 7], &POINTS),
        17 => any(&[0, 1, 2], &POINTS) || any(&[3], &METHODS),
        _ => false,
    }
}

fn primitive_first(before: &[Record], record: &Record) -> bool {
    matches!(record.kind, 8 | 15) && count(before, &METHODS) == 0
}

/// A call of kind 11 names a method of kind 15 or 16, or one of kind 17 a method of
/// kind 8 or 9.
fn other_outcomes(before: &[Record], record: &Record) -> bool {
    let (method, others) = match record.kind {
        11 => (name(record.body, 2), [15, 16]),
        17 => (name(record.body, 3), [8, 9]),
        _ => return false,
    };
    method_kind(before, method).is_some_and(|kind| others.contains(&kind))
}

/// The kind of a method, by its number.
fn method_kind(before: &[Record], method: usize) -> Option<u8> {
    let mut methods = before.iter().filter(|record| METHODS.contains(&record.kind));
    methods.nth(method).map(|named| named.kind)
}

/// A call of kind 22 names a method with body (kinds 9 and 16), a two-outcome method
/// (kinds 15 and 16) or a channel above 3.
fn no_call_by_channel(before: &[Record], record: &Record) -> bool {
    if record.kind != 22 {
        return false;
    }
    let method = method_kind(before, name(record.body, 2));
    method.is_some_and(|kind| [9, 15, 16].contains(&kind)) || record.body[6] > 3
}

/// The owner of a point, by its number, if it has one.
fn owner(before: &[Record], point: usize) -> Option<usize> {
    let mut points = before.iter().filter(|record| POINTS.contains(&record.kind));
    points.nth(point).filter(|point| point.kind == 20).map(|point| name(point.body, 3))
}

/// A step joins two points of different owners, or a method has an entry or an exit of
/// another owner than the method.
fn other_owners(before: &[Record], record: &Record) -> bool {
    let owners = |indices: &[usize]| -> Vec<usize> {
        indices.iter().filter_map(|&i| owner(before, name(record.body, i))).collect()
    };
    let others = |indices: &[usize]| {
        let number = count(before, &METHODS);
        owners(indices).iter().any(|&owner| owner != number)
    };
    let differ = |indices: &[usize]| {
        let owners = owners(indices);
        owners.iter().any(|one| owners.iter().any(|two| one != two))
    };
    match record.kind {
        9 => others(&[3, 4]),
        16 => others(&[3, 4, 7]),
        10..=12 | 22 => differ(&[0, 1]),
        17 => differ(&[0, 1, 2]),
        _ => false,
    }
}

/// A point has an owner that is none of the sheet's methods.
fn unknown_owner(all: &[Record], record: &Record) -> bool {
    record.kind == 20 && name(record.body, 3) >= count(all, &METHODS)
}

/// The parts of a sheet whose records are all in order.
fn build(records: &[Record]) -> Sheet {
    let mut sheet = Sheet { new_edition: new_edition(records), ..Sheet::default() };
    let mut items: Vec<Tree> = vec![];
    let mut pairs = vec![];
    for record in records {
        let body = record.body;
        match record.kind {
            kind if TOKENS.contains(&kind) => token(record, &mut items),
            6 => sheet.conditions.push(items.pop().unwrap()),
            7 | 20 => {
                let (past, own, due) = (name(body, 0), name(body, 1), name(body, 2));
                let owner = (record.kind == 20).then(|| name(body, 3));
                sheet.points.push(Point { past, own, due, owner });
            }
            8 | 9 | 15 | 16 => sheet.methods.push(method(record)),
            kind if STEPS.contains(&kind) => sheet.steps.push(step(record)),
            13 => {
                let set = [body[1], body[2], body[3], body[4]];
                pairs.push((body[0] as usize, u32::from_le_bytes(set)));
            }
            14 => sheet.certificates.push(std::mem::take(&mut pairs)),
            _ => {}
        }
    }
    sheet
}

fn token(record: &Record, items: &mut Vec<Tree>) {
    let tree = match record.kind {
        1 | 21 => {
            Tree::Leaf(record.body.iter().rev().fold(0, |set, &byte| 256 * set + byte as u64))
        }
        2 => Tree::Empty,
        5 => items.pop().unwrap().star(),
        kind => {
            let (second, first) = (items.pop().unwrap(), items.pop().unwrap());
            if kind == 3 {
                first.join(second)
            } else {
                first.either(second)
            }
        }
    };
    items.push(tree);
}

fn method(record: &Record) -> Method {
    let field = |index: usize| name(record.body, index);
    // The indices of a trace, a future and an exit.
    let ending = |trace: usize, future: usize, exit: Option<usize>| Ending {
        trace: field(trace),
        future: field(future),
        exit: exit.map(field),
    };
    let (entry, normal, failed) = match record.kind {
        8 => (None, ending(1, 2, None), None),
        9 => (Some(field(3)), ending(1, 2, Some(4)), None),
        15 => (None, ending(1, 2, None), Some(ending(3, 4, None))),
        _ => (Some(field(3)), ending(1, 2, Some(4)), Some(ending(5, 6, Some(7)))),
    };
    Method { pre: field(0), entry, normal, failed }
}

fn step(record: &Record) -> Step {
    let body = record.body;
    let act = match record.kind {
        10 => Act::Event(body[4]),
        11 | 22 => Act::Call(name(body, 2)),
        17 => Act::Call(name(body, 3)),
        12 => Act::Pass,
        _ => Act::Stop,
    };
    let to = (record.kind != 19).then(|| name(body, 1));
    let failed = (record.kind == 17).then(|| name(body, 2));
    let channel = if record.kind == 22 { body[6] } else { 0 };
    Step { from: name(body, 0), to, failed, channel, act }
}
