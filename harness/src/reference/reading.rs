//! Reading a sheet: refusals 1 to 9, 18 to 20 and 24 to 26, and where its parts are.
use super::places::Condition;
use crate::answer::{Counts, Refusal};
use crate::instrument::{Instrument, EVENTS, KINDS};

const CONDITIONS: usize = 256;
const RECORDS: usize = 96;
const LEAVES: usize = 31;
const METHODS: usize = 64;
const STEPS: usize = 512;

/// The most points with which the last method starts below 65,536, whatever the bytes:
/// the edition's byte, 256 conditions of 221 bytes at most, 63 methods of 17 and 876
/// points of 9. With leaves of 9 bytes a condition is longer, and the bytes are limited.
const MOST_POINTS: usize = 876;
const MOST_BYTES: usize = 65_536;

/// The kinds of a leaf with a set of 8 bytes and of a call of a primitive by a channel,
/// and the number of channels.
pub const LONG_LEAF: u8 = 21;
const CALL_BY_CHANNEL: u8 = 22;
const CHANNELS: u8 = 4;

/// By kind, with a row for every byte, so that no index is tested.
const BODY: [u8; 256] =
    rows([0, 4, 0, 0, 0, 0, 0, 6, 6, 10, 5, 6, 4, 5, 0, 10, 16, 8, 0, 2, 8, 8, 7]);
const SECTION: [u8; 256] =
    rows([0, 1, 1, 1, 1, 1, 1, 2, 3, 3, 4, 4, 4, 5, 5, 3, 3, 4, 1, 4, 2, 1, 4]);

/// A point's record without an owner, and with one, which follows the three names.
const POINT_LENGTH: usize = 7;
const OWNED_LENGTH: usize = 9;

/// The rows of the kinds from 0 on; there is no kind 0, nor one above the last.
const fn rows(kinds: [u8; KINDS as usize + 1]) -> [u8; 256] {
    let mut rows = [0; 256];
    let mut kind = 1;
    while kind < kinds.len() {
        rows[kind] = kinds[kind];
        kind += 1;
    }
    rows
}

/// How many of something there are, and how many of them have two outcomes.
#[derive(Clone, Copy, Default)]
struct Number {
    all: usize,
    two: usize,
}

/// A sheet that none of 1 to 9, 18 to 20 and 24 to 26 applies to.
pub struct Sheet<'a> {
    pub bytes: &'a [u8],
    pub counts: Counts,
    pub certificates_at: usize,
    new_edition: bool,
    /// Methods with body, and call steps.
    bodies: Number,
    calls: Number,
    /// Call steps of a method with body, in a sheet of the new edition.
    entering: usize,
    stops: usize,
    condition_ends: [u16; CONDITIONS],
    /// Where the points are, up to the last that has an owner; those behind it stand from
    /// `points_at` on. A sheet without owners has no list.
    owned_at: Vec<u16>,
    points_at: usize,
    methods_at: [u16; METHODS],
    /// Where the first step is, and from there each.
    first_step: usize,
    steps_at: [u16; STEPS],
}

/// A condition by its number, and the channel by which it is read: that of a call for
/// the conditions of the primitive, and 0, which exchanges nothing, for all others.
#[derive(Clone, Copy)]
pub struct Name {
    pub number: u16,
    pub channel: u8,
}

impl Name {
    pub fn plain(number: usize) -> Name {
        Name { number: number as u16, channel: 0 }
    }
}

#[derive(Clone, Copy)]
pub struct Point {
    pub past: Name,
    pub own: Name,
    pub due: Name,
}

/// The conditions of one outcome of a method.
#[derive(Clone, Copy)]
pub struct Outcome {
    pub trace: Name,
    pub future: Name,
}

/// A method with body: its entry, and each outcome with the exit that leads to it.
pub struct Body {
    pub pre: Name,
    pub entry: usize,
    pub normal: (Outcome, usize),
    pub failed: Option<(Outcome, usize)>,
}

/// A call step: its method's pre, and each outcome with the target that it leads to. In
/// a sheet of the new edition it has the entry too, if the method has a body.
pub struct Call {
    pub pre: Name,
    pub entry: Option<usize>,
    pub normal: (Outcome, usize),
    pub failed: Option<(Outcome, usize)>,
}

/// What a step does; an event and a pass have a target.
pub enum Act {
    Event(u8, usize),
    Call(Call),
    Pass(usize),
    Stop,
}

pub struct Step {
    pub from: usize,
    pub act: Act,
}

impl<'a> Sheet<'a> {
    pub fn read(on: &Instrument, bytes: &'a [u8]) -> Result<Sheet<'a>, Refusal> {
        assert!(on.points <= MOST_POINTS && on.kinds <= KINDS && on.events <= EVENTS);
        assert!(on.kinds < LONG_LEAF || (on.bytes <= MOST_BYTES && on.events == EVENTS));
        if bytes.len() > on.bytes {
            return Err(Refusal::at(1, on.bytes));
        }
        let mut reader = Reader::new(on, bytes);
        let mut at = 0;
        while at < bytes.len() {
            let kind = bytes[at];
            if kind == 0 || kind > on.kinds {
                return Err(Refusal::at(2, at));
            }
            let next = at + 1 + BODY[kind as usize] as usize;
            if next > bytes.len() {
                return Err(Refusal::at(3, at));
            }
            if let Err(number) = reader.record(kind, at) {
                return Err(Refusal::at(number, at));
            }
            at = next;
        }
        reader.end()
    }

    fn name(&self, at: usize) -> usize {
        u16::from_le_bytes([self.bytes[at], self.bytes[at + 1]]) as usize
    }

    /// The records of a condition, without its end record, to be read by a channel.
    #[inline(always)]
    pub fn condition(&self, Name { number, channel }: Name) -> Condition<'a> {
        let number = number as usize;
        let end = self.condition_ends[number] as usize;
        let start = match number {
            0 => self.new_edition as usize,
            _ => self.condition_ends[number - 1] as usize + 1,
        };
        Condition { records: &self.bytes[start..end], channel }
    }

    fn condition_name(&self, at: usize, channel: u8) -> Name {
        Name { number: self.name(at) as u16, channel }
    }

    #[inline(always)]
    pub fn point(&self, number: usize) -> Point {
        let at = 1 + match self.owned_at.get(number) {
            Some(&at) => at as usize,
            None => self.points_at + POINT_LENGTH * (number - self.owned_at.len()),
        };
        let [past, own, due] = [at, at + 2, at + 4].map(|at| self.condition_name(at, 0));
        Point { past, own, due }
    }

    /// The owner of the point that is at an offset, if it has one.
    fn owner(&self, at: u16) -> Option<usize> {
        let at = at as usize;
        (self.bytes[at] == 20).then(|| self.name(at + POINT_LENGTH))
    }

    /// The conditions of an outcome, which stand side by side.
    fn outcome(&self, at: usize, channel: u8) -> Outcome {
        let [trace, future] = [at, at + 2].map(|at| self.condition_name(at, channel));
        Outcome { trace, future }
    }

    /// A method, if it has a body.
    pub fn body(&self, number: usize) -> Option<Body> {
        let at = self.methods_at[number] as usize;
        let kind = self.bytes[at];
        if !has_body(kind) {
            return None;
        }
        Some(Body {
            pre: self.condition_name(at + 1, 0),
            entry: self.name(at + 7),
            normal: (self.outcome(at + 3, 0), self.name(at + 9)),
            failed: (kind == 16).then(|| (self.outcome(at + 11, 0), self.name(at + 15))),
        })
    }

    pub fn step(&self, number: usize) -> Step {
        let at = self.first_step + self.steps_at[number] as usize;
        let to = || self.name(at + 3);
        let act = match self.bytes[at] {
            10 => Act::Event(self.bytes[at + 5], to()),
            12 => Act::Pass(to()),
            11 => Act::Call(self.call(self.name(at + 5), to(), None, 0)),
            17 => Act::Call(self.call(self.name(at + 7), to(), Some(self.name(at + 5)), 0)),
            CALL_BY_CHANNEL => {
                Act::Call(self.call(self.name(at + 5), to(), None, self.bytes[at + 7]))
            }
            _ => Act::Stop,
        };
        Step { from: self.name(at + 1), act }
    }

    /// A call of a method by a channel, with its target and, if it has one, its failed
    /// target.
    fn call(&self, method: usize, to: usize, failed: Option<usize>, channel: u8) -> Call {
        let at = self.methods_at[method] as usize;
        // The failed conditions follow a future, or an exit.
        let failing = if self.bytes[at] == 15 { at + 7 } else { at + 11 };
        let enters = self.new_edition && has_body(self.bytes[at]);
        Call {
            pre: self.condition_name(at + 1, channel),
            entry: enters.then(|| self.name(at + 7)),
            normal: (self.outcome(at + 3, channel), to),
            failed: failed.map(|target| (self.outcome(failing, channel), target)),
        }
    }

    /// The rules with a certificate.
    pub fn certificates_needed(&self) -> usize {
        let Number { all: calls, two: failing } = self.calls;
        let others = self.counts.steps - calls - self.stops;
        let steps = 3 * others + 5 * calls + 4 * failing + self.entering;
        3 * self.bodies.all + 2 * self.bodies.two + steps
    }

    /// The count of an accepted sheet: the rules with a certificate, 1 and 2, 4 of
    /// each method with body, 24 of a first method with two outcomes, and 25 of each
    /// stop.
    pub fn count(&self) -> usize {
        let first = (self.bytes[self.methods_at[0] as usize] == 16) as usize;
        self.certificates_needed() + 2 + self.bodies.all + first + self.stops
    }
}

/// Whether the methods of a kind have a body.
fn has_body(kind: u8) -> bool {
    kind == 9 || kind == 16
}

/// What is known after the records read so far.
struct Reader<'a> {
    sheet: Sheet<'a>,
    /// The most points, and the number of events.
    points: usize,
    events: u8,
    /// One more than the highest owner; 0 if there is none.
    owners: usize,
    section: u8,
    /// Records, leaves and items of the open condition.
    records: usize,
    leaves: usize,
    items: usize,
    in_certificate: bool,
}

impl<'a> Reader<'a> {
    fn new(on: &Instrument, bytes: &'a [u8]) -> Reader<'a> {
        let sheet = Sheet {
            bytes,
            counts: Counts::default(),
            certificates_at: bytes.len(),
            new_edition: false,
            bodies: Number::default(),
            calls: Number::default(),
            entering: 0,
            stops: 0,
            condition_ends: [0; CONDITIONS],
            owned_at: vec![],
            points_at: 0,
            methods_at: [0; METHODS],
            first_step: 0,
            steps_at: [0; STEPS],
        };
        Reader {
            sheet,
            points: on.points,
            events: on.events,
            owners: 0,
            section: 0,
            records: 0,
            leaves: 0,
            items: 0,
            in_certificate: false,
        }
    }

    /// One whole record; an error is the number of its refusal. Methods, steps, owners and
    /// the edition are few, and kept out of the loop over all records.
    #[inline(always)]
    fn record(&mut self, kind: u8, at: usize) -> Result<(), usize> {
        let section = SECTION[kind as usize];
        if section < self.section || (self.records > 0 && kind > 6) {
            return self.out_of_place(kind);
        }
        if section == 5 && self.section < 5 {
            self.sheet.certificates_at = at;
        }
        self.section = section;
        match kind {
            1..=5 => self.token(kind),
            6 => self.end_of_condition(at),
            7 => self.point(at),
            13 => {
                self.in_certificate = true;
                Ok(())
            }
            14 => {
                self.in_certificate = false;
                self.sheet.counts.certificates += 1;
                Ok(())
            }
            8 | 9 | 15 | 16 => self.method(kind, at),
            _ => self.other(kind, at),
        }
    }

    /// A record of an earlier section, or one of a kind above 6 in an open condition: 4,
    /// unless it is a leaf in an open condition.
    #[inline(never)]
    fn out_of_place(&mut self, kind: u8) -> Result<(), usize> {
        match kind == LONG_LEAF && self.records > 0 {
            true => self.token(kind),
            false => Err(4),
        }
    }

    /// A step, a point with an owner, the edition, or a record of the four-channel
    /// instrument alone.
    #[inline(never)]
    fn other(&mut self, kind: u8, at: usize) -> Result<(), usize> {
        match kind {
            18 => self.edition(at),
            19 => self.stop(at),
            20 => self.owned_point(at),
            _ if kind < LONG_LEAF => self.step(kind, at),
            _ => self.of_four_channels(kind, at),
        }
    }

    #[inline(never)]
    fn of_four_channels(&mut self, kind: u8, at: usize) -> Result<(), usize> {
        match kind {
            LONG_LEAF => self.token(kind),
            _ => self.call_by_channel(at),
        }
    }

    fn edition(&mut self, at: usize) -> Result<(), usize> {
        if at > 0 {
            return Err(19);
        }
        self.sheet.new_edition = true;
        Ok(())
    }

    #[inline(always)]
    fn token(&mut self, kind: u8) -> Result<(), usize> {
        let needed = match kind {
            3 | 4 => 2,
            5 => 1,
            _ => 0,
        };
        if self.items < needed {
            return Err(5);
        }
        let leaf = kind == 1 || kind == LONG_LEAF;
        if self.records == RECORDS || (leaf && self.leaves == LEAVES) {
            return Err(6);
        }
        self.records += 1;
        self.leaves += leaf as usize;
        self.items = self.items - needed + 1;
        Ok(())
    }

    fn end_of_condition(&mut self, at: usize) -> Result<(), usize> {
        if self.items != 1 {
            return Err(5);
        }
        let number = self.sheet.counts.conditions;
        if number == CONDITIONS {
            return Err(6);
        }
        self.sheet.condition_ends[number] = at as u16;
        self.sheet.counts.conditions += 1;
        self.records = 0;
        self.leaves = 0;
        self.items = 0;
        Ok(())
    }

    /// 7, unless as many names from `at` on are each under the bound.
    fn names(&self, at: usize, many: usize, bound: usize) -> Result<(), usize> {
        if (0..many).all(|i| self.sheet.name(at + 2 * i) < bound) {
            Ok(())
        } else {
            Err(7)
        }
    }

    #[inline(always)]
    fn point(&mut self, at: usize) -> Result<(), usize> {
        let number = self.sheet.counts.points;
        if number == self.points {
            return Err(6);
        }
        self.names(at + 1, 3, self.sheet.counts.conditions)?;
        if number == 0 {
            self.sheet.points_at = at;
        }
        self.sheet.counts.points += 1;
        Ok(())
    }

    /// A point with an owner. It is listed, and those before it that are not.
    fn owned_point(&mut self, at: usize) -> Result<(), usize> {
        self.point(at)?;
        let Sheet { owned_at, points_at, .. } = &mut self.sheet;
        if owned_at.is_empty() {
            owned_at.reserve(self.points);
        }
        while *points_at < at {
            owned_at.push(*points_at as u16);
            *points_at += POINT_LENGTH;
        }
        owned_at.push(at as u16);
        *points_at = at + OWNED_LENGTH;
        self.owners = self.owners.max(self.sheet.name(at + POINT_LENGTH) + 1);
        Ok(())
    }

    /// 24, unless an owner, if one is given, and those of as many points, named from `at`
    /// on, are all equal; a point without owner agrees with any.
    fn agree(&self, mut owner: Option<usize>, at: usize, many: usize) -> Result<(), usize> {
        for i in 0..many {
            let point = self.sheet.owned_at.get(self.sheet.name(at + 2 * i));
            let found = point.and_then(|&at| self.sheet.owner(at));
            if owner.is_some() && found.is_some() && owner != found {
                return Err(24);
            }
            owner = owner.or(found);
        }
        Ok(())
    }

    #[inline(never)]
    fn method(&mut self, kind: u8, at: usize) -> Result<(), usize> {
        let number = self.sheet.counts.methods;
        if number == METHODS {
            return Err(6);
        }
        let Counts { conditions, points, .. } = self.sheet.counts;
        self.names(at + 1, if kind == 15 { 5 } else { 3 }, conditions)?;
        if has_body(kind) {
            self.names(at + 7, 2, points)?;
            self.sheet.bodies.all += 1;
        }
        if kind == 16 {
            self.names(at + 11, 2, conditions)?;
            self.names(at + 15, 1, points)?;
            self.sheet.bodies.two += 1;
        }
        if number == 0 && (kind == 8 || kind == 15) {
            return Err(9);
        }
        if self.owners > 0 && has_body(kind) {
            self.agree(Some(number), at + 7, 2)?;
            self.agree(Some(number), at + 15, (kind == 16) as usize)?;
        }
        self.sheet.methods_at[number] = at as u16;
        self.sheet.counts.methods += 1;
        Ok(())
    }

    fn step(&mut self, kind: u8, at: usize) -> Result<(), usize> {
        if self.sheet.counts.steps == STEPS {
            return Err(6);
        }
        self.names(at + 1, 2, self.sheet.counts.points)?;
        if kind == 10 && self.sheet.bytes[at + 5] >= self.events {
            return Err(7);
        }
        match kind {
            11 => self.call(at + 5, false)?,
            17 => {
                self.names(at + 5, 1, self.sheet.counts.points)?;
                self.call(at + 7, true)?;
            }
            _ => {}
        }
        if self.owners > 0 {
            self.agree(None, at + 1, if kind == 17 { 3 } else { 2 })?;
        }
        self.add_step(at);
        Ok(())
    }

    fn stop(&mut self, at: usize) -> Result<(), usize> {
        if !self.sheet.new_edition {
            return Err(20);
        }
        if self.sheet.counts.steps == STEPS {
            return Err(6);
        }
        self.names(at + 1, 1, self.sheet.counts.points)?;
        self.sheet.stops += 1;
        self.add_step(at);
        Ok(())
    }

    fn add_step(&mut self, at: usize) {
        let number = self.sheet.counts.steps;
        if number == 0 {
            self.sheet.first_step = at;
        }
        self.sheet.steps_at[number] = (at - self.sheet.first_step) as u16;
        self.sheet.counts.steps += 1;
    }

    /// A call of the method that is named at an offset, with one outcome or two; 18 if
    /// the method has not as many.
    fn call(&mut self, at: usize, two: bool) -> Result<(), usize> {
        self.names(at, 1, self.sheet.counts.methods)?;
        let method = self.sheet.methods_at[self.sheet.name(at)] as usize;
        let kind = self.sheet.bytes[method];
        if (kind > 14) != two {
            return Err(18);
        }
        self.sheet.calls.all += 1;
        self.sheet.calls.two += two as usize;
        self.sheet.entering += (self.sheet.new_edition && has_body(kind)) as usize;
        Ok(())
    }

    /// A call by a channel; 26 if its method is no primitive of one outcome, or there is
    /// no such channel.
    fn call_by_channel(&mut self, at: usize) -> Result<(), usize> {
        if self.sheet.counts.steps == STEPS {
            return Err(6);
        }
        self.names(at + 1, 2, self.sheet.counts.points)?;
        self.names(at + 5, 1, self.sheet.counts.methods)?;
        if self.owners > 0 {
            self.agree(None, at + 1, 2)?;
        }
        let method = self.sheet.methods_at[self.sheet.name(at + 5)] as usize;
        if self.sheet.bytes[method] != 8 || self.sheet.bytes[at + 7] >= CHANNELS {
            return Err(26);
        }
        self.sheet.calls.all += 1;
        self.add_step(at);
        Ok(())
    }

    fn end(self) -> Result<Sheet<'a>, Refusal> {
        let length = self.sheet.bytes.len();
        if self.records > 0 || self.in_certificate {
            return Err(Refusal::at(8, length));
        }
        if self.sheet.counts.methods == 0 {
            return Err(Refusal::at(9, length));
        }
        match self.unknown_owner() {
            Some(&at) => Err(Refusal::at(25, at as usize)),
            None => Ok(self.sheet),
        }
    }

    /// Where the first point is whose owner is no method, if there is one.
    fn unknown_owner(&self) -> Option<&u16> {
        let methods = self.sheet.counts.methods;
        if self.owners <= methods {
            return None;
        }
        let unknown = |at: u16| self.sheet.owner(at).is_some_and(|owner| owner >= methods);
        self.sheet.owned_at.iter().find(|&&at| unknown(at))
    }
}
