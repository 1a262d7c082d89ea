//! A sheet in parts, and its certificates of reachable pairs.
use crate::instrument::FOUR;
use crate::naive::{self, Ask, Exchange, Side, EXCHANGE};
use crate::tree::Tree;
use std::collections::HashSet;

/// Pairs in one made certificate, so that a sheet stays short.
pub const MOST_PAIRS: usize = 400;

#[derive(Clone)]
pub enum Step {
    Event(usize, usize, u8),
    Call(usize, usize, usize),
    Pass(usize, usize),
    /// A call that can fail: from, to, failed target, method.
    Failing(usize, usize, usize, usize),
    Stop(usize),
    /// A call of a primitive by a channel: from, to, method, channel.
    Channel(usize, usize, usize, u8),
}

impl Step {
    /// Its kind, its names in the order of the record, and the byte behind them.
    fn record(&self) -> (u8, Vec<usize>, Option<u8>) {
        match *self {
            Step::Event(from, to, event) => (10, vec![from, to], Some(event)),
            Step::Call(from, to, method) => (11, vec![from, to, method], None),
            Step::Pass(from, to) => (12, vec![from, to], None),
            Step::Failing(from, to, failed, method) => (17, vec![from, to, failed, method], None),
            Step::Stop(from) => (19, vec![from], None),
            Step::Channel(from, to, method, channel) => (22, vec![from, to, method], Some(channel)),
        }
    }

    fn write(&self, out: &mut Vec<u8>) {
        let (kind, record, last) = self.record();
        out.push(kind);
        names(out, &record);
        out.extend(last);
    }
}

/// A method. Its conditions are three, and two more if it can fail: the failed trace
/// and the failed future. Its points are none of a primitive; entry and exit of a
/// method with body, and the failed exit if it can fail.
#[derive(Clone, Default)]
pub struct Method {
    pub conditions: Vec<usize>,
    pub points: Vec<usize>,
}

impl Method {
    pub fn new(conditions: &[usize], points: &[usize]) -> Method {
        Method { conditions: conditions.to_vec(), points: points.to_vec() }
    }

    pub fn fails(&self) -> bool {
        self.conditions.len() == 5
    }

    /// Its kind, and its names in the order of the record.
    fn record(&self) -> (u8, Vec<usize>) {
        let kind = match (self.fails(), self.points.is_empty()) {
            (false, true) => 8,
            (false, false) => 9,
            (true, true) => 15,
            (true, false) => 16,
        };
        let (conditions, failed) = self.conditions.split_at(3);
        let (points, failed_exit) = self.points.split_at(self.points.len().min(2));
        (kind, [conditions, points, failed, failed_exit].concat())
    }
}

#[derive(Clone, Default)]
pub struct Draft {
    pub new_edition: bool,
    pub conditions: Vec<Tree>,
    pub points: Vec<[usize; 3]>,
    pub methods: Vec<Method>,
    pub steps: Vec<Step>,
}

impl Draft {
    /// The number of a condition, added if it is new.
    pub fn condition(&mut self, tree: &Tree) -> usize {
        if let Some(number) = self.conditions.iter().position(|old| old == tree) {
            return number;
        }
        self.conditions.push(tree.clone());
        self.conditions.len() - 1
    }

    pub fn point(&mut self, past: &Tree, own: &Tree, due: &Tree) -> usize {
        let names = [self.condition(past), self.condition(own), self.condition(due)];
        self.points.push(names);
        self.points.len() - 1
    }

    /// The records before the certificates.
    pub fn bytes(&self) -> Vec<u8> {
        let mut out = vec![];
        if self.new_edition {
            out.push(18);
        }
        for tree in &self.conditions {
            tree.write(&mut out);
            out.push(6);
        }
        for point in &self.points {
            out.push(7);
            names(&mut out, point);
        }
        for method in &self.methods {
            let (kind, record) = method.record();
            out.push(kind);
            names(&mut out, &record);
        }
        self.steps.iter().for_each(|step| step.write(&mut out));
        out
    }

    /// The whole sheet.
    pub fn certified(&self) -> Vec<u8> {
        certify(self.bytes(), MOST_PAIRS)
    }

    /// The whole sheet, with the certificates that a loader needs which reads conditions
    /// in another way where they are called by a channel.
    pub fn certified_by(&self, exchange: &Exchange) -> Vec<u8> {
        certify_by(exchange, self.bytes(), MOST_PAIRS)
    }
}

fn names(out: &mut Vec<u8>, names: &[usize]) {
    for &name in names {
        out.extend_from_slice(&(name as u16).to_le_bytes());
    }
}

/// Adds the certificates that the rules of a sheet need.
pub fn certify(bytes: Vec<u8>, most: usize) -> Vec<u8> {
    certify_by(&EXCHANGE, bytes, most)
}

fn certify_by(exchange: &Exchange, mut bytes: Vec<u8>, most: usize) -> Vec<u8> {
    let Ok(sheet) = naive::read_sheet(&FOUR, &bytes) else {
        return bytes;
    };
    // Rules that ask the same are given the same pairs.
    let mut made: Vec<(Ask, Vec<(usize, u32)>)> = vec![];
    for rule in naive::rules_by(exchange, &sheet) {
        let known = made.iter().position(|(ask, _)| *ask == rule.ask);
        let index = known.unwrap_or(made.len());
        if let Ask::Within(left, right) = &rule.ask {
            if known.is_none() {
                let pairs = reachable(left, right, most);
                made.push((rule.ask, pairs));
            }
            certificate(&mut bytes, &made[index].1);
        }
    }
    bytes
}

pub fn certificate(out: &mut Vec<u8>, pairs: &[(usize, u32)]) {
    for &(place, set) in pairs {
        out.push(13);
        out.push(place as u8);
        out.extend_from_slice(&set.to_le_bytes());
    }
    out.push(14);
}

/// The reachable pairs in the order in which they are met, up to a number.
pub fn reachable(left: &Tree, right: &Tree, most: usize) -> Vec<(usize, u32)> {
    let (left, right) = (Side::new(left), Side::new(right));
    let follow: Vec<u32> = (0..right.places()).map(|k| mask(right.follow(k))).collect();
    let holding: Vec<u32> = (0..64).map(|event| holding(&right, event)).collect();
    let mut pairs = vec![(0, 1)];
    let mut met: HashSet<(usize, u32)> = pairs.iter().copied().collect();
    let mut next = 0;
    while next < pairs.len() {
        let (place, set) = pairs[next];
        next += 1;
        let union = (0..follow.len()).filter(|k| set >> k & 1 == 1);
        let union = union.fold(0, |all, k| all | follow[k]);
        for (event, holders) in holding.iter().enumerate() {
            for &l in left.follow(place).iter().filter(|&&l| left.leaf_holds(l, event)) {
                let pair = (l, union & holders);
                if pairs.len() < most && met.insert(pair) {
                    pairs.push(pair);
                }
            }
        }
    }
    pairs
}

fn mask(places: &[usize]) -> u32 {
    places.iter().fold(0, |set, place| set | 1 << place)
}

fn holding(side: &Side, event: usize) -> u32 {
    let places: Vec<usize> = (1..side.places()).filter(|&k| side.leaf_holds(k, event)).collect();
    mask(&places)
}
