//! Owners of a sheet's points, right and wrong ones.
use super::channels;
use super::honest::spoil;
use super::mutate::{self, is_point};
use super::stopping::either_edition;
use crate::instrument::{Instrument, FOUR};
use crate::naive::{self, Sheet, Step};
use crate::random::Random;

/// By point, its owner if it has one.
pub type Owners = Vec<Option<usize>>;

/// The highest owner that a record has room for.
const HIGHEST: usize = 65_535;

/// A sheet with owners for its points of kind 7; a point without one stays as it is.
pub fn give(sheet: &[u8], owners: &[Option<usize>]) -> Vec<u8> {
    let mut records = mutate::split(sheet);
    let points = records.iter_mut().filter(|record| is_point(record));
    for (record, owner) in points.zip(owners) {
        if let (7, Some(owner)) = (record.len(), owner) {
            record[0] = 20;
            record.extend((*owner as u16).to_le_bytes());
        }
    }
    records.concat()
}

/// A sheet with right owners for as many points as can have them.
pub fn rightly_owned(sheet: &[u8], random: &mut Random) -> Vec<u8> {
    match naive::read_sheet(&FOUR, sheet) {
        Ok(parts) => give(sheet, &right(&parts, random)),
        Err(_) => sheet.to_vec(),
    }
}

/// A sheet for an instrument whose points all have a method as owner, now and then the
/// wrong one; one that is refused for another reason has no owners.
pub fn all_owned(on: &Instrument, random: &mut Random) -> Vec<u8> {
    let mut draft = match *on == FOUR {
        true => channels::draft(random),
        false => either_edition(random),
    };
    if random.once_in(2) {
        spoil(&mut draft, random);
    }
    let sheet = draft.certified();
    let Ok(parts) = naive::read_sheet(&FOUR, &sheet) else { return sheet };
    let mut owners = right(&parts, random);
    if random.once_in(2) {
        owners[random.below(parts.points.len())] = None;
    }
    for owner in owners.iter_mut().filter(|owner| owner.is_none()) {
        *owner = Some(random.below(parts.methods.len()));
    }
    give(&sheet, &owners)
}

/// A sheet with owners for all points or for some, right or wrong; now and then with a
/// step that was pasted, with points more, which nothing names, cut behind the points, or
/// otherwise changed.
pub fn owned(sheet: &[u8], random: &mut Random) -> Vec<u8> {
    let parts = naive::read_sheet(&FOUR, sheet).unwrap_or_default();
    let methods = parts.methods.len();
    let mut owners = match random.below(8) {
        0 => (0..FOUR.points).map(|_| some_number(methods, random)).collect(),
        _ if methods == 0 => (0..FOUR.points).map(|_| Some(random.below(2))).collect(),
        _ => right(&parts, random),
    };
    if random.once_in(3) {
        owners.iter_mut().filter(|_| random.once_in(2)).for_each(|owner| *owner = None);
    }
    if let (Some(point), true) = (some_point(&parts, random), random.once_in(2)) {
        owners[point] = Some(number(methods, random));
    }
    let mut sheet = give(sheet, &owners);
    if random.once_in(4) {
        sheet = pasted(&sheet, parts.points.len(), random);
    }
    if random.once_in(3) {
        sheet = more_points(&sheet, methods, random);
    }
    match random.below(12) {
        0 | 1 => mutate::mutate(&sheet, random),
        2 => cut(&sheet, random),
        _ => sheet,
    }
}

/// Owners by which no record is refused: points that steps join have one, and a method's
/// points have the method's number. Where methods share such points, some have none.
pub fn right(sheet: &Sheet, random: &mut Random) -> Owners {
    let groups = groups(sheet);
    let named = named(sheet);
    let methods = |group: usize| {
        let here = (0..groups.len()).filter(|&point| groups[point] == group);
        let mut methods: Vec<usize> = here.flat_map(|point| named[point].clone()).collect();
        methods.sort();
        methods.dedup();
        methods
    };
    let found: Vec<Vec<usize>> = (0..groups.len()).map(methods).collect();
    let unnamed: Owners = groups.iter().map(|_| Some(random.below(sheet.methods.len()))).collect();
    let owner = |(point, &group): (usize, &usize)| match (&found[group][..], &named[point][..]) {
        ([], _) => unnamed[group],
        ([one], _) | (_, [one]) => Some(*one),
        _ => None,
    };
    let mut owners: Owners = groups.iter().enumerate().map(owner).collect();
    for step in &sheet.steps {
        let joined = [Some(step.from), step.to, step.failed];
        let mut known: Vec<usize> = joined.iter().flatten().filter_map(|&p| owners[p]).collect();
        known.dedup();
        if known.len() > 1 {
            joined.iter().flatten().for_each(|&point| owners[point] = None);
        }
    }
    owners
}

/// By point, the lowest point that steps join it with, over any number of them.
fn groups(sheet: &Sheet) -> Vec<usize> {
    let mut groups: Vec<usize> = (0..sheet.points.len()).collect();
    let targets = |step: &Step| [step.to, step.failed].into_iter().flatten();
    let pairs = sheet.steps.iter().flat_map(|step| targets(step).map(|to| (step.from, to)));
    for (from, to) in pairs {
        let (one, two) = (groups[from], groups[to]);
        let joined = groups.iter_mut().filter(|group| **group == one.max(two));
        joined.for_each(|group| *group = one.min(two));
    }
    groups
}

/// By point, the methods of which it is the entry or an exit, each once.
fn named(sheet: &Sheet) -> Vec<Vec<usize>> {
    let mut named = vec![vec![]; sheet.points.len()];
    for (number, method) in sheet.methods.iter().enumerate() {
        let endings = [Some(&method.normal), method.failed.as_ref()].into_iter().flatten();
        let points = method.entry.into_iter().chain(endings.filter_map(|ending| ending.exit));
        points.for_each(|point| named[point].push(number));
    }
    named.iter_mut().for_each(Vec::dedup);
    named
}

/// A point at random, mostly one that no method names.
fn some_point(sheet: &Sheet, random: &mut Random) -> Option<usize> {
    let named = named(sheet);
    let unnamed: Vec<usize> = (0..named.len()).filter(|&point| named[point].is_empty()).collect();
    match (named.len(), unnamed.len()) {
        (0, _) => None,
        (_, 1..) if !random.once_in(3) => Some(unnamed[random.below(unnamed.len())]),
        (points, _) => Some(random.below(points)),
    }
}

/// An owner at random: some method, or the number behind the last, or a higher one.
fn number(methods: usize, random: &mut Random) -> usize {
    match random.below(10) {
        0..=4 => random.below(methods),
        5 | 6 => methods,
        7 => methods + 1 + random.below(3),
        8 => 256 + random.below(methods),
        _ => HIGHEST,
    }
}

/// The same, mostly method 0, and now and then none.
fn some_number(methods: usize, random: &mut Random) -> Option<usize> {
    match random.below(8) {
        0 => None,
        1 => Some(number(methods, random)),
        _ => Some(0),
    }
}

/// The sheet up to its last point, or up to the first or the second record behind it.
fn cut(sheet: &[u8], random: &mut Random) -> Vec<u8> {
    let mut records = mutate::split(sheet);
    let points = records.iter().rposition(|record| is_point(record)).map_or(0, |i| i + 1);
    records.truncate(points + random.below(3));
    records.concat()
}

/// A step stands once more, with other names, which are those of points.
fn pasted(sheet: &[u8], points: usize, random: &mut Random) -> Vec<u8> {
    let mut records = mutate::split(sheet);
    let step = |&number: &usize| matches!(records[number][0], 10 | 11 | 12 | 17 | 22);
    let steps: Vec<usize> = (0..records.len()).filter(step).collect();
    if steps.is_empty() || points == 0 {
        return sheet.to_vec();
    }
    let which = steps[random.below(steps.len())];
    let mut step = records[which].clone();
    for name in step[1..].chunks_exact_mut(2) {
        if random.once_in(3) {
            name.copy_from_slice(&(random.below(points) as u16).to_le_bytes());
        }
    }
    records.insert(which, step);
    records.concat()
}

/// Up to three points behind the last one.
fn more_points(sheet: &[u8], methods: usize, random: &mut Random) -> Vec<u8> {
    let mut records = mutate::split(sheet);
    let Some(last) = records.iter().rposition(|record| is_point(record)) else {
        return sheet.to_vec();
    };
    for _ in 0..1 + random.below(3) {
        let mut point = records[last].clone();
        point.resize(7, 0);
        point[0] = 7;
        if !random.once_in(4) {
            point[0] = 20;
            point.extend((number(methods, random) as u16).to_le_bytes());
        }
        records.insert(last + 1, point);
    }
    records.concat()
}
