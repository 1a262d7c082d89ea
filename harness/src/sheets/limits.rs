//! Sheets around the limits of the entry instrument, and limits around a sheet.
use super::draft::{certificate, Draft, Method, Step};
use super::honest::{fitted, random_step};
use super::mutate::{is_point, mutate, split};
use super::owners::{give, right, Owners};
use super::stopping::either_edition;
use crate::answer::Refusal;
use crate::instrument::{Instrument, ENTRY, FOUR};
use crate::random::Random;
use crate::tree::Tree;
use crate::{naive, reference};

/// A sheet with about as many points as the entry instrument takes, about as many
/// bytes, or both; now and then at fault.
pub fn around_entry(random: &mut Random) -> Vec<u8> {
    let (many_points, many_bytes) = (!random.once_in(3), !random.once_in(3));
    let points = near(ENTRY.points, random);
    let mut draft = match (many_points, random.below(3)) {
        (true, 0) => crowded(points, random),
        _ => either_edition(random),
    };
    if many_points {
        more_points(&mut draft, points, random);
    }
    let owners = if random.once_in(3) { right_owners(&draft, random) } else { vec![] };
    let more = 2 * owners.iter().flatten().count();
    let sheet = match many_bytes {
        true => of_length(&draft, near(ENTRY.bytes, random) - more, random),
        false => draft.certified(),
    };
    let sheet = give(&sheet, &owners);
    match random.below(6) {
        0 => mutate(&sheet, random),
        1 => misname(&sheet, random),
        _ => sheet,
    }
}

fn right_owners(draft: &Draft, random: &mut Random) -> Owners {
    naive::read_sheet(&FOUR, &draft.bytes()).map_or(vec![], |parts| right(&parts, random))
}

/// A number around a limit, seldom one far above.
fn near(limit: usize, random: &mut Random) -> usize {
    match random.below(8) {
        0 => limit + random.below(limit),
        _ => limit - 2 + random.below(4),
    }
}

/// A draft whose points hold every word, with steps between any of them.
fn crowded(points: usize, random: &mut Random) -> Draft {
    let any = Tree::any();
    let mut draft = Draft { new_edition: random.once_in(2), ..Draft::default() };
    for _ in 0..points {
        draft.point(&any, &any, &any);
    }
    for _ in 0..1 + random.below(3) {
        let (conditions, exits) = if random.once_in(2) { (3, 1) } else { (5, 2) };
        let places: Vec<usize> = (0..1 + exits).map(|_| random.below(points)).collect();
        draft.methods.push(Method::new(&vec![0; conditions], &places));
    }
    for _ in 0..random.below(60) {
        let step = match random_step(random, points, draft.methods.len()) {
            Step::Event(from, to, _) => Step::Event(from, to, random.below(32) as u8),
            Step::Pass(from, _) if draft.new_edition && random.once_in(2) => Step::Stop(from),
            step => fitted(step, &draft.methods, points, random),
        };
        draft.steps.push(step);
    }
    draft
}

/// Adds points that nothing names, up to a number, and puts all in another order.
fn more_points(draft: &mut Draft, points: usize, random: &mut Random) {
    let conditions = draft.conditions.len();
    while draft.points.len() < points {
        draft.points.push([0; 3].map(|_| random.below(conditions)));
    }
    let mut number: Vec<usize> = (0..draft.points.len()).collect();
    random.shuffle(&mut number);
    for (old, point) in draft.points.clone().into_iter().enumerate() {
        draft.points[number[old]] = point;
    }
    for point in draft.methods.iter_mut().flat_map(|method| method.points.iter_mut()) {
        *point = number[*point];
    }
    for step in &mut draft.steps {
        match step {
            Step::Event(p, q, _)
            | Step::Call(p, q, _)
            | Step::Pass(p, q)
            | Step::Channel(p, q, _, _) => {
                (*p, *q) = (number[*p], number[*q]);
            }
            Step::Failing(p, q, f, _) => {
                (*p, *q, *f) = (number[*p], number[*q], number[*f]);
            }
            Step::Stop(p) => *p = number[*p],
        }
    }
}

/// The sheet of a draft, brought to a length by pairs that are written again and a
/// condition that nothing names; what the draft has it accepted or not. A sheet that
/// is too long for that, or by one byte too short, stays as it is.
pub fn of_length(draft: &Draft, length: usize, random: &mut Random) -> Vec<u8> {
    let sheet = draft.certified();
    let left = length.saturating_sub(sheet.len());
    let Ok(parts) = naive::read_sheet(&FOUR, &sheet) else { return sheet };
    if left < 2 {
        return sheet;
    }
    // The condition takes two bytes or more.
    let pairs = (left / 6).saturating_sub((left % 6 == 1) as usize);
    let mut draft = draft.clone();
    if let Some(stars) = (left - 6 * pairs).checked_sub(2) {
        draft.conditions.push((0..stars).fold(Tree::Empty, |tree, _| tree.star()));
    }
    let mut lists = parts.certificates;
    let count = lists.len();
    for _ in 0..pairs {
        let list = &mut lists[random.below(count)];
        let again = list[random.below(list.len())];
        list.insert(1 + random.below(list.len()), again);
    }
    let mut out = draft.bytes();
    lists.iter().for_each(|pairs| certificate(&mut out, pairs));
    out
}

/// A name that does not exist, in the first point that is too many or beside it.
fn misname(sheet: &[u8], random: &mut Random) -> Vec<u8> {
    let mut records = split(sheet);
    if let Err(Refusal { number: 6, place: Some(at) }) = reference::read(&ENTRY, sheet) {
        let which = split(&sheet[..at]).len() - 1 + random.below(3);
        if let Some(record) = records.get_mut(which).filter(|record| is_point(record)) {
            record[1 + 2 * random.below(3)] = 255;
        }
    }
    records.concat()
}

/// The most points of an instrument with random limits.
const MOST_POINTS: usize = 600;

/// Highest kinds and numbers of events, ascending. Kinds 21 and 22 are for 64 events.
const LEVELS: [(u8, u8); 4] = [(20, 32), (20, 45), (20, 64), (22, 64)];

/// Two instruments with limits around what a sheet has, the first no larger.
pub fn limits(sheet: &[u8], random: &mut Random) -> [Instrument; 2] {
    let (points, _) = super::points(sheet);
    let mut bytes = [0; 2].map(|_| about(sheet.len(), random));
    let mut points = [0; 2].map(|_| about(points, random).min(MOST_POINTS));
    let mut levels = [0; 2].map(|_| LEVELS[random.below(LEVELS.len())]);
    bytes.sort();
    points.sort();
    levels.sort();
    // The reference takes no more with kinds 21 and 22.
    let most = if levels[1] == LEVELS[3] { FOUR.bytes } else { usize::MAX };
    [0, 1].map(|i| {
        let (kinds, events) = levels[i];
        Instrument::of(bytes[i].min(most), points[i]).with(kinds, events)
    })
}

fn about(number: usize, random: &mut Random) -> usize {
    match random.below(6) {
        0 => random.below(2 * number + 2),
        1 => number.saturating_sub(1),
        2 => number + 1,
        _ => number,
    }
}
