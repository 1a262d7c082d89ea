//! Clauses 1 to 4 of one certificate.
use super::events::Events;
use super::places::{members, Side};
use super::search::Search;
use crate::answer::Fault;

/// No side has this place, so it stands for every place too large.
const NOWHERE: u8 = 63;

/// A certificate of as many pairs is searched by looking at all.
const FEW: usize = 64;

/// A pair, with the events that every place of its set holds.
#[derive(Clone, Copy)]
pub struct Pair<E> {
    pub place: u8,
    pub set: u32,
    pub shared: E,
}

/// Reads the certificate at an offset; returns the offset after it.
pub fn read<E: Events>(
    bytes: &[u8],
    mut at: usize,
    right: &Side<E>,
    pairs: &mut Vec<Pair<E>>,
) -> usize {
    pairs.clear();
    while bytes[at] == 13 {
        let set = [bytes[at + 2], bytes[at + 3], bytes[at + 4], bytes[at + 5]];
        let set = u32::from_le_bytes(set);
        let shared = members(set as u64).fold(E::ALL, |all, k| all & right.sets[k]);
        pairs.push(Pair { place: bytes[at + 1].min(NOWHERE), set, shared });
        at += 6;
    }
    at + 1
}

/// The first fault of a certificate for left in right.
pub fn check<E: Events>(left: &Side<E>, right: &Side<E>, pairs: &[Pair<E>]) -> Result<(), Fault> {
    if pairs.len() <= FEW {
        return check_by(left, right, pairs, |follow, union| unserved(left, follow, union, pairs));
    }
    let mut search = Search::new(left, right, pairs);
    check_by(left, right, pairs, |follow, union| search.unserved(follow, union))
}

/// The same with a search for clause 4.
fn check_by<E: Events>(
    left: &Side<E>,
    right: &Side<E>,
    pairs: &[Pair<E>],
    mut unserved: impl FnMut(u64, u32) -> Option<(usize, usize)>,
) -> Result<(), Fault> {
    match pairs.first() {
        Some(first) if first.place == 0 && first.set == 1 => {}
        _ => return Err(Fault::of(1, 0)),
    }
    let mut known = (0, 0);
    for (index, pair) in pairs.iter().enumerate() {
        let place = pair.place as usize;
        if place >= left.places || pair.set as u64 >> right.places != 0 {
            return Err(Fault::of(2, index));
        }
        if left.ends >> place & 1 == 1 && right.ends & pair.set as u64 == 0 {
            return Err(Fault::of(3, index));
        }
        let union = right.followers(pair.set as u64) as u32;
        let follow = left.follow[place];
        if follow & !known.0 == 0 && known.1 & !union == 0 {
            continue;
        }
        known = (follow, union);
        if let Some((event, place)) = unserved(follow, union) {
            return Err(Fault { clause: 4, pair: index, event, place });
        }
    }
    Ok(())
}

/// Clause 4 of a pair, given the followers of its place and of its set. A
/// listed set serves an event if it lies within the followers of the pair's
/// set and each of its places holds the event.
fn unserved<E: Events>(
    left: &Side<E>,
    follow: u64,
    union: u32,
    pairs: &[Pair<E>],
) -> Option<(usize, usize)> {
    let mut missing = [E::NONE; 64];
    let mut open = 0;
    for place in members(follow) {
        missing[place] = left.sets[place];
        open += (left.sets[place] != E::NONE) as usize;
    }
    if open == 0 {
        return None;
    }
    for pair in pairs {
        let wanted = &mut missing[(pair.place & 63) as usize];
        if *wanted & pair.shared != E::NONE && pair.set & !union == 0 {
            *wanted &= !pair.shared;
            if *wanted == E::NONE {
                open -= 1;
                if open == 0 {
                    return None;
                }
            }
        }
    }
    let first = |place: usize| (missing[place].first(), place);
    members(follow).map(first).min()
}
