//! Small changes to a sheet.
use super::stray::BODY;
use crate::instrument::KINDS;
use crate::random::Random;

type Records = Vec<Vec<u8>>;

pub fn mutate(sheet: &[u8], random: &mut Random) -> Vec<u8> {
    let mut records = split(sheet);
    match random.below(22) {
        0 => return change_bytes(sheet, random),
        1 => return sheet[..random.below(sheet.len())].to_vec(),
        2 => change_name(&mut records, random),
        3 => swap(&mut records, random),
        4 => drop_or_repeat(&mut records, random),
        5 => certificates_more_or_fewer(&mut records, random),
        6 => events_at_the_bound(&mut records, random),
        15 => other_outcomes(&mut records, random),
        16 => other_edition(&mut records, random),
        17 | 18 => more_or_fewer_stops(&mut records, random),
        19 | 20 => other_channels(&mut records, random),
        21 => other_leaves(&mut records, random),
        kind => change_certificate(&mut records, random, kind),
    }
    records.concat()
}

/// The records of a sheet; what follows a fault is one piece.
pub fn split(sheet: &[u8]) -> Records {
    let mut records = vec![];
    let mut at = 0;
    while at < sheet.len() {
        let length = match sheet[at] {
            kind @ 1..=KINDS => 1 + BODY[kind as usize],
            _ => sheet.len(),
        };
        let next = (at + length).min(sheet.len());
        records.push(sheet[at..next].to_vec());
        at = next;
    }
    records
}

/// Whether a record is a whole point.
pub fn is_point(record: &[u8]) -> bool {
    matches!(record[0], 7 | 20) && record.len() == 1 + BODY[record[0] as usize]
}

fn change_bytes(sheet: &[u8], random: &mut Random) -> Vec<u8> {
    let mut out = sheet.to_vec();
    for _ in 0..1 + random.below(3) {
        if out.is_empty() {
            break;
        }
        let at = random.below(out.len());
        out[at] = match random.below(3) {
            0 => random.byte(),
            1 => random.below(KINDS as usize + 2) as u8,
            _ => out[at] ^ 1 << random.below(8),
        };
    }
    out
}

/// Another name, event or leaf in a record.
fn change_name(records: &mut Records, random: &mut Random) {
    let names = |record: &Vec<u8>| !matches!(record[0], 13 | 14) && record.len() > 1;
    let named: Vec<usize> = (0..records.len()).filter(|&i| names(&records[i])).collect();
    if named.is_empty() {
        return;
    }
    let record = &mut records[named[random.below(named.len())]];
    let at = 1 + random.below(record.len() - 1);
    let top = [4, 4, 34, 66][random.below(4)];
    record[at] = random.below(top) as u8;
}

/// A method or a call gets one outcome for two, or two for one.
fn other_outcomes(records: &mut Records, random: &mut Random) {
    let whole = |record: &Vec<u8>| BODY.get(record[0] as usize) == Some(&(record.len() - 1));
    let changes = |record: &Vec<u8>| matches!(record[0], 8 | 9 | 11 | 15..=17) && whole(record);
    let changing: Vec<usize> = (0..records.len()).filter(|&i| changes(&records[i])).collect();
    if changing.is_empty() {
        return;
    }
    let record = &mut records[changing[random.below(changing.len())]];
    let mut name = || [random.below(3) as u8, 0];
    record[0] = match record[0] {
        8 | 9 => {
            let more = if record[0] == 8 { 2 } else { 3 };
            (0..more).for_each(|_| record.extend(name()));
            if more == 2 {
                15
            } else {
                16
            }
        }
        11 => {
            record.splice(5..5, name());
            17
        }
        15 => {
            record.truncate(7);
            8
        }
        16 => {
            record.truncate(11);
            9
        }
        _ => {
            record.drain(5..7);
            11
        }
    };
}

/// The edition's record is dropped, or stands somewhere, mostly in front.
fn other_edition(records: &mut Records, random: &mut Random) {
    let new = records.first().is_some_and(|record| record[0] == 18);
    if new && random.once_in(2) {
        records.remove(0);
        return;
    }
    let conditions = records.iter().position(|record| is_point(record)).unwrap_or(0);
    let place = match random.below(4) {
        0 => random.below(records.len() + 1),
        1 => random.below(conditions + 1),
        _ => new as usize,
    };
    records.insert(place, vec![18]);
}

/// A stop more, mostly among the steps, or fewer.
fn more_or_fewer_stops(records: &mut Records, random: &mut Random) {
    let stop = records.iter().position(|record| record[0] == 19);
    if let (Some(which), true) = (stop, random.once_in(3)) {
        records.remove(which);
        return;
    }
    let before = |kinds: &[u8]| records.iter().rposition(|record| kinds.contains(&record[0]));
    let methods = before(&[8, 9, 15, 16]).map_or(0, |i| i + 1);
    let steps = before(&[10, 11, 12, 17, 19, 22]).map_or(0, |i| i + 1);
    let place = match random.below(6) {
        0 => random.below(records.len() + 1),
        _ => methods + random.below(steps.max(methods) - methods + 1),
    };
    let points = records.iter().filter(|record| is_point(record)).count();
    let point = if random.once_in(8) { points } else { random.below(points) };
    records.insert(place, [&[19], &(point as u16).to_le_bytes()[..]].concat());
}

/// A call gets a channel, another one, or loses its channel; now and then one that does
/// not exist, or another method.
fn other_channels(records: &mut Records, random: &mut Random) {
    let call = |record: &Vec<u8>| matches!((record[0], record.len()), (11, 7) | (22, 8));
    let calls: Vec<usize> = (0..records.len()).filter(|&i| call(&records[i])).collect();
    if calls.is_empty() {
        return;
    }
    let record = &mut records[calls[random.below(calls.len())]];
    let channel = match random.below(6) {
        0 => 4 + random.below(2) as u8,
        1 => random.byte(),
        _ => random.below(4) as u8,
    };
    match (record[0], random.below(4)) {
        (22, 0) => {
            record.truncate(7);
            record[0] = 11;
        }
        (22, 1) => record[5] = random.below(4) as u8,
        (22, _) => record[7] = channel,
        _ => {
            record.push(channel);
            record[0] = 22;
        }
    }
}

/// Leaves get a set of 8 bytes for one of 4, or of 4 for one of 8, or other events.
fn other_leaves(records: &mut Records, random: &mut Random) {
    for record in records.iter_mut() {
        match (record[0], record.len()) {
            _ if random.once_in(2) => {}
            (1, 5) => {
                record[0] = 21;
                let high = if random.once_in(2) { 0 } else { random.next() as u32 };
                record.extend(high.to_le_bytes());
            }
            (21, 9) if random.once_in(2) => {
                record[0] = 1;
                record.truncate(5);
            }
            (21, 9) => record[1 + random.below(8)] ^= 1 << random.below(8),
            _ => {}
        }
    }
}

/// Event steps get one of the last events, or the number after them.
fn events_at_the_bound(records: &mut Records, random: &mut Random) {
    for record in records.iter_mut().filter(|record| record[0] == 10) {
        if record.len() == 6 && random.once_in(2) {
            record[5] = [30, 62][random.below(2)] + random.below(3) as u8;
        }
    }
}

fn swap(records: &mut Records, random: &mut Random) {
    let (a, b) = (random.below(records.len()), random.below(records.len()));
    if !records.is_empty() {
        let near = (a + 1) % records.len();
        let b = if random.once_in(2) { b } else { near };
        records.swap(a, b);
    }
}

fn drop_or_repeat(records: &mut Records, random: &mut Random) {
    if records.is_empty() {
        return;
    }
    let which = random.below(records.len());
    if random.once_in(2) {
        records.remove(which);
    } else {
        let again = records[which].clone();
        records.insert(which, again);
    }
}

fn certificates_more_or_fewer(records: &mut Records, random: &mut Random) {
    let all = certificates(records);
    if all.is_empty() || random.once_in(2) {
        records.push(vec![14]);
    } else {
        let (start, end) = all[random.below(all.len())];
        records.drain(start..=end);
    }
}

/// First pair and end record of each certificate.
fn certificates(records: &Records) -> Vec<(usize, usize)> {
    let mut found = vec![];
    let mut start = None;
    for (i, record) in records.iter().enumerate() {
        match record[0] {
            13 => start = start.or(Some(i)),
            14 => found.push((start.take().unwrap_or(i), i)),
            _ => {}
        }
    }
    found
}

fn change_certificate(records: &mut Records, random: &mut Random, kind: usize) {
    let all = certificates(records);
    if all.is_empty() {
        return;
    }
    let (start, end) = all[random.below(all.len())];
    if start == end {
        return;
    }
    let which = start + random.below(end - start);
    match kind {
        7 => random.shuffle(&mut records[start..end]),
        8 => random.shuffle(&mut records[start + 1..end]),
        9 => {
            records.remove(which);
        }
        10 => change_place(&mut records[which], random),
        11 => change_set(&mut records[which], random),
        12 | 13 => {
            // A pair with more right places is as good as the one it is made of.
            let mut more = records[which].clone();
            if more.len() == 6 {
                more[2] |= random.byte() & random.byte();
            }
            records.insert(start + 1 + random.below(end - start), more);
        }
        _ => {
            let mut other = records[which].clone();
            change_place(&mut other, random);
            change_set(&mut other, random);
            records.insert(start + 1 + random.below(end - start), other);
        }
    }
}

fn change_place(pair: &mut [u8], random: &mut Random) {
    if pair.len() == 6 {
        let top = if random.once_in(8) { 256 } else { 6 };
        pair[1] = random.below(top) as u8;
    }
}

fn change_set(pair: &mut [u8], random: &mut Random) {
    if pair.len() == 6 {
        match random.below(5) {
            0 => pair[5] ^= 0x80,
            1 => pair[2] &= random.byte(),
            2 => pair[2..].fill(0),
            3 => pair[2 + random.below(4)] ^= 1 << random.below(8),
            _ => pair[2] ^= 1 << random.below(4),
        }
    }
}
