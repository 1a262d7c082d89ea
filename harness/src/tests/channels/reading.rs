//! The records of kind 22, and what 26 is about.
use super::{call, four_methods, hex, judged, names, refused, CALLED};
use crate::answer::{Counts, Refusal, Verdict};
use crate::instrument::{FOUR, LARGE, TWO_CHANNELS};
use crate::random::Random;
use crate::smaller::{way, Way};
use crate::tests::{every, loads_on, tests_on, BODY, PAIR, POINT};
use crate::{reference, sheets};
use std::collections::BTreeMap;

#[test]
fn body_length() {
    let front = four_methods();
    let at = hex(&front).len();
    for shorter in 0..7 {
        refused(&format!("16 {}", "00".repeat(shorter)), "refused 3 at 0");
        refused(&format!("{front} 16 {}", "00".repeat(shorter)), &format!("refused 3 at {at}"));
    }
    refused("16 0000 0000 0000 00", "refused 7 at 0");
    // The next record is behind the body.
    let call = call(0, 0, CALLED, 0);
    refused(&format!("{front} {call} FF"), &format!("refused 2 at {}", at + 8));
    refused(&format!("{front} {call} {call} FF"), &format!("refused 2 at {}", at + 16));
}

/// Before 3 and 4, on an instrument of two channels.
#[test]
fn no_kind_of_two_channels() {
    let front = four_methods();
    for (front, at) in [("", 0), ("02", 1), ("02 06", 2), (&front[..], hex(&front).len())] {
        for call in ["16".to_string(), call(0, 0, CALLED, 0), call(9, 9, 9, 9)] {
            for on in TWO_CHANNELS {
                let sheet = hex(&format!("{front} {call}"));
                loads_on(&on, &sheet, &format!("refused 2 at {at}"));
                tests_on(&on, &sheet, 9, &[99; 5_000], &format!("refused 2 at {at}"));
            }
        }
    }
}

/// It is a step.
#[test]
fn sections() {
    let call = call(0, 0, CALLED, 3);
    let front = four_methods();
    for other in ["0A 0000 0000 3F", "0B 0000 0000 0000", "0C 0000 0000", "11 0000 0000 0000 0200"]
    {
        judged(&format!("{front} {other}"), &call, other, None);
    }
    judged("02", &call, "", Some(4));
    for front in [format!("{front} 0E"), format!("{front} {PAIR}")] {
        judged(&front, &call, "", Some(4));
    }
    for record in ["02", "15 00000000 00000000", "12", POINT, BODY] {
        judged(&format!("{front} {call}"), record, "", Some(4));
    }
    let edition = format!("12 {front} {call} 13 0000");
    judged(&edition, &call, "", None);
}

/// 7 judges from, to and method, each with its bound, and not the channel.
#[test]
fn names_of_a_call() {
    let front = format!("02 06 {} {BODY} 08 0000 0000 0000", POINT.repeat(3));
    for channel in [0, 3, 4, 255] {
        for (field, bound) in [3, 3, 2].into_iter().enumerate() {
            for (name, known) in [(bound - 1, true), (bound, false), (256, false), (65_535, false)]
            {
                let mut fields = [0, 0, CALLED];
                fields[field] = name;
                let record = format!("16 {} {channel:02X}", names(&fields));
                let number = match (known, channel > 3) {
                    (false, _) => Some(7),
                    (true, true) => Some(26),
                    (true, false) => None,
                };
                judged(&front, &record, "", number);
            }
        }
    }
}

/// Each method with each of the 256 channels.
#[test]
fn methods_and_channels() {
    for method in 0..4 {
        for channel in 0..=255 {
            let taken = method == CALLED && channel < 4;
            judged(&four_methods(), &call(0, 0, method, channel), "", (!taken).then_some(26));
        }
    }
}

/// It counts among the 512 steps; 6 comes before 7 and 26.
#[test]
fn limits() {
    let (front, pass, good) = (four_methods(), "0C 0000 0000", call(0, 0, CALLED, 2));
    for (calls, passes) in [(512, 0), (256, 256), (1, 511)] {
        let front = format!("{front} {} {}", good.repeat(calls), pass.repeat(passes));
        let whole = hex(&front).len();
        refused(&front, &format!("refused 10 at {whole}"));
        for last in [good.clone(), call(9, 9, 9, 9), call(0, 0, 0, 0), pass.to_string()] {
            judged(&front, &last, "", Some(6));
        }
    }
}

#[test]
fn tally() {
    let call = call(0, 0, CALLED, 1);
    let sheet = hex(&format!("{} {call} 0C 0000 0000 {call} 0E", four_methods()));
    let counts = Counts { conditions: 1, points: 1, methods: 4, steps: 3, certificates: 1 };
    for doors in every() {
        assert_eq!((doors.read)(&FOUR, &sheet), Ok(counts), "{}", doors.name);
    }
    tests_on(&FOUR, &sheet, 0, &[], "yes");
    tests_on(&FOUR, &sheet, 0, &[63], "no 0");
}

/// A sheet without kinds 21 and 22 and events above 31 has one answer on the large and
/// the four-channel instrument; so has a word. The others are refused 2, 7 or 13.
#[test]
fn the_large_instruments_answer() {
    let mut random = Random::new(111);
    let mut seen: BTreeMap<String, usize> = BTreeMap::new();
    for _ in 0..3_000 {
        let sheet = sheets::sheet(&mut random);
        let words = sheets::words(&sheet, &mut random);
        for doors in every() {
            let [one, two] = [LARGE, FOUR].map(|on| (doors.load)(&on, &sheet));
            let found = way(&[LARGE, FOUR], &sheet, &[], one.refusal(), one == two);
            let found = found.unwrap_or_else(|| panic!("{}: {one}, {two}", doors.name));
            *seen.entry(format!("load {found:?}")).or_default() += 1;
            for test in &words {
                let [one, two] = [LARGE, FOUR]
                    .map(|on| (doors.word_test)(&on, &sheet, test.condition, &test.word));
                let found = way(&[LARGE, FOUR], &sheet, &test.word, one.refusal(), one == two);
                let found = found.unwrap_or_else(|| panic!("{}: {one}, {two}", doors.name));
                *seen.entry(format!("word {found:?}")).or_default() += 1;
            }
        }
    }
    for way in [Way::LaterKind, Way::LaterEvent, Way::Same] {
        for what in ["load", "word"] {
            let count = seen.get(&format!("{what} {way:?}")).copied().unwrap_or(0);
            assert!(count > 20, "{seen:?}");
        }
    }
    assert_eq!(seen.len(), 6, "{seen:?}");
}

/// Leaves of 8 bytes in place of such of 4 change no answer but the places in it.
#[test]
fn longer_leaves() {
    let mut random = Random::new(112);
    let mut seen = [0; 2];
    while seen.iter().any(|&count| count < 100) {
        let sheet = sheets::sheet(&mut random);
        let longer = sheets::longer_leaves(&sheet, &mut random);
        if longer.len() == sheet.len() || longer.len() > FOUR.bytes {
            continue;
        }
        for doors in every() {
            let [one, two] = [&sheet, &longer].map(|sheet| (doors.load)(&FOUR, sheet));
            match (one, two) {
                (Verdict::Refused(one), Verdict::Refused(two)) => {
                    assert_eq!(one.number, two.number, "{}", doors.name)
                }
                _ => assert_eq!(one, two, "{}", doors.name),
            }
            seen[matches!(one, Verdict::Unproved { .. }) as usize] +=
                !matches!(one, Verdict::Refused(_)) as usize;
        }
    }
}

/// Random sheets are refused with 26 for each reason, 7 and 13 for events from 64 on; and
/// such with calls by each channel are accepted and unproved.
#[test]
fn random_sheets() {
    let mut random = Random::new(113);
    let mut seen: BTreeMap<String, usize> = BTreeMap::new();
    for _ in 0..8_000 {
        let sheet = sheets::sheet(&mut random);
        let what = match reference::load(&FOUR, &sheet) {
            Verdict::Refused(Refusal { number: 26, place: Some(at) }) if sheet[at + 7] > 3 => {
                "26 of a channel".to_string()
            }
            Verdict::Refused(refusal) => refusal.number.to_string(),
            Verdict::Accepted(_) if sheets::has_channel(&sheet) => "accepted".to_string(),
            Verdict::Unproved { rule, fault, .. } if fault.event > 31 => {
                *seen.entry("event above 31".to_string()).or_default() += 1;
                format!("rule {rule}")
            }
            Verdict::Unproved { rule, .. } if sheets::has_channel(&sheet) => format!("rule {rule}"),
            _ => continue,
        };
        *seen.entry(what).or_default() += 1;
    }
    let rules = (10..=14).map(|rule| format!("rule {rule}"));
    for what in ["26", "26 of a channel", "accepted", "event above 31"].map(str::to_string) {
        assert!(seen.get(&what).is_some_and(|&count| count > 20), "{what}: {seen:?}");
    }
    for what in rules {
        assert!(seen.get(&what).is_some_and(|&count| count > 5), "{what}: {seen:?}");
    }
}
