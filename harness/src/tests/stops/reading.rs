//! The records of kinds 18 and 19, and refusals 19 and 20.
use crate::answer::{Counts, Refusal, Verdict};
use crate::instrument::{ALL, FORMER_KINDS, LARGE};
use crate::naive::{self, Act};
use crate::random::Random;
use crate::sheets::{self, Step};
use crate::tests::{every, hex, loads_on, refused, tests_on, BODY, BOTH as LOADERS, PAIR, POINT};

const PASS: &str = "0C 0000 0000";
const STOP: &str = "13 0000";
/// Of a point that does not exist.
const STRAY_STOP: &str = "13 0100";

/// One condition, one point and one method with body, in 20 bytes.
fn old() -> String {
    format!("02 06 {POINT} {BODY}")
}

/// The same of the new edition.
fn new() -> String {
    format!("12 {}", old())
}

#[test]
fn body_lengths() {
    for (text, at) in [("13", 0), ("13 00", 0), ("12 13", 1), ("12 13 00", 1), ("12 01", 1)] {
        refused(text, &format!("refused 3 at {at}"));
    }
    for cut in ["13", "13 00"] {
        refused(&format!("{} {cut}", old()), "refused 3 at 20");
        refused(&format!("{} {cut}", new()), "refused 3 at 21");
    }
    // The next record is behind the body.
    refused("12 FF", "refused 2 at 1");
    refused(&format!("{} {STOP} FF", new()), "refused 2 at 24");
}

#[test]
fn kinds() {
    for kinds in FORMER_KINDS.into_iter().filter(|&kinds| kinds < 18) {
        for (text, at) in
            [("12", 0), ("13 0000", 0), ("02 06 12", 2), ("02 12", 1), ("02 06 13", 2)]
        {
            for on in ALL {
                for doors in LOADERS {
                    let refusal = (doors.read)(&on.former(kinds), &hex(text));
                    assert_eq!(refusal, Err(Refusal::at(2, at)), "{}", doors.name);
                }
            }
        }
    }
}

#[test]
fn the_edition_in_front() {
    refused("12", "refused 9 at 1");
    refused("12 02", "refused 8 at 2");
    refused("12 02 06", "refused 9 at 3");
    refused("12 03", "refused 5 at 1");
    refused("12 06", "refused 5 at 1");
    refused("12 0E", "refused 9 at 2");
    refused(&format!("12 {PAIR}"), "refused 8 at 7");
    refused(&format!("12 {POINT}"), "refused 7 at 1");
    // It is no condition, and no record of one.
    let leaves = |count: usize| format!("01 FFFFFFFF {}", "01 FFFFFFFF 04".repeat(count - 1));
    refused(&format!("12 {} 06", leaves(31)), "refused 9 at 187");
    refused(&format!("12 {} 06", leaves(32)), "refused 6 at 186");
    refused(&format!("12 02 {} 06", "05".repeat(95)), "refused 9 at 98");
    refused(&format!("12 02 {}", "05".repeat(96)), "refused 6 at 97");
    refused(&format!("12 {}", "02 06".repeat(256)), "refused 9 at 513");
    refused(&format!("12 {}", "02 06".repeat(257)), "refused 6 at 514");
    refused("12 02 06 07 0100 0000 0000", "refused 7 at 3");
}

/// Each record of a sheet, with the refusal of a record of kind 18 before it.
fn places() -> Vec<(&'static str, usize)> {
    vec![
        ("01 01000000", 19),
        ("02", 4),
        ("04", 4),
        ("06", 4),
        ("02", 19),
        ("06", 4),
        (POINT, 19),
        (POINT, 4),
        (BODY, 4),
        ("08 0000 0000 0000", 4),
        (PASS, 4),
        (PASS, 4),
        (PAIR, 4),
        (PAIR, 4),
        ("0E", 4),
        ("0E", 4),
        ("", 4),
    ]
}

#[test]
fn the_edition_elsewhere() {
    let places = places();
    let text = |part: &[(&str, usize)]| part.iter().map(|(text, _)| *text).collect::<String>();
    for front in ["", "12"] {
        for (which, (_, number)) in places.iter().enumerate() {
            let before = format!("{front} {}", text(&places[..which]));
            let at = hex(&before).len();
            for rest in [&text(&places[which..])[..], ""] {
                let sheet = format!("{before} 12 {rest}");
                // In front of an old sheet it makes the sheet a new one.
                let line = match (at, rest) {
                    (0, "") => "refused 9 at 1".to_string(),
                    (0, _) => format!("refused 10 at {}", hex(&sheet).len()),
                    _ => format!("refused {number} at {at}"),
                };
                refused(&sheet, &line);
            }
        }
    }
    refused("12 12", "refused 19 at 1");
    refused("12 12 12", "refused 19 at 1");
    // The earliest record counts.
    refused("02 06 12 FF", "refused 19 at 2");
    refused("02 06 03 12", "refused 5 at 2");
    refused("02 06 12 13", "refused 19 at 2");
}

/// A stop in an old sheet: 20 comes behind 3, 4 and 19, and before 6 and 7.
#[test]
fn a_stop_in_an_old_sheet() {
    refused(STOP, "refused 20 at 0");
    refused(&format!("02 06 {STOP}"), "refused 20 at 2");
    refused(&format!("02 {STOP}"), "refused 4 at 1");
    refused(&format!("02 06 {POINT} {STOP}"), "refused 20 at 9");
    for stop in [STOP, STRAY_STOP, "13 FFFF"] {
        refused(&format!("{} {stop}", old()), "refused 20 at 20");
        refused(&format!("{} {PASS} {stop}", old()), "refused 20 at 25");
        refused(&format!("{} 0E {stop}", old()), "refused 4 at 21");
        refused(&format!("{} {PAIR} {stop}", old()), "refused 4 at 26");
        for steps in [511, 512] {
            let at = 20 + 5 * steps;
            let text = format!("{} {} {stop}", old(), PASS.repeat(steps));
            refused(&text, &format!("refused 20 at {at}"));
        }
        refused(&format!("{} {} {stop}", old(), PASS.repeat(513)), "refused 6 at 2580");
    }
    // The earliest record counts.
    refused(&format!("{} 0C 0100 0000 {STOP}", old()), "refused 7 at 20");
    refused(&format!("{} {STOP} 0C 0100 0000", old()), "refused 20 at 20");
    refused(&format!("{} {STOP} {BODY}", old()), "refused 20 at 20");
    // A late record of kind 18 makes no sheet a new one.
    refused(&format!("02 06 12 {POINT} {BODY} {STOP}"), "refused 19 at 2");
}

#[test]
fn a_stop_in_a_new_sheet() {
    refused(&format!("12 {STOP}"), "refused 7 at 1");
    refused(&format!("12 02 {STOP}"), "refused 4 at 2");
    refused(&format!("12 02 06 {POINT} {STOP}"), "refused 9 at 13");
    refused(&format!("{} {STOP}", new()), "refused 10 at 24");
    refused(&format!("{} {STOP} {PASS} {STOP}", new()), "refused 10 at 32");
    for stop in [STRAY_STOP, "13 0001", "13 FFFF"] {
        refused(&format!("{} {stop}", new()), "refused 7 at 21");
        refused(&format!("{} {PASS} {stop}", new()), "refused 7 at 26");
    }
    // It is a step: nothing of an earlier section may follow, nor it a certificate.
    for record in ["02", POINT, BODY, "12"] {
        refused(&format!("{} {STOP} {record}", new()), "refused 4 at 24");
    }
    refused(&format!("{} 0E {STOP}", new()), "refused 4 at 22");
    refused(&format!("{} {PAIR} {STOP}", new()), "refused 4 at 27");
}

/// The last point of several, and the one behind it.
#[test]
fn the_point_of_a_stop() {
    for points in [1, 2, 63, 64] {
        let head = format!("12 02 06 {} {BODY}", POINT.repeat(points));
        let at = 14 + 7 * points;
        refused(&format!("{head} 13 {:02X}00", points - 1), &format!("refused 10 at {}", at + 3));
        refused(&format!("{head} 13 {points:02X}00"), &format!("refused 7 at {at}"));
    }
    let head = format!("12 02 06 {} {BODY}", POINT.repeat(512));
    loads_on(&LARGE, &hex(&format!("{head} 13 FF01")), "refused 10 at 3601");
    loads_on(&LARGE, &hex(&format!("{head} 13 0002")), "refused 7 at 3598");
}

/// A stop counts among the 512 steps.
#[test]
fn steps() {
    let text = |before: &str, count: usize, behind: &str| {
        format!("{} {} {behind}", new(), before.repeat(count))
    };
    refused(&text(PASS, 511, STOP), "refused 10 at 2579");
    refused(&text(STOP, 512, ""), "refused 10 at 1557");
    // 6 comes before 7.
    for last in [STOP, STRAY_STOP] {
        refused(&text(PASS, 512, last), "refused 6 at 2581");
        refused(&text(STOP, 512, last), "refused 6 at 1557");
    }
    refused(&text(STOP, 512, PASS), "refused 6 at 1557");
    refused(&text(PASS, 511, STRAY_STOP), "refused 7 at 2576");
    // The same as whole sheets.
    let mut draft = sheets::least();
    draft.new_edition = true;
    draft.steps = vec![Step::Stop(0); 512];
    for on in ALL {
        loads_on(&on, &draft.certified(), "accepted 518");
    }
}

#[test]
fn tally() {
    let sheet = hex(&format!("{} {STOP} {PASS} {STOP} 0E", new()));
    let counts = Counts { conditions: 1, points: 1, methods: 1, steps: 3, certificates: 1 };
    for on in ALL {
        for doors in every() {
            assert_eq!((doors.read)(&on, &sheet), Ok(counts), "{}", doors.name);
        }
    }
}

/// The conditions of a new sheet start behind its first byte.
#[test]
fn words() {
    let rest = format!("01 04000000 06 02 01 08000000 04 06 {POINT} {BODY}");
    for text in [rest.clone(), format!("12 {rest}")] {
        for on in ALL {
            let test = |condition, word: &[u8], line| {
                tests_on(&on, &hex(&text), condition, word, line);
            };
            test(0, &[2], "yes");
            test(0, &[], "no 0");
            test(0, &[3], "no 0");
            test(1, &[], "yes");
            test(1, &[3], "yes");
            test(1, &[2], "no 0");
            test(2, &[], "refused 14");
        }
    }
}

/// Whether a sheet that reads well calls a method with body.
fn calls_a_body(sheet: &[u8]) -> bool {
    let Ok(parts) = naive::read_sheet(&LARGE, sheet) else { return false };
    let body = |method: usize| parts.methods[method].entry.is_some();
    parts.steps.iter().any(|step| matches!(step.act, Act::Call(method) if body(method)))
}

/// Where no method with body is called, a sheet without kinds 18 and 19 has one answer in
/// both editions, with places one further on in the new one. Otherwise certificates are
/// missing.
#[test]
fn an_old_sheet_in_the_new_edition() {
    let mut random = Random::new(61);
    let mut seen = [0; 4];
    for _ in 0..4_500 {
        let sheet = sheets::sheet(&mut random);
        if sheet.contains(&18) || sheet.contains(&19) || sheet.len() == LARGE.bytes {
            continue;
        }
        let newer = [&[18], &sheet[..]].concat();
        let calls = calls_a_body(&sheet);
        for doors in every() {
            let [old, new] = [&sheet, &newer].map(|sheet| (doors.load)(&LARGE, sheet));
            let (which, expected) = match old {
                Verdict::Accepted(_) if calls => {
                    (0, Verdict::Refused(Refusal::at(10, newer.len())))
                }
                _ if calls => continue,
                Verdict::Refused(Refusal { number, place: Some(place) }) => {
                    let further = if number == 1 { place } else { place + 1 };
                    (1, Verdict::Refused(Refusal::at(number, further)))
                }
                Verdict::Accepted(_) => (2, old),
                _ => (3, old),
            };
            assert_eq!(new, expected, "{}: {old}", doors.name);
            seen[which] += 1;
        }
    }
    assert!(seen.iter().all(|&count| count > 100), "{seen:?}");
}
