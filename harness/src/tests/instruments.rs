//! The limits of the instruments, and what requests 8 and 11 state of them.
use super::{every, hex, least, loads_on, tests_on, BODY, BOTH, POINT};
use crate::answer::{Refusal, Verdict};
use crate::instrument::{self, Instrument, ENTRY, FOUR, LARGE};
use crate::random::Random;
use crate::sheets::{self, Test};
use crate::smaller::{way, Way, Ways};

/// An accepted sheet of a length.
fn of_length(length: usize) -> Vec<u8> {
    let sheet = sheets::of_length(&sheets::least(), length, &mut Random::new(1));
    assert_eq!(sheet.len(), length);
    sheet
}

/// A sheet with a number of points; accepted, unless the large instrument takes fewer.
fn with_points(points: usize) -> Vec<u8> {
    let mut draft = sheets::least();
    draft.points.resize(points, [0; 3]);
    draft.certified()
}

/// Where a point of it starts.
fn point_at(number: usize) -> usize {
    2 + 7 * number
}

/// Every loader reads a sheet, or refuses it so.
fn reads_on(on: &Instrument, sheet: &[u8], refusal: Option<Refusal>) {
    for doors in every() {
        assert_eq!((doors.read)(on, sheet).err(), refusal, "{}, {}", doors.name, on.name);
    }
}

#[test]
fn bytes() {
    for on in instrument::ALL {
        for length in [on.bytes - 1, on.bytes] {
            loads_on(&on, &of_length(length), "accepted 6");
            loads_on(&on, &vec![0; length], "refused 2 at 0");
            tests_on(&on, &of_length(length), 0, &[], "yes");
            reads_on(&on, &of_length(length), None);
        }
        let refusal = Refusal::at(1, on.bytes);
        for length in [on.bytes + 1, on.bytes + 2, 2 * on.bytes, 200_000] {
            // 1 comes before reading.
            for sheet in [of_length(length), vec![0; length]] {
                loads_on(&on, &sheet, &refusal.to_string());
                tests_on(&on, &sheet, 9, &[99; 5_000], &refusal.to_string());
                reads_on(&on, &sheet, Some(refusal));
            }
        }
    }
    loads_on(&LARGE, &of_length(ENTRY.bytes + 1), "accepted 6");
}

#[test]
fn points() {
    for on in instrument::ALL {
        loads_on(&on, &with_points(on.points - 1), "accepted 6");
        loads_on(&on, &with_points(on.points), "accepted 6");
        let sheet = hex(&format!("02 06 {} {BODY}", POINT.repeat(on.points + 1)));
        let refusal = Refusal::at(6, point_at(on.points));
        loads_on(&on, &sheet, &refusal.to_string());
        tests_on(&on, &sheet, 9, &[99; 5_000], &refusal.to_string());
        reads_on(&on, &sheet, Some(refusal));
    }
    loads_on(&LARGE, &with_points(ENTRY.points + 1), "accepted 6");
}

/// The earliest record at fault counts, and at one record 6 comes before 7.
#[test]
fn a_point_too_many_and_another_fault() {
    let misnamed = |on: &Instrument, point: usize| {
        let mut sheet = with_points(on.points + 2);
        sheet[point_at(point) + 3] = 1;
        sheet
    };
    for on in instrument::ALL {
        let at = point_at(on.points);
        for point in [on.points, on.points + 1] {
            loads_on(&on, &misnamed(&on, point), &format!("refused 6 at {at}"));
        }
        let before = format!("refused 7 at {}", point_at(on.points - 1));
        loads_on(&on, &misnamed(&on, on.points - 1), &before);
        let mut sheet = with_points(on.points + 1);
        for (kind, number) in [(0, 2), (on.kinds + 1, 2), (3, 4), (18, 4), (20, 6)] {
            sheet[at] = kind;
            loads_on(&on, &sheet, &format!("refused {number} at {at}"));
        }
        sheet[at] = 7;
        loads_on(&on, &sheet[..at + 6], &format!("refused 3 at {at}"));
        loads_on(&on, &sheet[..at + 7], &format!("refused 6 at {at}"));
    }
    let at = point_at(ENTRY.points);
    loads_on(&LARGE, &misnamed(&ENTRY, ENTRY.points), &format!("refused 7 at {at}"));
}

/// What has nothing to do with bytes, points, kinds and events is equal on all.
#[test]
fn other_refusals() {
    let steps = |count: usize| format!("02 06 {POINT} {BODY} {}", "0C 0000 0000".repeat(count));
    let methods = |count: usize| format!("02 06 {POINT} {}", BODY.repeat(count));
    let leaves = |count: usize| format!("01 00000000 {} 06", "01 00000000 04".repeat(count - 1));
    let sheets = [
        ("17".to_string(), "refused 2 at 0"),
        ("14".to_string(), "refused 3 at 0"),
        ("0F".to_string(), "refused 3 at 0"),
        ("01".to_string(), "refused 3 at 0"),
        ("02 0E".to_string(), "refused 4 at 1"),
        ("03".to_string(), "refused 5 at 0"),
        ("02 06".repeat(256), "refused 9 at 512"),
        ("02 06".repeat(257), "refused 6 at 513"),
        (format!("02 {}", "05".repeat(96)), "refused 6 at 96"),
        (leaves(31), "refused 9 at 186"),
        (leaves(32), "refused 6 at 185"),
        (methods(64), "refused 10 at 713"),
        (methods(65), "refused 6 at 713"),
        (steps(512), "refused 10 at 2580"),
        (steps(513), "refused 6 at 2580"),
        ("02 06 07 01 00 00 00 00 00".to_string(), "refused 7 at 2"),
        ("02 06 02".to_string(), "refused 8 at 3"),
        ("02 06 08 0000 0000 0000".to_string(), "refused 9 at 2"),
        (String::new(), "refused 9 at 0"),
    ];
    for on in instrument::ALL {
        for (text, line) in &sheets {
            loads_on(&on, &hex(text), line);
        }
        let sheet = least();
        loads_on(&on, &sheet[..40], "refused 8 at 40");
        tests_on(&on, &sheet, 0, &[0; 4_096], "no 0");
        tests_on(&on, &sheet, 0, &[0; 4_097], "refused 12");
        tests_on(&on, &sheet, 0, &[0, on.events], "refused 13 at 1");
        tests_on(&on, &sheet, 1, &[64; 4_097], "refused 14");
    }
}

#[test]
fn the_entry_instruments_own_function() {
    let mut random = Random::new(21);
    for _ in 0..3_000 {
        let sheet = sheets::sheet(&mut random);
        for doors in every() {
            let name = doors.name;
            assert_eq!((doors.load_entry)(&sheet), (doors.load)(&ENTRY, &sheet), "{name}");
        }
    }
}

/// How often the statement holds in each way, and how often it is false, for random
/// limits: the first instrument no larger than the second, or the other way round.
fn ways(turned: bool) -> Ways {
    let mut random = Random::new(22);
    let mut seen = Ways::default();
    for _ in 0..1_500 {
        let sheet = sheets::sheet(&mut random);
        let [small, large] = sheets::limits(&sheet, &mut random);
        assert!(small.bytes <= large.bytes && small.points <= large.points);
        assert!(small.kinds <= large.kinds && small.events <= large.events);
        let pair = if turned { [large, small] } else { [small, large] };
        let words = sheets::words(&sheet, &mut random);
        for doors in BOTH {
            let [one, two] = pair.map(|on| (doors.load)(&on, &sheet));
            let same = one == two;
            seen.count(way(&pair, &sheet, &[], one.refusal(), same), same);
            for Test { condition, word } in &words {
                let [one, two] = pair.map(|on| (doors.word_test)(&on, &sheet, *condition, word));
                let same = one == two;
                seen.count(way(&pair, &sheet, word, one.refusal(), same), same);
            }
        }
    }
    seen
}

#[test]
fn the_statement_over_any_limits() {
    let seen = ways(false);
    assert!(seen.ways.iter().all(|&count| count > 20), "{:?}", seen.ways);
    assert_eq!(seen.broken, 0);
    let seen = ways(true);
    assert!(seen.broken > 300, "{}", seen.broken);
}

/// Each way to break the statement is seen.
#[test]
fn the_statement_can_be_false() {
    let refused = |number, place| Verdict::Refused(Refusal::at(number, place));
    let of = |one: Verdict, two: Verdict| {
        way(&[ENTRY, LARGE], &[7; 500], &[], one.refusal(), one == two)
    };
    let accepted = Verdict::Accepted;
    assert_eq!(of(accepted(6), accepted(6)), Some(Way::Same));
    assert_eq!(of(refused(1, 8_192), accepted(6)), Some(Way::TooLong));
    assert_eq!(of(refused(6, 450), accepted(6)), Some(Way::TooMany));
    for (one, two) in [
        (accepted(6), accepted(7)),
        (accepted(6), refused(10, 3)),
        (refused(1, 8_193), accepted(6)),
        (refused(1, 65_536), accepted(6)),
        (refused(7, 9), refused(7, 8)),
        (refused(7, 9), accepted(6)),
        (refused(2, 9), accepted(6)),
    ] {
        assert_eq!(of(one, two), None);
    }
}

/// The same of the large and the four-channel instrument: records of kinds 20 to 23, and
/// event steps with events around the bounds.
#[test]
fn the_statement_of_four_channels_can_be_false() {
    let sheet = [&[20, 21, 22, 23][..], &[10, 0, 0, 0, 0, 31], &[10, 0, 0, 0, 0, 32]].concat();
    let sheet = [&sheet[..], &[10, 0, 0, 0, 0, 63], &[10, 0, 0, 0, 0, 64], &[11; 8]].concat();
    let word = [31, 32, 63, 64];
    let of = |number, place, same| {
        let refusal = Some(Refusal::at(number, place));
        way(&[LARGE, FOUR], &sheet, &word, refusal, same)
    };
    for at in 0..sheet.len() + 2 {
        let kind = [1, 2].contains(&at).then_some(Way::LaterKind);
        let event = [10, 16].contains(&at).then_some(Way::LaterEvent);
        let index = [1, 2].contains(&at).then_some(Way::LaterEvent);
        for (number, expected) in [(2, kind), (7, event), (13, index), (5, None)] {
            assert_eq!(of(number, at, false), expected, "{number} {at}");
            assert_eq!(of(number, at, true), expected.or(Some(Way::Same)), "{number} {at}");
        }
    }
    // Bytes and points are equal.
    for (number, place) in [(1, LARGE.bytes), (6, 9), (26, 2)] {
        assert_eq!(of(number, place, false), None);
        assert_eq!(of(number, place, true), Some(Way::Same));
    }
    assert_eq!(way(&[LARGE, FOUR], &sheet, &word, None, false), None);
}
