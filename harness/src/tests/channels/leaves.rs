//! The records of kind 21, and events up to 63.
use super::{hex, judged, refused, tests_on, BODY, POINT};
use crate::instrument::{FOUR, LARGE, TWO_CHANNELS};
use crate::tests::{every, loads_on};

const LEAF: &str = "01 FFFFFFFF";
const LONG: &str = "15 FFFFFFFF FFFFFFFF";

/// As many leaves of each kind, one or the other.
fn row(short: usize, long: usize) -> String {
    let leaves = [LEAF].repeat(short).into_iter().chain([LONG].repeat(long));
    let more = |(number, leaf)| format!("{leaf} {}", if number == 0 { "" } else { "04" });
    leaves.enumerate().map(more).collect()
}

#[test]
fn body_length() {
    for shorter in 0..8 {
        refused(&format!("15 {}", "00".repeat(shorter)), "refused 3 at 0");
        refused(&format!("02 15 {}", "00".repeat(shorter)), "refused 3 at 1");
    }
    refused(LONG, "refused 8 at 9");
    // The next record is behind the body.
    refused(&format!("{LONG} FF"), "refused 2 at 9");
    refused(&format!("{LONG} 06"), "refused 9 at 10");
}

/// Before 3 and 4, on an instrument of two channels.
#[test]
fn no_kind_of_two_channels() {
    let front = format!("02 06 {POINT} {BODY}");
    for (text, at) in [("15", 0), ("02 15", 1), ("02 06 15", 2), (&front[..], 20)] {
        let text = if at == 20 { format!("{text} 15") } else { text.to_string() };
        for behind in ["", "FFFFFFFF FFFFFFFF", "FFFFFFFF FFFFFFFF 06"] {
            for on in TWO_CHANNELS {
                loads_on(&on, &hex(&format!("{text} {behind}")), &format!("refused 2 at {at}"));
            }
        }
    }
}

/// A leaf of either kind may stand in an open condition, and opens one.
#[test]
fn sections() {
    for edition in ["", "12"] {
        for leaf in [LEAF, LONG] {
            let front = format!("{edition} {leaf}");
            judged(&format!("{front} {LONG} 04 06 {POINT}"), BODY, "", None);
            judged(&front, POINT, "", Some(4));
            judged(&front, "12", "", Some(4));
            judged(&front, "06", &format!("{POINT} {BODY}"), None);
        }
    }
    for front in [format!("02 06 {POINT}"), format!("02 06 {POINT} {BODY}")] {
        judged(&front, LONG, "", Some(4));
        judged(&format!("{front} 0E"), LONG, "", Some(4));
        judged(&front, "15 FFFFFFFF FFFFFF", "", Some(3));
    }
}

/// It is one item.
#[test]
fn items() {
    judged(LONG, "03", "", Some(5));
    judged(&format!("{LONG} {LONG}"), "06", "", Some(5));
    judged(&format!("{LONG} {LONG} 03"), "04", "", Some(5));
    for operator in ["03", "04"] {
        let condition = format!("{LONG} {LEAF} {operator} {LONG} {operator} 05");
        judged(&condition, "06", &format!("{POINT} {BODY}"), None);
    }
    refused(&format!("02 06 {LONG}"), "refused 8 at 11");
}

/// Leaves of both kinds count together: 31 of them, and 96 records.
#[test]
fn limits() {
    for long in [0, 1, 15, 16, 30, 31] {
        let front = row(31 - long, long);
        judged(&front, "06", &format!("{POINT} {BODY}"), None);
        for leaf in [LEAF, LONG] {
            judged(&front, leaf, "", Some(6));
            judged(&format!("{front} 06 {front}"), leaf, "", Some(6));
        }
    }
    for leaf in [LEAF, LONG] {
        let front = format!("{leaf} {}", "05".repeat(94));
        judged(&front, "05", &format!("06 {POINT} {BODY}"), None);
        // With 95 records there is room for one more.
        refused(&format!("{front} {leaf}"), &format!("refused 8 at {}", 2 * hex(leaf).len() + 94));
        for last in [LEAF, LONG, "02", "05"] {
            judged(&format!("{front} 05"), last, "", Some(6));
        }
        // 5 comes before 6.
        judged(&format!("{front} 05"), "03", "", Some(5));
    }
}

/// A sheet with one condition.
fn with(condition: &str) -> Vec<u8> {
    hex(&format!("{condition} 06 {POINT} {BODY}"))
}

/// Bit e of a set is for event e, low byte first.
#[test]
fn bits() {
    for event in 0..64 {
        let bytes = (1u64 << event).to_le_bytes().map(|byte| format!("{byte:02X}")).concat();
        let sheet = with(&format!("15 {bytes}"));
        for other in 0..64 {
            tests_on(&FOUR, &sheet, 0, &[other], if other == event { "yes" } else { "no 0" });
        }
    }
    let sheet = with("15 00000000 00000000");
    (0..64).for_each(|event| tests_on(&FOUR, &sheet, 0, &[event], "no 0"));
}

/// Kind 1 leaves the upper bits 0: all its bits are not "any".
#[test]
fn upper_bits_of_kind_1() {
    let (short, long) = (with(&format!("{LEAF} 05")), with(&format!("{LONG} 05")));
    for event in 0..64 {
        let word = [0, event, 31, event];
        tests_on(&FOUR, &short, 0, &word, if event < 32 { "yes" } else { "no 1" });
        tests_on(&FOUR, &long, 0, &word, "yes");
    }
}

/// 13 is for the first event that the instrument does not have.
#[test]
fn events_of_a_word() {
    let sheet = with(&format!("{LEAF} 05"));
    for (word, four, large) in [
        (&[31, 31][..], "yes", "yes"),
        (&[31, 32], "no 1", "refused 13 at 1"),
        (&[63, 32, 0], "no 0", "refused 13 at 0"),
        (&[63, 64], "refused 13 at 1", "refused 13 at 0"),
        (&[31, 64, 32], "refused 13 at 1", "refused 13 at 1"),
        (&[255, 64, 32], "refused 13 at 0", "refused 13 at 0"),
        (&[0, 63, 63, 128], "refused 13 at 3", "refused 13 at 1"),
    ] {
        tests_on(&FOUR, &sheet, 0, word, four);
        tests_on(&LARGE, &sheet, 0, word, large);
        tests_on(&FOUR, &sheet, 1, word, "refused 14");
    }
    tests_on(&FOUR, &sheet, 0, &[64; 4_097], "refused 12");
    tests_on(&FOUR, &sheet, 0, &[63; 4_096], "no 0");
}

#[test]
fn events_of_a_step() {
    let front = format!("02 06 {POINT} {BODY}");
    for event in 0..=255u8 {
        let step = format!("0A 0000 0000 {event:02X}");
        judged(&front, &step, "", (event > 63).then_some(7));
        for on in TWO_CHANNELS {
            let line = if event > 31 { "refused 7 at 20" } else { "refused 10 at 26" };
            loads_on(&on, &hex(&format!("{front} {step}")), line);
        }
    }
}

#[test]
fn tally() {
    let sheet = hex(&format!("{LONG} {LEAF} 04 06 15 00000000 00000080 06 {POINT} {BODY} 0E"));
    for doors in every() {
        let read = (doors.read)(&FOUR, &sheet).unwrap();
        assert_eq!(read.to_string(), "read 2 1 1 0 1", "{}", doors.name);
    }
    tests_on(&FOUR, &sheet, 1, &[63], "yes");
    tests_on(&FOUR, &sheet, 1, &[31], "no 0");
}
