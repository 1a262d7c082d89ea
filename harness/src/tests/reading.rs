//! Refusals and their order.
use super::{hex, least, loads, tests, BODY, BOTH, PAIR, POINT};
use crate::answer::Counts;
use crate::instrument::LARGE;

fn refused(text: &str, line: &str) {
    loads(&hex(text), line);
}

#[test]
fn length() {
    loads(&[0; 65_536], "refused 2 at 0");
    loads(&[0; 65_537], "refused 1 at 65536");
    loads(&[2; 65_537], "refused 1 at 65536");
}

#[test]
fn kinds_and_bodies() {
    refused("00", "refused 2 at 0");
    refused("02 06 FF", "refused 2 at 2");
    for kind in [1, 7, 8, 9, 10, 11, 12, 13u8] {
        loads(&[kind, 0], "refused 3 at 0");
    }
}

#[test]
fn sections() {
    refused(&format!("02 06 {POINT} 02"), "refused 4 at 9");
    refused(&format!("02 06 {POINT} 03"), "refused 4 at 9");
    refused(&format!("02 {POINT}"), "refused 4 at 1");
    refused("02 0E", "refused 4 at 1");
    refused(&format!("02 06 {POINT} {BODY} 0E {POINT}"), "refused 4 at 21");
    // A step in an open certificate is of an earlier section.
    refused(&format!("02 06 {POINT} {BODY} {PAIR} 0C 0000 0000"), "refused 4 at 26");
    // A body that runs past the end comes before the section.
    refused(&format!("02 06 {POINT} 01"), "refused 3 at 9");
}

#[test]
fn items() {
    for text in ["02 03", "02 04"] {
        refused(text, "refused 5 at 1");
    }
    refused("05", "refused 5 at 0");
    refused("06", "refused 5 at 0");
    refused("02 06 06", "refused 5 at 2");
    refused("02 02 06", "refused 5 at 2");
    refused("02 02 03 03", "refused 5 at 3");
}

#[test]
fn leaves_and_records() {
    let leaf = "01 FFFFFFFF";
    let row = |leaves: usize| format!("{leaf} {}", format!("{leaf} 04").repeat(leaves - 1));
    refused(&format!("{} 06", row(31)), "refused 9 at 186");
    refused(&format!("{} 06", row(32)), "refused 6 at 185");
    refused(&format!("02 {} 06", "05".repeat(95)), "refused 9 at 97");
    refused(&format!("02 {}", "05".repeat(96)), "refused 6 at 96");
    // At one record 5 comes before 6, and the count starts anew after an end.
    refused(&format!("02 {} 03", "05".repeat(95)), "refused 5 at 96");
    refused(&format!("{} 06 {} 06", row(31), row(31)), "refused 9 at 372");
}

#[test]
fn conditions() {
    refused(&"02 06".repeat(256), "refused 9 at 512");
    refused(&"02 06".repeat(257), "refused 6 at 513");
    refused(&format!("{} 02 02 06", "02 06".repeat(256)), "refused 5 at 514");
    refused(&format!("{} 02", "02 06".repeat(256)), "refused 8 at 513");
}

#[test]
fn points_methods_and_steps() {
    refused(&format!("02 06 {}", POINT.repeat(512)), "refused 9 at 3586");
    refused(&format!("02 06 {}", POINT.repeat(513)), "refused 6 at 3586");
    // 6 comes before 7.
    refused(&format!("02 06 {} 07 010000000000", POINT.repeat(512)), "refused 6 at 3586");
    let head = format!("02 06 {POINT}");
    let primitive = "08 0000 0000 0000";
    refused(&format!("{head} {}", BODY.repeat(64)), "refused 10 at 713");
    refused(&format!("{head} {}", BODY.repeat(65)), "refused 6 at 713");
    refused(&format!("{head} {BODY} {}", primitive.repeat(64)), "refused 6 at 461");
    for (step, length) in [("0A 0000 0000 00", 6), ("0B 0000 0000 0000", 7), ("0C 0000 0000", 5)] {
        let end = 20 + 512 * length;
        refused(&format!("{head} {BODY} {}", step.repeat(512)), &format!("refused 10 at {end}"));
        refused(&format!("{head} {BODY} {}", step.repeat(513)), &format!("refused 6 at {end}"));
    }
}

#[test]
fn names() {
    let head = format!("02 06 {POINT}");
    for i in 0..3 {
        let mut point = hex(&format!("02 06 {POINT}"));
        point[3 + 2 * i] = 1;
        loads(&point, "refused 7 at 2");
        point[3 + 2 * i] = 0;
        point[4 + 2 * i] = 1;
        loads(&point, "refused 7 at 2");
    }
    for i in 0..5 {
        let mut method = hex(&format!("{head} {BODY}"));
        method[10 + 2 * i] = 1;
        loads(&method, "refused 7 at 9");
    }
    let head = format!("{head} {BODY}");
    for step in ["0A 0100 0000 00", "0A 0000 0100 00", "0A 0000 0000 20", "0B 0100 0000 0000"] {
        refused(&format!("{head} {step}"), "refused 7 at 20");
    }
    for step in ["0B 0000 0100 0000", "0B 0000 0000 0100", "0C 0100 0000", "0C 0000 0001"] {
        refused(&format!("{head} {step}"), "refused 7 at 20");
    }
    refused(&format!("{head} 0A 0000 0000 1F"), "refused 10 at 26");
}

#[test]
fn ends() {
    // 7 before 9 at one record, 9 for a primitive at once, 8 before 9 and 10.
    refused("02 06 08 0100 0000 0000", "refused 7 at 2");
    refused("02 06 08 0000 0000 0000 00", "refused 9 at 2");
    refused("02 06 02", "refused 8 at 3");
    refused("0D 00 01000000", "refused 8 at 6");
    refused("0E", "refused 9 at 1");
    refused("02 06", "refused 9 at 2");
    let sheet = least();
    loads(&sheet[..34], "refused 10 at 34");
    loads(&[&sheet[..], &[14]].concat(), "refused 10 at 42");
    loads(&sheet[..20], "refused 10 at 20");
}

#[test]
fn ten_comes_before_any_unproved_rule() {
    // The condition holds no word, so rule 1 is unmet too.
    let text = format!("01 00000000 06 {POINT} {BODY}");
    refused(&text, "refused 10 at 24");
    refused(
        &format!("{text} 0E 0E 0E"),
        "unproved rule 1 method 0 clause 5 pair 0 event 0 place 0",
    );
}

#[test]
fn word_test_order() {
    let sheet = least();
    let long = vec![0; 4_097];
    tests(&sheet, 1, &long, "refused 14");
    tests(&sheet, 0, &long, "refused 12");
    tests(&sheet, 0, &[40; 4_097], "refused 12");
    tests(&sheet, 0, &long[..4_096], "no 0");
    tests(&sheet, 0, &[0, 31, 32, 33], "refused 13 at 2");
    tests(&sheet, usize::MAX, &[], "refused 14");
    tests(&sheet[..40], 1, &long, "refused 8 at 40");
    // 10 is not applied.
    tests(&sheet[..20], 0, &[], "yes");
}

#[test]
fn tally() {
    let counts = Counts { conditions: 1, points: 1, methods: 1, steps: 0, certificates: 3 };
    for doors in BOTH {
        assert_eq!((doors.read)(&LARGE, &least()), Ok(counts));
    }
}
