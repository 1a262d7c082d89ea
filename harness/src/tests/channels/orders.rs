//! What comes before 26, and what behind it.
use super::{call, judged, names, refused, FAILING_BODY, FAILING_PRIMITIVE, PRIMITIVE};
use crate::tests::{BODY, PAIR, POINT};

/// A point with an owner; its conditions are 0.
fn owned(owner: usize) -> String {
    format!("14 0000 0000 0000 {}", names(&[owner]))
}

/// A point without owner and one of each of two methods; methods with body and primitives
/// of one outcome and of two.
fn front() -> String {
    let points = format!("{POINT} {} {}", owned(0), owned(1));
    format!("02 06 {points} {BODY} {PRIMITIVE} {FAILING_PRIMITIVE} {FAILING_BODY}")
}

/// The calls that 26 is about: of each other method, and by a channel above 3.
fn wrong(from: usize, to: usize) -> Vec<String> {
    [(0, 0), (2, 0), (3, 0), (1, 4), (0, 4), (3, 255)]
        .map(|(method, channel)| call(from, to, method, channel))
        .to_vec()
}

/// At one record, 24 comes before 26, where both points have owners, and these differ.
#[test]
fn owners() {
    for (from, to) in [(0, 0), (0, 1), (1, 0), (1, 1), (2, 2), (0, 2)] {
        judged(&front(), &call(from, to, 1, 3), "", None);
        for call in wrong(from, to) {
            judged(&front(), &call, "", Some(26));
        }
    }
    for (from, to) in [(1, 2), (2, 1)] {
        judged(&front(), &call(from, to, 1, 3), "", Some(24));
        for call in wrong(from, to) {
            judged(&front(), &call, "", Some(24));
        }
    }
}

/// 18 does not judge it, and 7 and all earlier numbers come before.
#[test]
fn before_26() {
    for call in [call(3, 1, 0, 9), call(1, 3, 2, 9), call(1, 2, 4, 9), call(1, 2, 4, 0)] {
        judged(&front(), &call, "", Some(7));
    }
    for call in wrong(1, 1) {
        judged(&format!("{} 0E", front()), &call, "", Some(4));
        judged(&format!("{} {PAIR}", front()), &call, "", Some(4));
        judged("02", &call, "", Some(4));
        judged(&front(), &call[..call.len() - 2], "", Some(3));
        let full = format!("{} {}", front(), "0C 0000 0000".repeat(512));
        judged(&full, &call, "", Some(6));
    }
}

/// The earliest record at fault counts, and 8, 25 and 10 come behind.
#[test]
fn behind_26() {
    for behind in ["FF", "16", "02", "12", "13 0000", "0C 0900 0000", PAIR, "0E", BODY] {
        for call in wrong(0, 0) {
            judged(&front(), &call, behind, Some(26));
        }
    }
    for (before, number) in [("FF", 2), ("13 0000", 20), ("0C 0900 0000", 7), ("0C 0100 0200", 24)]
    {
        judged(&front(), before, &call(0, 0, 0, 0), Some(number));
    }
    judged(&front(), "0B 0000 0000 0200", &call(0, 0, 0, 0), Some(18));
    // A point whose owner is no method.
    let head = format!("02 06 {POINT} {} {BODY} {PRIMITIVE}", owned(2));
    judged(&head, &call(0, 0, 0, 0), "", Some(26));
    judged(&head, &call(0, 1, 1, 4), "", Some(26));
    refused(&format!("{head} {}", call(0, 1, 1, 3)), "refused 25 at 9");
}
