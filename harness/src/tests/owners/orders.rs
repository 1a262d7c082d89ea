//! What comes before 24 and 25, and what behind them.
use super::{body, head, judged, names, owned, pass, FAILING_PRIMITIVE, PRIMITIVE};
use crate::instrument::ALL;
use crate::tests::{hex, loads_on, refused, BODY, PAIR, POINT};

/// A point without owner, one of each of three methods: a body with the first point, a
/// primitive, and another body, of two outcomes.
fn front() -> String {
    let owners = [None, Some(0), Some(1), Some(2)];
    format!("{} {} {PRIMITIVE} {}", head(&owners), body(&[0, 1]), body(&[0, 3, 3]))
}

/// A pass step from a point of method 0 to one of method 2.
fn wrong() -> String {
    pass(1, 3)
}

/// At one record, a step: 7 and 18 come before 24.
#[test]
fn before_24_at_a_step() {
    let judge = |kind: &str, numbers: &[usize], end: &str, number: usize| {
        judged(&front(), &format!("{kind} {} {end}", names(numbers)), "", Some(number));
    };
    judge("0C", &[1, 3], "", 24);
    judge("0C", &[1, 4], "", 7);
    judge("0A", &[1, 3], "1F", 24);
    judge("0A", &[1, 3], "40", 7);
    judge("0B", &[1, 3, 1], "", 24);
    judge("0B", &[1, 3, 3], "", 7);
    judge("0B", &[1, 3, 2], "", 18);
    judge("11", &[1, 3, 1, 2], "", 24);
    judge("11", &[1, 1, 3, 2], "", 24);
    judge("11", &[1, 3, 4, 2], "", 7);
    judge("11", &[1, 3, 1, 3], "", 7);
    for method in [0, 1] {
        judge("11", &[1, 3, 2, method], "", 18);
    }
    // 3 and 4 too.
    judged(&front(), "0C 0100 03", "", Some(3));
    judged(&format!("{} 0E", front()), &wrong(), "", Some(4));
    // 6: the step after 512.
    for last in [wrong(), pass(0, 0), pass(9, 9), format!("0B {}", names(&[1, 3, 2]))] {
        judged(&format!("{} {}", front(), pass(0, 0).repeat(512)), &last, "", Some(6));
    }
    judged(&format!("{} {}", front(), pass(0, 0).repeat(511)), &wrong(), "", Some(24));
}

/// At one record, a method: 6 and 7 come before 24, and so does 9 for a primitive in
/// front.
#[test]
fn before_24_at_a_method() {
    let head = head(&[None, Some(0), Some(1)]);
    judged(&head, &body(&[2, 0]), "", Some(24));
    judged(&head, &body(&[2, 3]), "", Some(7));
    judged(&head, &body(&[2, 0, 3]), "", Some(7));
    for condition in 0..3 {
        let mut fields = [0, 0, 0, 2, 2];
        fields[condition] = 1;
        judged(&head, &format!("09 {}", names(&fields)), "", Some(7));
    }
    judged(&head, &format!("10 {}", names(&[0, 0, 0, 2, 2, 0, 1, 2])), "", Some(7));
    for primitive in [PRIMITIVE, FAILING_PRIMITIVE] {
        judged(&head, primitive, &body(&[1, 1]), Some(9));
        judged(&format!("{head} {BODY}"), primitive, &body(&[0, 0]), None);
        // Behind it, a method has the next number.
        judged(&format!("{head} {BODY} {primitive}"), &body(&[2, 2]), "", Some(24));
    }
    let many = |count: usize| format!("{head} {}", BODY.repeat(count));
    judged(&many(63), &body(&[2, 2]), "", Some(24));
    for last in [body(&[2, 2]), body(&[1, 2, 0]), body(&[9, 9])] {
        judged(&many(64), &last, "", Some(6));
    }
}

/// The earliest record at fault counts, also where 25 has a point before it.
#[test]
fn behind_24() {
    let records = ["FF", "0B", "02", "12", "13 0100", PAIR, "0E", &pass(9, 9), BODY];
    for behind in records.map(str::to_string).into_iter().chain([format!("0B {}", names(&[0; 3]))])
    {
        judged(&front(), &wrong(), &behind, Some(24));
    }
    for before in [pass(9, 9), format!("0B {}", names(&[0, 0, 2])), "13 0000".to_string()] {
        let number = match &before[..2] {
            "0C" => 7,
            "0B" => 18,
            _ => 20,
        };
        judged(&front(), &before, &wrong(), Some(number));
    }
    judged(&format!("{} {}", front(), pass(0, 3)), &wrong(), "", Some(24));
    // A step of points with an unknown owner, and one without.
    let head = head(&[None, Some(7), Some(0), Some(7)]);
    judged(&format!("{head} {BODY}"), &pass(1, 2), "", Some(24));
    judged(&head, &body(&[1, 0]), "", Some(24));
    for step in [pass(1, 3), pass(1, 0), pass(0, 3), pass(1, 1)] {
        refused(&format!("{head} {BODY} {step}"), "refused 25 at 9");
    }
}

/// At the end: 8 and 9 come before 25, and 25 before 10.
#[test]
fn around_25() {
    let head = format!("02 06 {POINT} {}", owned(1));
    refused(&format!("{head} {BODY}"), "refused 25 at 9");
    refused(&format!("{head} {BODY} {PAIR}"), "refused 8 at 35");
    refused(&format!("{head} {BODY} {}", format!("{PAIR} 0E").repeat(2)), "refused 25 at 9");
    refused(&format!("{head} {BODY} {}", "0E".repeat(9)), "refused 25 at 9");
    refused(&format!("{head} {PAIR}"), "refused 8 at 24");
    refused(&format!("{head} 0E"), "refused 9 at 19");
    refused(&head, "refused 9 at 18");
    refused(&format!("{head} {PRIMITIVE}"), "refused 9 at 18");
    // A record at fault comes before all of them.
    for (record, number) in [("FF", 2), ("0C", 3), ("02", 4), ("13 0000", 20)] {
        judged(&format!("{head} {BODY}"), record, "", Some(number));
    }
    judged(&format!("{head} {BODY}"), &pass(2, 2), "", Some(7));
}

/// 25 comes before any rule, and with all certificates in place.
#[test]
fn before_rules() {
    let sheet = |owner: usize, condition: &str| {
        let certificates = format!("{PAIR} 0E").repeat(3);
        format!("{condition} 06 {POINT} {} {BODY} {certificates}", owned(owner))
    };
    refused(&sheet(1, "02"), "refused 25 at 9");
    refused(&sheet(1, "01 00000000"), "refused 25 at 13");
    for on in ALL {
        loads_on(&on, &hex(&sheet(0, "02")), "accepted 6");
        let line = "unproved rule 1 method 0 clause 5 pair 0 event 0 place 0";
        loads_on(&on, &hex(&sheet(0, "01 00000000")), line);
    }
}
