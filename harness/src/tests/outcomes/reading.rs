//! The records of kinds 15 to 17, and refusal 18.
use crate::answer::{Counts, Refusal};
use crate::former::{way, Way};
use crate::instrument::{Instrument, ALL, FORMER_KINDS};
use crate::random::Random;
use crate::sheets;
use crate::tests::{every, hex, loads_on, refused, tests_on, BODY, BOTH as LOADERS, POINT};

const PRIMITIVE: &str = "08 0000 0000 0000";
const FAILING_PRIMITIVE: &str = "0F 0000 0000 0000 0000 0000";
const FAILING_BODY: &str = "10 0000 0000 0000 0000 0000 0000 0000 0000";
const CALL: &str = "0B 0000 0000";
const FAILING_CALL: &str = "11 0000 0000 0000";

/// One condition, one point, and methods with all names 0: a body and a primitive, of
/// one outcome and of two.
fn four_methods() -> String {
    format!("02 06 {POINT} {BODY} {PRIMITIVE} {FAILING_PRIMITIVE} {FAILING_BODY}")
}

#[test]
fn body_lengths() {
    for (kind, length) in [(15, 10), (16, 16), (17, 8u8)] {
        for shorter in 0..length as usize {
            let sheet = [&[kind][..], &vec![0; shorter]].concat();
            for on in ALL {
                loads_on(&on, &sheet, "refused 3 at 0");
            }
        }
        // The next record is behind the body: the names come first, then its kind.
        let whole = format!("{kind:02X} {}", "00".repeat(length as usize));
        refused(&whole, "refused 7 at 0");
        let head = four_methods();
        let at = hex(&head).len();
        if kind != 17 {
            refused(
                &format!("{head} {whole} FF"),
                &format!("refused 2 at {}", at + 1 + length as usize),
            );
        }
    }
    let head = four_methods();
    let at = hex(&head).len();
    refused(&format!("{head} {FAILING_CALL} 0200 FF"), &format!("refused 2 at {}", at + 9));
}

#[test]
fn kinds() {
    for on in ALL {
        for kind in on.kinds + 1..=255 {
            loads_on(&on, &[kind], "refused 2 at 0");
        }
    }
    refused("00", "refused 2 at 0");
    // Without request 2, 15 to 22 are no kinds.
    for kind in 15..=22u8 {
        for on in ALL {
            for doors in LOADERS {
                let refusal = (doors.read)(&on.former(14), &[kind; 40]);
                assert_eq!(refusal, Err(Refusal::at(2, 0)), "{}", doors.name);
            }
        }
    }
}

#[test]
fn sections() {
    let head = four_methods();
    let at = hex(&head).len();
    let call = format!("{FAILING_CALL} 0200");
    // Methods of one outcome and of two may take turns, as may their calls.
    refused(
        &format!("{head} {PRIMITIVE} {FAILING_BODY} {BODY}"),
        &format!("refused 10 at {}", at + 35),
    );
    let steps = format!("{call} 0C 0000 0000 {call} {CALL} 0000 {call}");
    refused(&format!("{head} {steps}"), &format!("refused 10 at {}", at + 39));
    for method in [FAILING_PRIMITIVE, FAILING_BODY] {
        refused(&format!("{head} {call} {method}"), &format!("refused 4 at {}", at + 9));
        refused(&format!("{head} 0E {method}"), &format!("refused 4 at {}", at + 1));
        refused(&format!("02 {method}"), "refused 4 at 1");
        refused(
            &format!("02 06 {method} {POINT}"),
            &format!(
                "refused {}",
                match method {
                    FAILING_PRIMITIVE => "9 at 2",
                    _ => "7 at 2",
                }
            ),
        );
        refused(
            &format!("{head} {method} {POINT}"),
            &format!("refused 4 at {}", at + hex(method).len()),
        );
        refused(
            &format!("{head} {method} 02"),
            &format!("refused 4 at {}", at + hex(method).len()),
        );
    }
    refused(&format!("{head} 0E {call}"), &format!("refused 4 at {}", at + 1));
    refused(&format!("{head} {call} {BODY}"), &format!("refused 4 at {}", at + 9));
    refused(&format!("{head} {call} {POINT}"), &format!("refused 4 at {}", at + 9));
    refused(&format!("02 {call}"), "refused 4 at 1");
}

/// Three conditions, two points and four methods, so that each field has its bound.
#[test]
fn names() {
    let methods = four_methods()[6..].to_string();
    let methods = methods.strip_prefix(POINT).unwrap();
    let head = format!("{} {} {methods}", "02 06".repeat(3), POINT.repeat(2));
    let at = hex(&head).len();
    let fields: [(u8, &[usize]); 3] =
        [(15, &[3, 3, 3, 3, 3]), (16, &[3, 3, 3, 2, 2, 3, 3, 2]), (17, &[2, 2, 2, 4])];
    for (kind, bounds) in fields {
        for (field, &bound) in bounds.iter().enumerate() {
            for (low, high, known) in
                [(bound - 1, 0, true), (bound, 0, false), (0, 1, false), (255, 255, false)]
            {
                let mut names = vec![0; 2 * bounds.len()];
                if kind == 17 {
                    // The method is one that can fail.
                    names[6] = 2;
                }
                names[2 * field] = low as u8;
                names[2 * field + 1] = high;
                let sheet = [&hex(&head)[..], &[kind], &names].concat();
                let line = match known {
                    true => format!("refused 10 at {}", sheet.len()),
                    false => format!("refused 7 at {at}"),
                };
                for on in ALL {
                    loads_on(&on, &sheet, &line);
                }
            }
        }
    }
}

#[test]
fn limits() {
    let head = format!("02 06 {POINT}");
    for method in [FAILING_PRIMITIVE, FAILING_BODY] {
        let length = hex(method).len();
        // The first one has a body; one more than 64 comes before a wrong name.
        for last in [method.to_string(), format!("{} FF00 {}", &method[..2], &method[8..])] {
            let sheet = format!("{head} {BODY} {} {last}", method.repeat(63));
            refused(&sheet, &format!("refused 6 at {}", 20 + 63 * length));
        }
        let whole = format!("{head} {BODY} {}", method.repeat(63));
        refused(&whole, &format!("refused 10 at {}", 20 + 63 * length));
        let mixed = format!("{head} {BODY} {} {}", PRIMITIVE.repeat(31), method.repeat(32));
        let at = hex(&mixed).len();
        refused(&mixed, &format!("refused 10 at {at}"));
        refused(&format!("{mixed} {PRIMITIVE}"), &format!("refused 6 at {at}"));
        refused(&format!("{mixed} {method}"), &format!("refused 6 at {at}"));
    }
    let head = four_methods();
    let at = hex(&head).len();
    let call = format!("{FAILING_CALL} 0200");
    let end = at + 512 * 9;
    refused(&format!("{head} {}", call.repeat(512)), &format!("refused 10 at {end}"));
    // 6 comes before 7 and 18.
    for last in [call.clone(), format!("{CALL} 0200"), format!("{FAILING_CALL} FF00")] {
        refused(&format!("{head} {} {last}", call.repeat(512)), &format!("refused 6 at {end}"));
    }
    let mixed = format!("{head} {} {}", call.repeat(256), "0C 0000 0000".repeat(256));
    let end = at + 256 * 9 + 256 * 5;
    refused(&mixed, &format!("refused 10 at {end}"));
    refused(&format!("{mixed} {call}"), &format!("refused 6 at {end}"));
}

#[test]
fn the_first_method() {
    refused(&format!("02 06 {FAILING_PRIMITIVE}"), "refused 9 at 2");
    // 7 comes before 9, for the failed conditions too.
    for field in 0..5 {
        let mut sheet = hex(&format!("02 06 {FAILING_PRIMITIVE}"));
        sheet[3 + 2 * field] = 1;
        for on in ALL {
            loads_on(&on, &sheet, "refused 7 at 2");
        }
    }
    refused(&format!("02 06 {POINT} {FAILING_PRIMITIVE} FF"), "refused 9 at 9");
    refused(&format!("02 06 {POINT} {FAILING_BODY}"), "refused 10 at 26");
    refused(&format!("02 06 {POINT} {FAILING_BODY} {FAILING_PRIMITIVE}"), "refused 10 at 37");
}

/// A call and a method that it names have as many outcomes.
#[test]
fn outcomes_of_a_call() {
    let head = four_methods();
    let at = hex(&head).len();
    for (method, two) in [(0, false), (1, false), (2, true), (3, true)] {
        let one_line =
            if two { format!("refused 18 at {at}") } else { format!("refused 10 at {}", at + 7) };
        let two_line =
            if two { format!("refused 10 at {}", at + 9) } else { format!("refused 18 at {at}") };
        refused(&format!("{head} {CALL} {method:02X}00"), &one_line);
        refused(&format!("{head} {FAILING_CALL} {method:02X}00"), &two_line);
    }
}

#[test]
fn the_order_of_18() {
    let head = four_methods();
    let at = hex(&head).len();
    // 7 of any name of the record comes before.
    for call in ["0B 0100 0000 0200", "0B 0000 0100 0300", "11 0100 0000 0000 0000"] {
        refused(&format!("{head} {call}"), &format!("refused 7 at {at}"));
    }
    for call in ["11 0000 0100 0000 0100", "11 0000 0000 0100 0000", "11 0000 0000 0000 0400"] {
        refused(&format!("{head} {call}"), &format!("refused 7 at {at}"));
    }
    // The earliest record counts; 3, 8 and 10 stand behind it.
    let wrong = format!("{CALL} 0200");
    refused(&format!("{head} {wrong} 0B"), &format!("refused 18 at {at}"));
    refused(&format!("{head} {wrong} FF"), &format!("refused 18 at {at}"));
    refused(&format!("{head} {wrong} 0D 00 01000000"), &format!("refused 18 at {at}"));
    refused(&format!("{head} 0C 0100 0000 {wrong}"), &format!("refused 7 at {at}"));
    refused(&format!("{head} 0C 0000 0000 {wrong}"), &format!("refused 18 at {}", at + 5));
    // 4 comes before at the record.
    refused(&format!("{head} 0E {wrong}"), &format!("refused 4 at {}", at + 1));
}

#[test]
fn tally() {
    let sheet = hex(&format!("{} {FAILING_CALL} 0300 {CALL} 0100 0E", four_methods()));
    let counts = Counts { conditions: 1, points: 1, methods: 4, steps: 2, certificates: 1 };
    for on in ALL {
        for doors in every() {
            assert_eq!((doors.read)(&on, &sheet), Ok(counts), "{}", doors.name);
        }
        tests_on(&on, &sheet, 0, &[], "yes");
    }
}

/// Each way to be judged otherwise than before is seen.
#[test]
fn judged_as_before_can_be_false() {
    let sheet = [2, 6, 15, 16, 17, 18, 19, 20, 21, 22, 23, 14];
    let two = |at| Some(Refusal::at(2, at));
    let highest = [20, 22].into_iter().zip([8, 10]);
    let cases = highest.flat_map(|(now, end)| {
        FORMER_KINDS.into_iter().zip([2, 5, 7]).map(move |(kinds, at)| ([kinds, now], at..end))
    });
    for (kinds, later) in cases {
        let way = |refusal, same| way(&sheet, kinds, refusal, same);
        for at in 0..13 {
            let other = later.contains(&at).then_some(Way::LaterKind);
            assert_eq!(way(two(at), false), other);
            assert_eq!(way(two(at), true), other.or(Some(Way::Same)));
        }
        assert_eq!(way(Some(Refusal::at(3, 5)), false), None);
        assert_eq!(way(None, false), None);
        assert_eq!(way(None, true), Some(Way::Same));
    }
}

/// Of sheets with kinds later than a former highest one and of those without, by every
/// loader.
#[test]
fn judged_as_before() {
    let mut random = Random::new(31);
    let mut seen = [[0; 2]; FORMER_KINDS.len()];
    for _ in 0..1_500 {
        let sheet = sheets::sheet(&mut random);
        for on in ALL.into_iter().chain([Instrument::of(sheet.len(), 5)]) {
            for doors in LOADERS {
                let now = (doors.load)(&on, &sheet);
                for (kinds, seen) in FORMER_KINDS.into_iter().zip(&mut seen) {
                    let former = (doors.load)(&on.former(kinds), &sheet);
                    let kinds = [kinds, on.kinds];
                    let way = way(&sheet, kinds, former.refusal(), former == now);
                    assert!(way.is_some(), "{}: {former}, {now}", doors.name);
                    seen[(way == Some(Way::LaterKind)) as usize] += 1;
                }
            }
        }
    }
    assert!(seen.iter().flatten().all(|&count| count > 1_000), "{seen:?}");
}
