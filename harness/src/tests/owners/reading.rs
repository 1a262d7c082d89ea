//! The records of kind 20, and what 24 and 25 are about.
use super::{body, head, judged, names, owned, pass, FAILING_PRIMITIVE, PRIMITIVE};
use crate::answer::{Counts, Refusal, Verdict};
use crate::instrument::{ALL, FORMER_KINDS, LARGE};
use crate::random::Random;
use crate::sheets;
use crate::tests::{every, hex, loads_on, refused, tests_on, BODY, BOTH as LOADERS, PAIR, POINT};
use crate::{naive, reference};
use std::collections::BTreeMap;

#[test]
fn body_length() {
    for shorter in 0..8 {
        refused(&format!("14 {}", "00".repeat(shorter)), "refused 3 at 0");
        refused(&format!("12 02 06 14 {}", "00".repeat(shorter)), "refused 3 at 3");
    }
    refused("14 0000 0000 0000 0000", "refused 7 at 0");
    // The next record is behind the body.
    refused(&format!("02 06 {} FF", owned(0)), "refused 2 at 11");
    refused(&format!("02 06 {} {POINT} FF", owned(0)), "refused 2 at 18");
}

#[test]
fn kinds() {
    for kinds in FORMER_KINDS {
        for (text, at) in [("14".to_string(), 0), (format!("02 06 {POINT} {}", owned(0)), 9)] {
            for on in ALL {
                for doors in LOADERS {
                    let refusal = (doors.read)(&on.former(kinds), &hex(&text));
                    assert_eq!(refusal, Err(Refusal::at(2, at)), "{}", doors.name);
                }
            }
        }
    }
}

/// It stands where kind 7 stands, and both in any order, in both editions.
#[test]
fn sections() {
    let point = owned(0);
    for edition in ["", "12"] {
        let front = format!("{edition} 02 06 {POINT} {point}");
        for points in [POINT.to_string(), point.clone(), format!("{point} {POINT} {point}")] {
            judged(&format!("{front} {points}"), BODY, "", None);
        }
        for record in ["02", "06", "12"] {
            judged(&front, record, "", Some(4));
        }
        judged(&format!("{edition} 02"), &point, "", Some(4));
        for before in [BODY.to_string(), format!("{BODY} {}", pass(0, 0))] {
            for record in [point.clone(), owned(1)] {
                judged(&format!("{front} {before}"), &record, "", Some(4));
            }
            judged(&format!("{front} {before} {PAIR}"), &point, "", Some(4));
            judged(&format!("{front} {before} 0E"), &point, "", Some(4));
        }
    }
}

/// 7 judges past, own and due; the owner may be any number.
#[test]
fn names_of_a_point() {
    for owner in [0, 1, 63, 64, 255, 256, 65_535] {
        refused(&format!("02 06 {}", owned(owner)), "refused 9 at 11");
        for field in 0..3 {
            for name in [1, 256, 65_535] {
                let mut fields = [0, 0, 0, owner];
                fields[field] = name;
                let point = format!("14 {}", names(&fields));
                refused(&format!("02 06 {point}"), "refused 7 at 2");
                refused(&format!("02 06 {POINT} {point} {BODY}"), "refused 7 at 9");
            }
        }
    }
    // With two conditions, 1 is a name.
    for fields in [[1, 0, 0, 0], [0, 1, 0, 0], [0, 0, 1, 0], [1, 1, 1, 0]] {
        judged("02 06 02 06", &format!("14 {}", names(&fields)), BODY, None);
    }
}

/// Points of both kinds count together.
#[test]
fn limits() {
    for on in ALL {
        let mixed = |kinds: [&str; 3], count: usize| -> String {
            (0..count).map(|number| kinds[number % 3]).collect()
        };
        let point = &owned(0)[..];
        for kinds in [[point; 3], [POINT, point, POINT], [point, POINT, point]] {
            let whole = format!("02 06 {} {BODY}", mixed(kinds, on.points));
            loads_on(&on, &hex(&whole), &format!("refused 10 at {}", hex(&whole).len()));
            let front = format!("02 06 {}", mixed(kinds, on.points));
            let line = format!("refused 6 at {}", hex(&front).len());
            // 6 comes before 7 and 25.
            let strays = [owned(65_535), "14 0100 0000 0000 0000".to_string()];
            for last in [POINT, point, "07 0100 0000 0000", &strays[0], &strays[1]] {
                let sheet = hex(&format!("{front} {last} {BODY}"));
                loads_on(&on, &sheet, &line);
                tests_on(&on, &sheet, 9, &[99; 5_000], &line);
            }
        }
    }
}

/// All choices of `many` of some numbers.
fn choices(of: usize, many: usize) -> Vec<Vec<usize>> {
    (0..many).fold(vec![vec![]], |lists, _| {
        let longer = |list: &Vec<usize>| -> Vec<Vec<usize>> {
            (0..of).map(|number| [&list[..], &[number]].concat()).collect()
        };
        lists.iter().flat_map(longer).collect()
    })
}

/// Every entry, exit and failed exit: each that has an owner has the method's number.
#[test]
fn owners_of_a_method() {
    let owners = [None, Some(0), Some(1), Some(2)];
    for number in 0..3 {
        let front = format!("{} {}", head(&owners), BODY.repeat(number));
        let behind = BODY.repeat(2 - number);
        for points in [choices(4, 2), choices(4, 3)].concat() {
            let other = |point: &usize| owners[*point].is_some_and(|owner| owner != number);
            let refusal = points.iter().any(other).then_some(24);
            judged(&front, &body(&points), &behind, refusal);
        }
    }
}

/// Every choice of the points that a step joins: no two have different owners.
#[test]
fn owners_of_a_step() {
    let owners = [None, Some(0), Some(1), Some(0), Some(4)];
    let methods =
        [BODY, PRIMITIVE, FAILING_PRIMITIVE, &body(&[0; 3]), PRIMITIVE].concat().to_string();
    let front = format!("12 {} {methods}", head(&owners));
    let judge = |points: &[usize], step: String| {
        let mut known: Vec<usize> = points.iter().filter_map(|&point| owners[point]).collect();
        known.dedup();
        judged(&front, &step, "", (known.len() > 1).then_some(24));
    };
    for points in choices(owners.len(), 2) {
        judge(&points, format!("0A {} 1F", names(&points)));
        judge(&points, format!("0C {}", names(&points)));
        for method in [0, 1] {
            judge(&points, format!("0B {} {}", names(&points), names(&[method])));
        }
    }
    for points in choices(owners.len(), 3) {
        for method in [2, 3] {
            judge(&points, format!("11 {} {}", names(&points), names(&[method])));
        }
    }
    // A stop joins nothing.
    for point in 0..owners.len() {
        judged(&front, &format!("13 {}", names(&[point])), "", None);
    }
}

/// The method that is called is not compared, nor are its points.
#[test]
fn owners_and_calls() {
    let owners = [Some(0), Some(1), Some(2), Some(0), Some(1), Some(2)];
    let methods = format!("{} {} {PRIMITIVE}", body(&[0, 3]), body(&[1, 4]));
    let front = format!("{} {methods}", head(&owners));
    for method in 0..3 {
        for point in 0..3 {
            judged(&front, &format!("0B {}", names(&[point, point + 3, method])), "", None);
        }
    }
}

/// Each number up to the last method's is an owner, also of a primitive, and of a method
/// that stands behind the point, as all do.
#[test]
fn unknown_owners() {
    for methods in [1, 2, 63, 64] {
        let behind = format!("{BODY} {}", PRIMITIVE.repeat(methods - 1));
        for owner in [0, methods - 1] {
            let text = format!("02 06 {POINT} {} {behind}", owned(owner));
            refused(&text, &format!("refused 10 at {}", hex(&text).len()));
        }
        for owner in [methods, methods + 1, 64, 255, 256, 256 + methods - 1, 65_535] {
            refused(&format!("02 06 {POINT} {} {behind}", owned(owner)), "refused 25 at 9");
        }
    }
}

/// The first such point counts.
#[test]
fn the_first_unknown_owner() {
    for (owners, at) in [
        (&[None, Some(0), Some(1), Some(2)][..], 18),
        (&[None, Some(1), Some(0), Some(7)], 9),
        (&[None, Some(9), None, Some(1)], 9),
        (&[None, None, None, Some(0), None, Some(0), Some(1), None], 48),
        (&[None, Some(0), None, None, Some(3), Some(0)], 32),
    ] {
        for behind in ["", "0E", &pass(0, 0)] {
            refused(&format!("{} {BODY} {behind}", head(owners)), &format!("refused 25 at {at}"));
        }
    }
}

#[test]
fn tally_and_words() {
    let front = head(&[None, Some(0), None, Some(1)]);
    let sheet = hex(&format!("{front} {BODY} {PRIMITIVE} {} {PAIR} 0E", pass(1, 2)));
    let counts = Counts { conditions: 1, points: 4, methods: 2, steps: 1, certificates: 1 };
    for on in ALL {
        for doors in every() {
            assert_eq!((doors.read)(&on, &sheet), Ok(counts), "{}", doors.name);
        }
        tests_on(&on, &sheet, 0, &[], "yes");
        tests_on(&on, &sheet, 0, &[0], "no 0");
        tests_on(&on, &sheet, 1, &[], "refused 14");
    }
}

/// With right owners, of all points or of some, a sheet has the answer that it has
/// without; refusal 10 has the other length.
#[test]
fn the_same_answer_with_right_owners() {
    let mut random = Random::new(91);
    let mut seen = [0; 3];
    while seen.iter().any(|&count| count < 100) {
        let sheet = sheets::sheet(&mut random);
        let Ok(parts) = naive::read_sheet(&LARGE, &sheet) else { continue };
        let mut owners = sheets::right_owners(&parts, &mut random);
        let dropped = random.below(3);
        owners.iter_mut().filter(|_| random.below(3) < dropped).for_each(|owner| *owner = None);
        let owned = sheets::give_owners(&sheet, &owners);
        if sheets::points(&sheet).1 > 0 || owned.len() > LARGE.bytes {
            continue;
        }
        for doors in every() {
            let [plain, with] = [&sheet, &owned].map(|sheet| (doors.load)(&LARGE, sheet));
            let (which, expected) = match plain {
                Verdict::Accepted(_) => (0, plain),
                Verdict::Unproved { .. } => (1, plain),
                Verdict::Refused(Refusal { number, .. }) => {
                    (2, Verdict::Refused(Refusal::at(number, owned.len())))
                }
            };
            assert_eq!(with, expected, "{}: {plain}", doors.name);
            seen[which] += (owned.len() > sheet.len()) as usize;
        }
    }
}

/// Random sheets are refused with 24 at each kind of record, and with 25, on both
/// instruments; and such with owners are accepted and unproved.
#[test]
fn random_sheets() {
    let mut random = Random::new(92);
    let mut seen: BTreeMap<(&str, String), usize> = BTreeMap::new();
    for _ in 0..8_000 {
        let sheet = sheets::sheet(&mut random);
        for on in ALL {
            let what = match (reference::load(&on, &sheet), sheets::points(&sheet)) {
                (Verdict::Refused(Refusal { number: 24, place: Some(at) }), _) => {
                    format!("24 at kind {}", sheet[at])
                }
                (Verdict::Refused(refusal), _) => refusal.number.to_string(),
                (Verdict::Accepted(_), (all, owned)) if all == owned => "all owned".to_string(),
                (Verdict::Accepted(_), (_, 1..)) => "some owned".to_string(),
                (Verdict::Unproved { .. }, (_, 1..)) => "unproved, owned".to_string(),
                _ => continue,
            };
            *seen.entry((on.name, what)).or_default() += 1;
        }
    }
    let kinds = [9, 10, 11, 12, 16, 17].map(|kind| format!("24 at kind {kind}"));
    let others = ["25", "all owned", "some owned", "unproved, owned"].map(str::to_string);
    for on in ALL {
        for what in kinds.iter().chain(&others) {
            let count = seen.get(&(on.name, what.clone()));
            assert!(count.is_some_and(|&count| count > 20), "{what}: {seen:?}");
        }
    }
}
