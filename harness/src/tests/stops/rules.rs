//! Rules 25 and 26, their order, their certificates and the count.
use super::stopping;
use crate::answer::Verdict;
use crate::instrument::{Instrument, ENTRY, LARGE};
use crate::naive::{self, Ask};
use crate::random::Random;
use crate::sheets::{self, certificate, Draft, Method, Step};
use crate::smaller::{self, Way};
use crate::tests::{loads, BOTH};
use crate::tree::{Tree, TWO_CHANNELS};
use std::collections::BTreeSet;

/// The points of `stopping` that the rules are about.
const FROM: usize = 1;
const STOP: usize = 4;
const ENTRY_POINT: usize = 5;

const DUE: usize = 2;

/// The count of `stopping` with so many outcomes of the call.
fn count(outcomes: usize) -> usize {
    if outcomes == 1 {
        17
    } else {
        23
    }
}

/// The line for `stopping` with other conditions of points.
fn changed(outcomes: usize, changes: &[(usize, usize, Tree)], line: &str) {
    let mut draft = stopping(outcomes);
    for (point, which, tree) in changes {
        draft.points[*point][*which] = draft.condition(tree);
    }
    loads(&draft.certified(), line);
}

#[test]
fn a_stop() {
    let line = "unproved rule 25 step 1 clause 5 pair 0 event 0 place 0";
    for outcomes in [1, 2] {
        let accepted = format!("accepted {}", count(outcomes));
        changed(outcomes, &[], &accepted);
        for tree in [Tree::Leaf(0), Tree::event(3), Tree::event(0).join(Tree::any())] {
            changed(outcomes, &[(STOP, DUE, tree)], line);
        }
        for tree in [Tree::Empty, Tree::event(3).star(), Tree::event(3).either(Tree::Empty)] {
            changed(outcomes, &[(STOP, DUE, tree)], &accepted);
        }
        // Nothing is asked of past and own.
        for which in [0, 1] {
            changed(outcomes, &[(STOP, which, Tree::Leaf(0))], &accepted);
        }
    }
}

/// Each stop is a subject of its own, whether or not a run can reach it.
#[test]
fn each_stop() {
    let mut draft = stopping(1);
    let none = draft.condition(&Tree::Leaf(0));
    draft.steps.extend([Step::Stop(0), Step::Pass(2, 2), Step::Stop(3), Step::Stop(3)]);
    loads(&draft.certified(), "accepted 23");
    draft.points[3][DUE] = none;
    loads(&draft.certified(), "unproved rule 25 step 4 clause 5 pair 0 event 0 place 0");
    draft.steps.swap(4, 2);
    loads(&draft.certified(), "unproved rule 25 step 2 clause 5 pair 0 event 0 place 0");
}

/// What is due at the entry is due at the calling point. The method that is called has no
/// stop, and no run reaches the call.
#[test]
fn a_call_of_a_method_with_body() {
    let [zero, one] = [0, 1].map(Tree::event);
    for outcomes in [1, 2] {
        let accepted = format!("accepted {}", count(outcomes));
        let both = zero.clone().either(one.clone());
        let due = |entry: &Tree, from: &Tree| {
            [(ENTRY_POINT, DUE, entry.clone()), (FROM, DUE, from.clone())]
        };
        for (entry, from) in [(&zero, &zero), (&zero, &both), (&Tree::Leaf(0), &Tree::Leaf(0))] {
            changed(outcomes, &due(entry, from), &accepted);
        }
        for (entry, from, fault) in [
            (&zero, &one, "clause 3 pair 1 event 0 place 0"),
            (&both, &zero, "clause 3 pair 2 event 0 place 0"),
            (&zero, &Tree::Leaf(0), "clause 3 pair 1 event 0 place 0"),
            (&Tree::Empty, &zero, "clause 3 pair 0 event 0 place 0"),
        ] {
            let line = format!("unproved rule 26 step 0 {fault}");
            changed(outcomes, &due(entry, from), &line);
        }
    }
}

/// Rule 26 is of the due at the entry and at the calling point, and of nothing else.
#[test]
fn the_sides_of_rule_26() {
    let zero = || Tree::event(0);
    for outcomes in [1, 2] {
        let accepted = format!("accepted {}", count(outcomes));
        let due = [(ENTRY_POINT, DUE, zero()), (FROM, DUE, zero())];
        for more in [(FROM, 0), (FROM, 1), (2, 2), (3, 2), (6, 0), (7, 0)] {
            let changes = [&due[..], &[(more.0, more.1, Tree::Leaf(0))]].concat();
            changed(outcomes, &changes, &accepted);
        }
    }
}

/// Without the first byte, rule 26 is not asked for; nor is it of a primitive.
#[test]
fn who_has_rule_26() {
    for outcomes in [1, 2] {
        let mut draft = stopping(outcomes);
        draft.steps.pop();
        draft.points[FROM][DUE] = draft.condition(&Tree::Leaf(0));
        let line = "unproved rule 26 step 0 clause 3 pair 0 event 0 place 0";
        loads(&draft.certified(), line);
        draft.new_edition = false;
        loads(&draft.certified(), &format!("accepted {}", count(outcomes) - 2));
        draft.new_edition = true;
        draft.methods[1].points = vec![];
        let body = [0, 4, 6][outcomes];
        loads(&draft.certified(), &format!("accepted {}", count(outcomes) - 2 - body));
    }
}

/// A certificate of rule 26 can fail by each clause.
#[test]
fn the_certificate_of_rule_26() {
    for outcomes in [1, 2] {
        let draft = stopping(outcomes);
        let mut lists = naive::read_sheet(&LARGE, &draft.certified()).unwrap().certificates;
        let last = lists.len() - 1;
        assert_eq!(lists[last], [(0, 1), (1, 2)]);
        let cases: [(&[(usize, u32)], &str); 8] = [
            (&[], "clause 1 pair 0 event 0 place 0"),
            (&[(1, 2), (0, 1)], "clause 1 pair 0 event 0 place 0"),
            (&[(0, 3), (1, 2)], "clause 1 pair 0 event 0 place 0"),
            (&[(0, 1), (1, 2), (2, 2)], "clause 2 pair 2 event 0 place 0"),
            (&[(0, 1), (1, 2), (1, 4)], "clause 2 pair 2 event 0 place 0"),
            (&[(0, 1), (1, 0)], "clause 3 pair 1 event 0 place 0"),
            (&[(0, 1)], "clause 4 pair 0 event 0 place 1"),
            (&[(0, 1), (1, 3)], "clause 4 pair 0 event 0 place 1"),
        ];
        for (pairs, fault) in cases {
            lists[last] = pairs.to_vec();
            let mut out = draft.bytes();
            lists.iter().for_each(|pairs| certificate(&mut out, pairs));
            loads(&out, &format!("unproved rule 26 step 0 {fault}"));
        }
    }
}

/// Methods of each sort, calls of each, and stops.
fn many(new_edition: bool) -> Draft {
    let mut draft = Draft { new_edition, ..Draft::default() };
    for _ in 0..4 {
        draft.point(&Tree::any(), &Tree::any(), &Tree::any());
    }
    draft.methods = vec![
        Method::new(&[0; 5], &[0, 0, 3]),
        Method::new(&[0; 3], &[1, 2]),
        Method::new(&[0; 3], &[]),
        Method::new(&[0; 5], &[]),
    ];
    draft.steps = vec![
        Step::Call(1, 2, 1),
        Step::Failing(2, 3, 0, 0),
        Step::Call(3, 3, 2),
        Step::Event(2, 3, 31),
        Step::Failing(1, 2, 3, 3),
        Step::Call(0, 0, 1),
        Step::Pass(0, 3),
    ];
    if new_edition {
        draft.steps.insert(1, Step::Stop(2));
        draft.steps.push(Step::Stop(0));
    }
    draft
}

/// Rules that have no certificate.
const BARE: [usize; 5] = [1, 2, 4, 24, 25];

/// The rules of `many` and their subjects, in order.
fn many_rules(new_edition: bool) -> Vec<(usize, usize)> {
    let of = |rules: &[usize], subject: usize| {
        rules.iter().map(|&rule| (rule, subject)).collect::<Vec<_>>()
    };
    let call = [10, 11, 12, 13, 14];
    let failing = [10, 11, 12, 13, 14, 18, 19, 20, 21];
    let methods = [of(&[1, 2, 3, 4, 5, 6, 22, 23, 24], 0), of(&[3, 4, 5, 6], 1)].concat();
    let steps = match new_edition {
        false => [
            of(&call, 0),
            of(&failing, 1),
            of(&call, 2),
            of(&[7, 8, 9], 3),
            of(&failing, 4),
            of(&call, 5),
            of(&[15, 16, 17], 6),
        ]
        .concat(),
        true => [
            of(&call, 0),
            of(&[26], 0),
            of(&[25], 1),
            of(&failing, 2),
            of(&[26], 2),
            of(&call, 3),
            of(&[7, 8, 9], 4),
            of(&failing, 5),
            of(&call, 6),
            of(&[26], 6),
            of(&[15, 16, 17], 7),
            of(&[25], 8),
        ]
        .concat(),
    };
    [methods, steps].concat()
}

/// With the first certificates as they are and the others empty, the first fault is that
/// of the first empty one.
#[test]
fn the_order_of_certificates() {
    for new_edition in [false, true] {
        let draft = many(new_edition);
        let sheet = draft.certified();
        let lists = naive::read_sheet(&LARGE, &sheet).unwrap().certificates;
        let rules = many_rules(new_edition);
        let listed = rules.iter().filter(|(rule, _)| !BARE.contains(rule));
        assert_eq!(listed.clone().count(), lists.len());
        loads(&sheet, &format!("accepted {}", rules.len()));
        for (number, (rule, subject)) in listed.enumerate() {
            let mut out = draft.bytes();
            for (i, pairs) in lists.iter().enumerate() {
                certificate(&mut out, if i < number { pairs } else { &[] });
            }
            let who = if matches!(rule, 7..=21 | 26) { "step" } else { "method" };
            let rest = "clause 1 pair 0 event 0 place 0";
            loads(&out, &format!("unproved rule {rule} {who} {subject} {rest}"));
        }
    }
}

/// Rule 25 stands behind the rules of the steps before, and before those of the next.
#[test]
fn the_order_of_rule_25() {
    let mut draft = many(true);
    // The stop at step 1 alone is at a point without the empty word due.
    draft.point(&Tree::any(), &Tree::any(), &Tree::event(0));
    draft.steps[1] = Step::Stop(4);
    let lists = naive::read_sheet(&LARGE, &draft.certified()).unwrap().certificates;
    // Eight of methods, and six of step 0.
    for (good, line) in [
        (13, "unproved rule 26 step 0 clause 1 pair 0 event 0 place 0"),
        (14, "unproved rule 25 step 1 clause 5 pair 0 event 0 place 0"),
    ] {
        let mut out = draft.bytes();
        for (i, pairs) in lists.iter().enumerate() {
            certificate(&mut out, if i < good { pairs } else { &[] });
        }
        loads(&out, line);
    }
}

/// The list of rules of the plain loader, which makes certificates for drafts.
#[test]
fn rules_by_number() {
    for new_edition in [false, true] {
        let sheet = naive::read_sheet(&LARGE, &many(new_edition).certified()).unwrap();
        let rules = naive::rules(&sheet);
        let numbers: Vec<(usize, usize)> =
            rules.iter().map(|rule| (rule.number, rule.subject)).collect();
        assert_eq!(numbers, many_rules(new_edition));
        for rule in rules {
            assert_eq!(matches!(rule.ask, Ask::Empty(_)), BARE.contains(&rule.number));
        }
    }
}

/// Both editions of a sheet, with as many certificates as are needed, one more and one
/// fewer.
#[test]
fn counts_and_certificates() {
    let body = |outcomes: usize| Method::new(&vec![0; 1 + 2 * outcomes], &vec![0; 1 + outcomes]);
    let primitive = |outcomes: usize| Method::new(&vec![0; 1 + 2 * outcomes], &[]);
    let methods = vec![body(1), body(2), primitive(1), primitive(2)];
    // Steps, and their certificates in both editions; the methods have 8.
    let calls = [0, 2].map(|method| Step::Call(0, 0, method));
    let failing = [1, 3].map(|method| Step::Failing(0, 0, 0, method));
    let cases: [(Vec<Step>, [usize; 2]); 8] = [
        (vec![], [0, 0]),
        (vec![calls[0].clone()], [5, 6]),
        (vec![calls[1].clone()], [5, 5]),
        (vec![failing[0].clone()], [9, 10]),
        (vec![failing[1].clone()], [9, 9]),
        ([&calls[..], &failing].concat(), [28, 30]),
        (vec![failing[0].clone(); 7], [63, 70]),
        (vec![Step::Pass(0, 0), Step::Pass(0, 0), calls[0].clone()], [11, 12]),
    ];
    for (steps, needed) in cases {
        for (new_edition, needed) in [false, true].into_iter().zip(needed) {
            for stops in 0..if new_edition { 3 } else { 1 } {
                let mut draft = sheets::least();
                draft.new_edition = new_edition;
                draft.methods = methods.clone();
                draft.steps = [&steps[..], &vec![Step::Stop(0); stops]].concat();
                let sheet = draft.certified();
                loads(&sheet, &format!("accepted {}", 2 + 2 + 8 + needed + stops));
                let found = naive::read_sheet(&LARGE, &sheet).unwrap().certificates.len();
                assert_eq!(found, 8 + needed);
                let more = [&sheet[..], &[14]].concat();
                loads(&more, &format!("refused 10 at {}", more.len()));
                // Each certificate is one pair and an end.
                let fewer = &sheet[..sheet.len() - 7];
                loads(fewer, &format!("refused 10 at {}", fewer.len()));
            }
        }
    }
}

#[test]
fn both_sides_of_rule_26_have_31_leaves() {
    let heavy = sheets::row(31).star();
    for outcomes in [1, 2] {
        let accepted = format!("accepted {}", count(outcomes));
        let due = |point: usize| (point, DUE, heavy.clone());
        changed(outcomes, &[due(FROM), due(ENTRY_POINT), due(STOP)], &accepted);
    }
}

/// On an instrument that takes more bytes, a stop may stand behind the first 65,536. With
/// the most points that the reference takes, the last method starts just before them.
#[test]
fn behind_65536_bytes() {
    // Of 96 records with 31 leaves: one holds the empty word alone, the other does not.
    let dead =
        |leaves: usize| (1..leaves).fold(Tree::Leaf(0), |tree, _| tree.either(Tree::Leaf(0)));
    let starred = |leaves: Tree| (0..35).fold(leaves, |tree, _| tree.star());
    let mut draft = Draft { new_edition: true, ..Draft::default() };
    draft.conditions = vec![starred(dead(31)); 256];
    draft.conditions[255] = starred(dead(30)).join(Tree::Leaf(TWO_CHANNELS));
    draft.points = vec![[0; 3]; 876];
    draft.points[875] = [0, 0, 255];
    // Those that no record names have owners.
    let owners: Vec<Option<usize>> = (0..875).map(|point| (point > 0).then_some(63)).collect();
    draft.methods = vec![Method::new(&[0; 5], &[0; 3]); 64];
    draft.steps = vec![Step::Stop(0); 512];
    draft.steps[510] = Step::Failing(0, 0, 0, 63);
    let on = Instrument::of(200_000, 876);
    let load = |draft: &Draft, line: &str| {
        let mut sheet = sheets::give_owners(&draft.bytes(), &owners);
        let last_method = 1 + 256 * 221 + 874 * 9 + 2 * 7 + 63 * 17;
        assert_eq!((last_method, sheet[last_method]), (65_528, 16));
        (0..64 * 5 + 10).for_each(|_| certificate(&mut sheet, &[(0, 1)]));
        for doors in BOTH {
            assert_eq!((doors.load)(&on, &sheet).to_string(), line, "{}", doors.name);
        }
    };
    load(&draft, "accepted 908");
    let mut other = draft.clone();
    other.steps[511] = Step::Stop(875);
    load(&other, "unproved rule 25 step 511 clause 5 pair 0 event 0 place 0");
    other.methods[63].points[2] = 875;
    load(&other, "unproved rule 23 method 63 clause 3 pair 0 event 0 place 0");
}

/// Honest drafts are accepted, if their certificates are whole.
#[test]
fn honest_drafts() {
    let mut random = Random::new(62);
    let mut seen = [0; 3];
    for _ in 0..600 {
        let draft = sheets::stopping(&mut random);
        let sheet = draft.certified();
        let parts = naive::read_sheet(&LARGE, &sheet).unwrap();
        if parts.certificates.iter().any(|pairs| pairs.len() == sheets::MOST_PAIRS) {
            continue;
        }
        for doors in BOTH {
            let verdict = (doors.load)(&LARGE, &sheet);
            assert!(matches!(verdict, Verdict::Accepted(_)), "{}: {verdict}", doors.name);
        }
        let rules = naive::rules(&parts);
        let asks = |rule: &&naive::Rule| match &rule.ask {
            // Neither side holds every word, and they are not the same.
            Ask::Within(left, right) => rule.number == 26 && left != right && *right != Tree::any(),
            Ask::Empty(_) => false,
        };
        seen[0] += rules.iter().filter(|rule| rule.number == 25).count();
        seen[1] += rules.iter().filter(|rule| rule.number == 26).count();
        seen[2] += rules.iter().filter(asks).count();
    }
    assert!(seen.iter().all(|&count| count > 400), "{seen:?}");
}

/// The same with sides of many leaves.
#[test]
fn large_drafts() {
    let mut random = Random::new(63);
    let mut accepted = 0;
    for _ in 0..60 {
        let draft = sheets::large_stopping(&mut random);
        let sheet = draft.certified();
        let parts = naive::read_sheet(&LARGE, &sheet).unwrap();
        let whole = parts.certificates.iter().all(|pairs| pairs.len() < sheets::MOST_PAIRS);
        let verdict = (BOTH[0].load)(&LARGE, &sheet);
        assert_eq!((BOTH[1].load)(&LARGE, &sheet), verdict);
        assert!(!whole || matches!(verdict, Verdict::Accepted(_)), "{verdict}");
        accepted += whole as usize;
    }
    assert!(accepted > 20, "{accepted}");
}

/// 25 and 26 are the first fault of some random sheet by each of their clauses, and 19
/// and 20 the first refusal. About half of the accepted sheets are of the new edition.
#[test]
fn random_sheets_meet_every_rule() {
    let mut random = Random::new(64);
    let mut missing: BTreeSet<(usize, usize)> = (1..=4).map(|clause| (26, clause)).collect();
    missing.extend([(25, 5), (0, 19), (0, 20)]);
    let mut accepted = [0; 2];
    for number in 0..20_000 {
        let sheet = sheets::sheet(&mut random);
        match (BOTH[0].load)(&LARGE, &sheet) {
            Verdict::Unproved { rule, fault, .. } => missing.remove(&(rule, fault.clause)),
            Verdict::Refused(refusal) => missing.remove(&(0, refusal.number)),
            Verdict::Accepted(_) => {
                accepted[sheets::is_new(&sheet) as usize] += 1;
                continue;
            }
        };
        if missing.is_empty() && number > 1_500 {
            break;
        }
    }
    assert!(missing.is_empty(), "{missing:?}");
    let [old, new] = accepted;
    assert!(2 * old < 3 * new && 2 * new < 3 * old, "{old} {new}");
}

/// Request 8's statement on sheets of the new edition.
#[test]
fn on_a_smaller_instrument() {
    let mut random = Random::new(65);
    let mut seen = [0; 3];
    for _ in 0..300 {
        let sheet = sheets::stopping(&mut random).certified();
        let pair = sheets::limits(&sheet, &mut random);
        for pair in [pair, [ENTRY, LARGE]] {
            for doors in BOTH {
                let [one, two] = pair.map(|on| (doors.load)(&on, &sheet));
                let way = smaller::way(&pair, &sheet, &[], one.refusal(), one == two);
                seen[match way.unwrap() {
                    Way::TooLong => 0,
                    Way::TooMany => 1,
                    Way::Same => 2,
                    // Nothing in these sheets is of the four-channel instrument alone.
                    other => panic!("{other:?}"),
                }] += 1;
            }
        }
    }
    assert!(seen.iter().all(|&count| count > 50), "{seen:?}");
}
