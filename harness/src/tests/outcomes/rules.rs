//! Rules 18 to 24, their order, their certificates and the count.
use super::failing;
use crate::answer::{Fault, Verdict};
use crate::instrument::{Instrument, ENTRY, LARGE};
use crate::naive::{self, Ask};
use crate::random::Random;
use crate::sheets::{self, certificate, Draft, Method, Step};
use crate::smaller::{self, Way};
use crate::tests::{loads, BOTH};
use crate::tree::{Tree, TWO_CHANNELS};
use std::collections::BTreeSet;

const THIRD: &str = "clause 3 pair 0 event 0 place 0";

/// A condition that holds no word, with its number.
fn none(draft: &mut Draft) -> usize {
    draft.condition(&Tree::Leaf(0))
}

/// The line after one change of the draft whose conditions hold every word.
fn changed(change: impl Fn(&mut Draft, usize), line: &str) {
    let mut draft = failing();
    let none = none(&mut draft);
    change(&mut draft, none);
    loads(&draft.certified(), line);
}

#[test]
fn each_rule_of_a_call() {
    loads(&failing().certified(), "accepted 18");
    let step = |rule: usize| format!("unproved rule {rule} step 0 {THIRD}");
    changed(|draft, none| draft.methods[1].conditions[0] = none, &step(10));
    changed(|draft, none| draft.points[2][0] = none, &step(11));
    changed(|draft, none| draft.points[2][1] = none, &step(12));
    changed(|draft, none| draft.methods[1].conditions[2] = none, &step(13));
    changed(|draft, none| draft.points[3][0] = none, &step(18));
    changed(|draft, none| draft.points[3][1] = none, &step(19));
    changed(|draft, none| draft.methods[1].conditions[4] = none, &step(20));
    // Without a word of the trace, 14 asks for nothing; without one of the failed
    // trace, 21.
    let due = |trace: usize| {
        move |draft: &mut Draft, none: usize| {
            draft.points[1][2] = none;
            draft.methods[1].conditions[trace] = none;
        }
    };
    changed(due(1), &step(21));
    changed(due(3), &step(14));
    // The due of each target is its own.
    changed(|draft, none| draft.points[2][2] = none, "accepted 18");
    changed(|draft, none| draft.points[3][2] = none, "accepted 18");
    let other_due = |target: usize, future: usize| {
        move |draft: &mut Draft, none: usize| {
            draft.points[target][2] = none;
            draft.methods[1].conditions[future] = none;
        }
    };
    changed(other_due(2, 2), "accepted 18");
    changed(other_due(3, 4), "accepted 18");
    changed(other_due(3, 2), &step(13));
    changed(other_due(2, 4), &step(20));
}

/// The same of a method with body, whose own rules ask for its traces.
#[test]
fn each_rule_of_a_call_of_a_body() {
    let changed = |change: &dyn Fn(&mut Draft, usize), line: &str| {
        changed(
            |draft, none| {
                draft.methods[1].points = vec![0, 0, 4];
                change(draft, none);
            },
            line,
        )
    };
    let step = |rule: usize| format!("unproved rule {rule} step 0 {THIRD}");
    changed(&|_, _| {}, "accepted 24");
    changed(&|draft, none| draft.methods[1].conditions[0] = none, &step(10));
    changed(&|draft, none| draft.points[2][0] = none, &step(11));
    changed(&|draft, none| draft.points[2][1] = none, &step(12));
    changed(&|draft, none| draft.methods[1].conditions[2] = none, &step(13));
    changed(&|draft, none| draft.points[1][2] = none, &step(14));
    changed(&|draft, none| draft.points[3][0] = none, &step(18));
    changed(&|draft, none| draft.points[3][1] = none, &step(19));
    changed(&|draft, none| draft.methods[1].conditions[4] = none, &step(20));
    let method = |rule: usize| format!("unproved rule {rule} method 1 {THIRD}");
    changed(&|draft, none| draft.methods[1].conditions[1] = none, &method(5));
    changed(&|draft, none| draft.methods[1].conditions[3] = none, &method(22));
}

#[test]
fn each_rule_of_a_method() {
    let method = |rule: usize| format!("unproved rule {rule} method 0 {THIRD}");
    changed(|draft, none| draft.methods[0].conditions[1] = none, &method(5));
    changed(|draft, none| draft.points[0][2] = none, &method(6));
    changed(|draft, none| draft.methods[0].conditions[3] = none, &method(22));
    changed(|draft, none| draft.points[4][2] = none, &method(23));
    let empty =
        |rule: usize| format!("unproved rule {rule} method 0 clause 5 pair 0 event 0 place 0");
    changed(|draft, none| draft.methods[0].conditions[0] = none, &empty(1));
    changed(|draft, none| draft.methods[0].conditions[2] = none, &empty(2));
    changed(|draft, none| draft.methods[0].conditions[4] = none, &empty(24));
    // The failed exit's past is asked for nothing, and so is its own where there is no
    // word.
    changed(|draft, none| draft.points[4][0] = none, "accepted 18");
    changed(
        |draft, none| {
            draft.points[4][1] = none;
            draft.methods[0].conditions[3] = none;
        },
        "accepted 18",
    );
}

/// A method that can fail is 24's subject if it is the first, and no other.
#[test]
fn rule_24_is_of_the_first_method() {
    let mut draft = failing();
    let none = none(&mut draft);
    draft.methods[1].points = vec![0, 0, 4];
    draft.steps = vec![Step::Pass(0, 0)];
    loads(&draft.certified(), "accepted 18");
    draft.methods[1].conditions[4] = none;
    loads(&draft.certified(), "accepted 18");
    draft.methods[0].conditions[4] = none;
    loads(&draft.certified(), "unproved rule 24 method 0 clause 5 pair 0 event 0 place 0");
}

/// Two methods of each sort and two calls of each.
fn many() -> Draft {
    let mut draft = failing();
    let (one, two) = (Method::new(&[0; 3], &[1, 2]), Method::new(&[0; 5], &[3, 1, 2]));
    draft.methods.extend([one, two, Method::new(&[0; 3], &[])]);
    draft.steps = vec![
        Step::Failing(1, 2, 3, 1),
        Step::Event(2, 3, 31),
        Step::Call(3, 3, 4),
        Step::Failing(4, 1, 2, 3),
        Step::Pass(0, 4),
        Step::Call(1, 1, 2),
        Step::Failing(2, 2, 2, 0),
    ];
    draft
}

/// The rules of `many` and their subjects, in order; those with no certificate too.
fn many_rules() -> Vec<(usize, usize)> {
    let method =
        |rules: &[usize], m: usize| rules.iter().map(|&rule| (rule, m)).collect::<Vec<_>>();
    let call = [10, 11, 12, 13, 14];
    let failing = [10, 11, 12, 13, 14, 18, 19, 20, 21];
    [
        method(&[1, 2, 3, 4, 5, 6, 22, 23, 24], 0),
        method(&[3, 4, 5, 6], 2),
        method(&[3, 4, 5, 6, 22, 23], 3),
        method(&failing, 0),
        method(&[7, 8, 9], 1),
        method(&call, 2),
        method(&failing, 3),
        method(&[15, 16, 17], 4),
        method(&call, 5),
        method(&failing, 6),
    ]
    .concat()
}

/// With the first certificates as they are and the others empty, the first fault is
/// that of the first empty one.
#[test]
fn the_order_of_certificates() {
    let draft = many();
    let sheet = draft.certified();
    let lists = naive::read_sheet(&LARGE, &sheet).unwrap().certificates;
    let rules = many_rules();
    let listed: Vec<&(usize, usize)> =
        rules.iter().filter(|(rule, _)| ![1, 2, 4, 24].contains(rule)).collect();
    assert_eq!(listed.len(), lists.len());
    loads(&sheet, &format!("accepted {}", rules.len()));
    for (number, (rule, subject)) in listed.into_iter().enumerate() {
        let mut out = draft.bytes();
        for (i, pairs) in lists.iter().enumerate() {
            certificate(&mut out, if i < number { pairs } else { &[] });
        }
        let who = if matches!(rule, 7..=21) { "step" } else { "method" };
        let rest = "clause 1 pair 0 event 0 place 0";
        loads(&out, &format!("unproved rule {rule} {who} {subject} {rest}"));
    }
}

/// Rule 24 stands behind 23 of the first method, and before the rules of the next.
#[test]
fn the_order_of_rule_24() {
    let mut draft = many();
    let none = none(&mut draft);
    draft.methods[0].conditions[4] = none;
    let lists = naive::read_sheet(&LARGE, &draft.certified()).unwrap().certificates;
    for (good, line) in [
        (4, "unproved rule 23 method 0 clause 1 pair 0 event 0 place 0"),
        (5, "unproved rule 24 method 0 clause 5 pair 0 event 0 place 0"),
    ] {
        let mut out = draft.bytes();
        for (i, pairs) in lists.iter().enumerate() {
            certificate(&mut out, if i < good { pairs } else { &[] });
        }
        loads(&out, line);
    }
}

/// The list of rules of the plain loader, which makes certificates for drafts.
#[test]
fn rules_by_number() {
    let sheet = naive::read_sheet(&LARGE, &many().certified()).unwrap();
    let rules = naive::rules(&sheet);
    let numbers: Vec<(usize, usize)> =
        rules.iter().map(|rule| (rule.number, rule.subject)).collect();
    assert_eq!(numbers, many_rules());
    for rule in rules {
        assert_eq!(matches!(rule.ask, Ask::Empty(_)), [1, 2, 4, 24].contains(&rule.number));
    }
}

#[test]
fn counts_and_certificates() {
    let any = |count: usize| vec![0; count];
    let body = |outcomes: usize| Method::new(&any(1 + 2 * outcomes), &any(1 + outcomes));
    let primitive = |outcomes: usize| Method::new(&any(1 + 2 * outcomes), &[]);
    let cases: [(Vec<Method>, Vec<Step>, usize, usize); 7] = [
        (vec![body(1)], vec![], 6, 3),
        (vec![body(2)], vec![], 9, 5),
        (vec![body(1), body(2)], vec![], 12, 8),
        (vec![body(2), body(2)], vec![], 15, 10),
        (vec![body(1), primitive(2)], vec![], 6, 3),
        (vec![body(1), primitive(2)], vec![Step::Failing(0, 0, 0, 1); 3], 33, 30),
        (vec![body(2), primitive(1)], vec![Step::Failing(0, 0, 0, 0), Step::Call(0, 0, 1)], 23, 19),
    ];
    for (methods, steps, count, certificates) in cases {
        let mut draft = sheets::least();
        draft.methods = methods;
        draft.steps = steps;
        let sheet = draft.certified();
        loads(&sheet, &format!("accepted {count}"));
        let found = naive::read_sheet(&LARGE, &sheet).unwrap().certificates.len();
        assert_eq!(found, certificates);
        let more = [&sheet[..], &[14]].concat();
        loads(&more, &format!("refused 10 at {}", more.len()));
        // Each certificate is one pair and an end.
        let fewer = &sheet[..sheet.len() - 7];
        loads(fewer, &format!("refused 10 at {}", fewer.len()));
    }
}

/// The failed trace is joined behind the past and the own, and before the due.
#[test]
fn sides_of_a_failed_call() {
    let words: [Tree; 4] = [0, 1, 2, 3].map(Tree::event);
    let [zero, one, two, three] = &words;
    let mut draft = failing();
    let both = |a: &Tree, b: &Tree| a.clone().join(b.clone());
    let name = |draft: &mut Draft, tree: Tree| draft.condition(&tree);
    draft.points[1] = [zero, one, &Tree::any()].map(|tree| draft.condition(tree));
    draft.points[2] = [0; 3];
    let failed_trace = name(&mut draft, two.clone());
    draft.methods[1].conditions[3] = failed_trace;
    let (past, own) = (name(&mut draft, both(zero, two)), name(&mut draft, both(one, two)));
    let due = name(&mut draft, three.clone());
    draft.points[3] = [past, own, due];
    draft.methods[1].conditions[4] = due;
    // T is empty, so that 14 leaves the due at the call to the failed side.
    let empty = none(&mut draft);
    draft.methods[1].conditions[1] = empty;
    draft.points[1][2] = name(&mut draft, both(two, three));
    loads(&draft.certified(), "accepted 18");
    let mut turned = draft.clone();
    turned.points[1][2] = name(&mut turned, both(three, two));
    loads(&turned.certified(), "unproved rule 21 step 0 clause 3 pair 2 event 0 place 0");
    let mut turned = draft.clone();
    turned.points[3][0] = own;
    loads(&turned.certified(), "unproved rule 18 step 0 clause 3 pair 2 event 0 place 0");
    draft.points[3][1] = past;
    loads(&draft.certified(), "unproved rule 19 step 0 clause 3 pair 2 event 0 place 0");
}

#[test]
fn both_sides_of_a_failed_call_have_62_leaves() {
    let heavy = sheets::row(31).star();
    let mut draft = failing();
    let name = draft.condition(&heavy);
    draft.points[1] = [name; 3];
    draft.points[3] = [name; 3];
    draft.methods[1].conditions = vec![0, 0, 0, name, name];
    loads(&draft.certified(), "accepted 18");
}

#[test]
fn lines() {
    for rule in 1..=26 {
        let fault = Fault { clause: 4, pair: 5, event: 6, place: 7 };
        let line = Verdict::Unproved { rule, subject: 3, fault }.to_string();
        let who = if rule <= 6 || (22..=24).contains(&rule) { "method" } else { "step" };
        assert_eq!(line, format!("unproved rule {rule} {who} 3 clause 4 pair 5 event 6 place 7"));
    }
}

/// On an instrument that takes more bytes, steps may stand behind the first 65,536.
#[test]
fn steps_behind_65536_bytes() {
    // 95 records with 31 leaves; its words have 31 events.
    let every = || Tree::Leaf(TWO_CHANNELS);
    let long = (0..17).fold(every(), |tree, _| tree.join(Tree::Empty));
    let long = (1..31).fold(long, |tree, _| tree.join(every()));
    let mut draft = Draft { conditions: vec![long; 256], ..Draft::default() };
    draft.conditions[0] = Tree::Empty;
    draft.points = vec![[0; 3]; 600];
    draft.points[599] = [1; 3];
    draft.methods = vec![Method::new(&[0; 5], &[0; 3]); 64];
    draft.steps = vec![Step::Failing(0, 0, 0, 1); 512];
    let on = Instrument::of(200_000, 600);
    let load = |draft: &Draft, line: &str| {
        let mut sheet = draft.bytes();
        assert!(sheet.len() - 9 > 65_536);
        (0..64 * 5 + 512 * 9).for_each(|_| certificate(&mut sheet, &[(0, 1)]));
        for doors in BOTH {
            assert_eq!((doors.load)(&on, &sheet).to_string(), line, "{}", doors.name);
        }
    };
    load(&draft, "accepted 4995");
    draft.steps[511] = Step::Failing(0, 0, 599, 1);
    load(&draft, &format!("unproved rule 18 step 511 {THIRD}"));
}

/// Honest drafts are accepted, if their certificates are whole.
#[test]
fn honest_drafts() {
    let mut random = Random::new(41);
    let mut calls = 0;
    for _ in 0..400 {
        let draft = sheets::failing(&mut random);
        let sheet = draft.certified();
        let parts = naive::read_sheet(&LARGE, &sheet).unwrap();
        if parts.certificates.iter().all(|pairs| pairs.len() < sheets::MOST_PAIRS) {
            for doors in BOTH {
                let verdict = (doors.load)(&LARGE, &sheet);
                assert!(matches!(verdict, Verdict::Accepted(_)), "{}: {verdict}", doors.name);
            }
            calls += draft.steps.iter().filter(|step| matches!(step, Step::Failing(..))).count();
        }
    }
    assert!(calls > 300, "{calls}");
}

/// Each new rule is the first fault of some random sheet by each of its clauses, and
/// 18 the first refusal.
#[test]
fn random_sheets_meet_every_rule() {
    let mut random = Random::new(42);
    let mut missing: BTreeSet<(usize, usize)> =
        (18..=23).flat_map(|rule| (1..=4).map(move |clause| (rule, clause))).collect();
    missing.extend([(24, 5), (0, 18)]);
    for _ in 0..40_000 {
        let sheet = sheets::sheet(&mut random);
        let verdict = (BOTH[0].load)(&LARGE, &sheet);
        missing.remove(&match verdict {
            Verdict::Unproved { rule, fault, .. } => (rule, fault.clause),
            Verdict::Refused(refusal) => (0, refusal.number),
            Verdict::Accepted(_) => continue,
        });
        if missing.is_empty() {
            return;
        }
    }
    panic!("{missing:?}");
}

/// Request 8's statement on sheets whose calls can fail.
#[test]
fn on_a_smaller_instrument() {
    let mut random = Random::new(43);
    let mut seen = [0; 3];
    for _ in 0..300 {
        let sheet = sheets::failing(&mut random).certified();
        let pair = sheets::limits(&sheet, &mut random);
        for pair in [pair, [ENTRY, LARGE]] {
            for doors in BOTH {
                let [one, two] = pair.map(|on| (doors.load)(&on, &sheet));
                let way = smaller::way(&pair, &sheet, &[], one.refusal(), one == two);
                seen[match way.unwrap() {
                    Way::TooLong => 0,
                    Way::TooMany => 1,
                    Way::Same => 2,
                    // Nothing in these sheets is of the four-channel instrument alone.
                    other => panic!("{other:?}"),
                }] += 1;
            }
        }
    }
    assert!(seen.iter().all(|&count| count > 50), "{seen:?}");
}
