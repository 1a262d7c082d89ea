//! The rules of a call by a channel, and clause 4 over 64 events.
use crate::answer::Verdict;
use crate::instrument::FOUR;
use crate::naive;
use crate::random::Random;
use crate::sheets::{self, certificate, Draft, Method, Step};
use crate::tests::{every, loads_on, BOTH};
use crate::tree::Tree;

fn any() -> Tree {
    Tree::Leaf(u64::MAX).star()
}

/// A first method at point 0, and a call of a primitive by a channel from point 1 to point
/// 2. All conditions hold every word.
fn by_channel(channel: u8) -> Draft {
    let mut draft = Draft::default();
    for _ in 0..3 {
        draft.point(&any(), &any(), &any());
    }
    draft.methods = vec![Method::new(&[0; 3], &[0, 0]), Method::new(&[0; 3], &[])];
    draft.steps.push(Step::Channel(1, 2, 1, channel));
    draft
}

/// The points of the call, what a point has, and what a method has.
const FROM: usize = 1;
const TO: usize = 2;
const PAST: usize = 0;
const OWN: usize = 1;
const DUE: usize = 2;
const PRE: usize = 0;
const TRACE: usize = 1;
const FUTURE: usize = 2;

/// The sheet where the primitive has a condition, and points have others.
fn with(channel: u8, (which, tree): (usize, Tree), points: &[(usize, usize, Tree)]) -> Draft {
    let mut draft = by_channel(channel);
    draft.methods[1].conditions[which] = draft.condition(&tree);
    for (point, which, tree) in points {
        draft.points[*point][*which] = draft.condition(tree);
    }
    draft
}

/// The exchange, written out.
fn exchanged(event: u8, channel: u8) -> u8 {
    let first = 16 * channel;
    if event < 16 {
        first + event
    } else if (first..first + 16).contains(&event) {
        event - first
    } else {
        event
    }
}

/// For each rule, each event of the primitive's condition, each channel, and some events
/// of the points' conditions: the rule holds for the exchanged event alone.
#[test]
fn each_event_and_channel() {
    let (empty, one) = (|| Tree::Empty, Tree::event);
    type Points = Vec<(usize, usize, Tree)>;
    type Case<'a> = (usize, usize, &'a dyn Fn(u8) -> Points);
    let cases: [Case; 5] = [
        (10, PRE, &|f| vec![(FROM, PAST, one(f))]),
        (11, TRACE, &|f| vec![(FROM, PAST, empty()), (TO, PAST, one(f))]),
        (12, TRACE, &|f| vec![(FROM, OWN, empty()), (TO, OWN, one(f))]),
        (13, FUTURE, &|f| vec![(TO, DUE, one(f))]),
        (14, TRACE, &|f| vec![(TO, DUE, empty()), (FROM, DUE, one(f))]),
    ];
    for (rule, which, points) in cases {
        for (event, channel) in (0..64).flat_map(|e| (0..4).map(move |c| (e, c))) {
            let right = exchanged(event, channel);
            for other in [right, event, event ^ 1, (event + 16) % 64, (event + 32) % 64] {
                let sheet = with(channel, (which, one(event)), &points(other)).certified();
                let line = match other == right {
                    true => "accepted 11".to_string(),
                    false => format!("unproved rule {rule} step 0 clause 3 pair 1 event 0 place 0"),
                };
                loads_on(&FOUR, &sheet, &line);
            }
        }
    }
}

/// Every leaf is exchanged, of both kinds, wherever it stands.
#[test]
fn each_leaf() {
    let mut random = Random::new(121);
    let mut seen = [0; 2];
    for _ in 0..400 {
        let shift = 16 * random.below(3);
        let tree = Tree::random(&mut random, 4).with_sets(&|set| set << shift);
        let (channel, other) = (random.below(4) as u8, random.below(4) as u8);
        for (which, point, what) in [(PRE, FROM, PAST), (FUTURE, TO, DUE)] {
            let points = [(point, what, tree.exchanged(other))];
            if !tree.fits() {
                continue;
            }
            let sheet = with(channel, (which, tree.clone()), &points).certified();
            let verdict = naive::load(&FOUR, &sheet);
            for doors in every() {
                assert_eq!((doors.load)(&FOUR, &sheet), verdict, "{}", doors.name);
            }
            assert!(channel != other || verdict == Verdict::Accepted(11), "{verdict}");
            seen[(verdict == Verdict::Accepted(11)) as usize] += 1;
        }
    }
    assert!(seen.iter().all(|&count| count > 100), "{seen:?}");
}

/// "Any" remains "any". A set of events 0 to 31 remains itself by channels 0 and 1.
#[test]
fn any_remains_any() {
    let accepted = "accepted 11";
    for channel in 0..4 {
        loads_on(&FOUR, &by_channel(channel).certified(), accepted);
        let low = || Tree::any();
        let points = [(FROM, PAST, low())];
        let sheet = with(channel, (PRE, low()), &points).certified();
        let line = match channel {
            0 | 1 => accepted,
            _ => "unproved rule 10 step 0 clause 3 pair 1 event 0 place 0",
        };
        loads_on(&FOUR, &sheet, line);
    }
}

/// A sheet with the first pair alone in one of its certificates.
fn first_pair(draft: &Draft, number: usize) -> Vec<u8> {
    let mut lists = naive::read_sheet(&FOUR, &draft.certified()).unwrap().certificates;
    lists[number].truncate(1);
    let mut out = draft.bytes();
    lists.iter().for_each(|pairs| certificate(&mut out, pairs));
    out
}

/// The event of a fault is that of the exchanged trace, or of a point's condition.
#[test]
fn faults() {
    // The first method has three certificates.
    let draft = with(3, (TRACE, Tree::event(4)), &[(FROM, PAST, Tree::Empty)]);
    let line = |rule: usize, event: usize| {
        format!("unproved rule {rule} step 0 clause 4 pair 0 event {event} place 1")
    };
    loads_on(&FOUR, &first_pair(&draft, 4), &line(11, 52));
    loads_on(&FOUR, &first_pair(&draft, 7), &line(14, 52));
    let draft = with(3, (TRACE, Tree::event(63)), &[(FROM, OWN, Tree::Empty)]);
    loads_on(&FOUR, &first_pair(&draft, 5), &line(12, 15));
    let points = [(FROM, PAST, Tree::event(63)), (TO, DUE, Tree::event(32))];
    let draft = with(2, (TRACE, Tree::Empty), &points);
    loads_on(&FOUR, &draft.certified(), "accepted 11");
    loads_on(&FOUR, &first_pair(&draft, 3), &line(10, 63));
    loads_on(&FOUR, &first_pair(&draft, 6), &line(13, 32));
}

/// Events up to 63 in order, and at one event places in order.
#[test]
fn first_event_then_first_place() {
    let optional =
        |sets: &[u64]| sets.iter().fold(Tree::Empty, |tree, &set| tree.either(Tree::Leaf(set)));
    let fault = |left: &Tree, pairs: &[(usize, u32)], rest: &str| {
        let mut draft = sheets::least();
        draft.methods[0].conditions[0] = draft.condition(left);
        draft.points[0][0] = draft.condition(&any());
        let mut out = draft.bytes();
        for pairs in [pairs, &[(0, 1)], &[(0, 1)]] {
            certificate(&mut out, pairs);
        }
        loads_on(&FOUR, &out, &format!("unproved rule 3 method 0 clause 4 pair 0 {rest}"));
    };
    let left = optional(&[1 << 63, 1 << 33]);
    fault(&left, &[(0, 1)], "event 33 place 2");
    fault(&left, &[(0, 1), (2, 2)], "event 63 place 1");
    fault(&left, &[(0, 1), (1, 2)], "event 33 place 2");
    let left = optional(&[1 << 63 | 1 << 40, 1 << 40, 1 << 31]);
    fault(&left, &[(0, 1)], "event 31 place 3");
    fault(&left, &[(0, 1), (3, 2)], "event 40 place 1");
    fault(&left, &[(0, 1), (3, 2), (1, 2)], "event 40 place 2");
}

/// A call has five rules with a certificate each, in both editions.
#[test]
fn counts_and_certificates() {
    for (calls, new_edition) in [(1, false), (7, false), (512, false), (1, true), (512, true)] {
        let mut draft = sheets::least();
        draft.new_edition = new_edition;
        draft.methods.push(Method::new(&[0; 3], &[]));
        draft.steps = (0..calls).map(|number| Step::Channel(0, 0, 1, number as u8 % 4)).collect();
        let sheet = draft.certified();
        loads_on(&FOUR, &sheet, &format!("accepted {}", 6 + 5 * calls));
        let more = [&sheet[..], &[14]].concat();
        loads_on(&FOUR, &more, &format!("refused 10 at {}", more.len()));
        // Each certificate is one pair and an end.
        let fewer = &sheet[..sheet.len() - 7];
        loads_on(&FOUR, fewer, &format!("refused 10 at {}", fewer.len()));
    }
}

/// The rules by number, among those of other steps.
#[test]
fn order() {
    let mut draft = by_channel(2);
    draft.steps.insert(0, Step::Event(0, 0, 63));
    draft.steps.push(Step::Call(0, 0, 1));
    let sheet = naive::read_sheet(&FOUR, &draft.certified()).unwrap();
    let found: Vec<(usize, usize)> =
        naive::rules(&sheet).iter().map(|rule| (rule.number, rule.subject)).collect();
    let of = |rules: &[usize], subject: usize| -> Vec<(usize, usize)> {
        rules.iter().map(|&rule| (rule, subject)).collect()
    };
    let call = [10, 11, 12, 13, 14];
    let methods = of(&[1, 2, 3, 4, 5, 6], 0);
    assert_eq!(found, [methods, of(&[7, 8, 9], 0), of(&call, 1), of(&call, 2)].concat());
    let lists = sheet.certificates;
    for (number, (rule, subject)) in
        found.iter().filter(|(rule, _)| ![1, 2, 4].contains(rule)).enumerate()
    {
        let mut out = draft.bytes();
        for (i, pairs) in lists.iter().enumerate() {
            certificate(&mut out, if i < number { pairs } else { &[] });
        }
        let who = if *rule < 7 { "method" } else { "step" };
        let rest = "clause 1 pair 0 event 0 place 0";
        loads_on(&FOUR, &out, &format!("unproved rule {rule} {who} {subject} {rest}"));
    }
}

#[test]
fn both_sides_joined_have_62_leaves() {
    let heavy = (1..31).fold(Tree::Leaf(u64::MAX), |tree, _| tree.either(Tree::Leaf(u64::MAX)));
    let heavy = heavy.star();
    for channel in 0..4 {
        let mut points = vec![];
        for point in [FROM, TO] {
            points.extend([PAST, OWN, DUE].map(|which| (point, which, heavy.clone())));
        }
        let sheet = with(channel, (TRACE, heavy.clone()), &points).certified();
        loads_on(&FOUR, &sheet, "accepted 11");
    }
}

/// Honest drafts are accepted, if their certificates are whole.
#[test]
fn honest_drafts() {
    let mut random = Random::new(122);
    let mut calls = [0; 4];
    for _ in 0..400 {
        let draft = sheets::by_channels(&mut random);
        let sheet = draft.certified();
        let parts = naive::read_sheet(&FOUR, &sheet).unwrap();
        if parts.certificates.iter().any(|pairs| pairs.len() == sheets::MOST_PAIRS) {
            continue;
        }
        for doors in BOTH {
            let verdict = (doors.load)(&FOUR, &sheet);
            assert!(matches!(verdict, Verdict::Accepted(_)), "{}: {verdict}", doors.name);
        }
        for step in &draft.steps {
            if let Step::Channel(_, _, _, channel) = step {
                calls[*channel as usize] += 1;
            }
        }
    }
    assert!(calls.iter().all(|&count| count > 60), "{calls:?}");
}
