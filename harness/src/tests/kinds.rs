//! The length of each kind's body, or that there is none.
use super::{every, least, BOTH};
use crate::answer::{Counts, Doors, Refusal};
use crate::instrument::{self, Instrument, FORMER_KINDS};

/// Each kind with the length of its body.
const LENGTHS: [(u8, usize); 22] = [
    (1, 4),
    (2, 0),
    (3, 0),
    (4, 0),
    (5, 0),
    (6, 0),
    (7, 6),
    (8, 6),
    (9, 10),
    (10, 5),
    (11, 6),
    (12, 4),
    (13, 5),
    (14, 0),
    (15, 10),
    (16, 16),
    (17, 8),
    (18, 0),
    (19, 2),
    (20, 8),
    (21, 8),
    (22, 7),
];

/// One more than the longest body.
const MOST: usize = 17;

/// The length of a kind's body on an instrument.
fn length(on: &Instrument, kind: u8) -> Option<usize> {
    let (_, length) = LENGTHS.into_iter().find(|&(known, _)| known == kind && known <= on.kinds)?;
    Some(length)
}

/// What stands in front of a kind: nothing, an open condition, the mark of the new
/// edition, a sheet of either edition up to its methods, and up to its first pair.
fn fronts() -> Vec<Vec<u8>> {
    let old = least();
    let new = [&[18], &old[..]].concat();
    let cut = |sheet: &[u8], end: usize| sheet[..end].to_vec();
    vec![vec![], vec![2], vec![18], cut(&old, 20), cut(&new, 21), cut(&old, 26), cut(&new, 27)]
}

/// Each of the 256 kinds behind a front, with 0 to 17 bytes behind it: the loaders agree,
/// and answer 2 at the kind exactly if it has no length, and 3 exactly if there are fewer
/// bytes than its length.
fn agree(on: &Instrument, loaders: &[Doors], front: &[u8], byte: u8) {
    for kind in 0..=255 {
        for count in 0..=MOST {
            let sheet = [front, &[kind], &vec![byte; count]].concat();
            let answers: Vec<Result<Counts, Refusal>> =
                loaders.iter().map(|doors| (doors.read)(on, &sheet)).collect();
            let said = format!("kind {kind}, {count} bytes {byte}, front {front:?}, {}", on.name);
            assert!(answers.iter().all(|answer| *answer == answers[0]), "{said}: {answers:?}");
            let refused = |number| answers[0] == Err(Refusal::at(number, front.len()));
            let length = length(on, kind);
            assert_eq!(refused(2), length.is_none(), "{said}");
            assert_eq!(refused(3), length.is_some_and(|length| count < length), "{said}");
        }
    }
}

#[test]
fn lengths_at_the_first_byte() {
    for on in instrument::ALL {
        for byte in [0, 1, 255] {
            agree(&on, &every(), &[], byte);
        }
    }
}

#[test]
fn lengths_behind_records() {
    for on in instrument::ALL {
        for front in fronts() {
            agree(&on, &every(), &front, 0);
        }
    }
}

/// The library has no instruments with fewer kinds.
#[test]
fn lengths_with_fewer_kinds() {
    for on in instrument::ALL {
        for kinds in FORMER_KINDS {
            for front in [vec![], least()[..20].to_vec()] {
                agree(&on.former(kinds), &BOTH, &front, 0);
            }
        }
    }
}
