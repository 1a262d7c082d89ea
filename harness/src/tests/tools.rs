//! The tools themselves.
use super::{hex, least, BOTH};
use crate::answer::Verdict;
use crate::instrument::{ENTRY, FOUR, LARGE};
use crate::random::Random;
use crate::tree::{Tree, TWO_CHANNELS};
use crate::{compare, naive, reference, sheets, stack, vectors};

#[test]
fn a_short_comparison_finds_nothing() {
    assert_eq!(compare::self_check(&BOTH[0], &BOTH[1], 400, 11), 0);
}

#[test]
fn timed_entry_sheets_are_accepted() {
    let [(_, honest), (_, hostile)] = sheets::ENTRY_SHEETS;
    let (honest, hostile) = (honest(), hostile());
    assert_eq!((honest.len(), sheets::pairs(&honest)), (8_192, 1_085));
    assert_eq!((hostile.len(), sheets::pairs(&hostile)), (8_191, 1_299));
    assert_eq!(reference::load(&ENTRY, &honest), Verdict::Accepted(421));
    assert_eq!(reference::load(&ENTRY, &hostile), Verdict::Accepted(11));
}

#[test]
fn timed_sheets_are_accepted() {
    let rules = [sheets::many_rules(), sheets::starred_rules()];
    for sheet in &rules {
        assert_eq!(sheet.len(), 65_536);
        assert_eq!(sheets::pairs(sheet), 7_040);
        assert_eq!(reference::load(&LARGE, sheet), Verdict::Accepted(2_818));
    }
    let new = sheets::new_rules();
    assert_eq!((new.len(), sheets::pairs(&new)), (65_536, 8_064));
    assert_eq!(reference::load(&LARGE, &new), Verdict::Accepted(3_330));
    let owned = sheets::owned_rules();
    assert_eq!((owned.len(), sheets::pairs(&owned)), (65_536, 7_040));
    assert_eq!(sheets::points(&owned), (512, 512));
    assert_eq!(reference::load(&LARGE, &owned), Verdict::Accepted(2_818));
    let large = sheets::large_certificate();
    assert_eq!(sheets::pairs(&large), 10_371);
    assert_eq!(reference::load(&LARGE, &large), Verdict::Accepted(6));
    let counts = reference::read(&LARGE, &sheets::many_records()).unwrap();
    assert_eq!(counts.certificates, 65_516);
}

#[test]
fn timed_sheets_of_four_channels() {
    for sheet in [sheets::channel_rules(), sheets::starred_channel_rules()] {
        assert_eq!(sheet.len(), 65_536);
        assert!(sheets::has_channel(&sheet));
        assert_eq!(reference::load(&FOUR, &sheet), Verdict::Accepted(2_566));
    }
    let large = sheets::four_certificate();
    assert_eq!(sheets::pairs(&large), 10_371);
    assert_eq!(reference::load(&FOUR, &large), Verdict::Accepted(6));
    for sheet in sheets::small_channels(200) {
        assert!(sheets::has_channel(&sheet));
        assert!(matches!(reference::load(&FOUR, &sheet), Verdict::Accepted(_)));
    }
}

#[test]
fn timed_words() {
    let lines = ["yes", "yes", "yes", "no 4095", "no 1", "no 0"];
    for (on, every) in [(LARGE, TWO_CHANNELS), (FOUR, u64::MAX)] {
        for ((name, make), line) in sheets::WORDS.into_iter().zip(lines) {
            let (sheet, word) = make(every);
            assert!(word.len() == 1 || word.contains(&(on.events - 1)), "{name}");
            assert_eq!(reference::word_test(&on, &sheet, 1, &word).to_string(), line, "{name}");
        }
    }
}

#[test]
fn hostile_sheets_of_four_channels() {
    let doubled = sheets::HOSTILE.map(|(name, make)| (name, sheets::doubled(make)));
    let each = ("each of 64 events", sheets::each_of_64(usize::MAX));
    for (name, sheet) in doubled.into_iter().chain([each]) {
        assert!((65_526..=65_536).contains(&sheet.len()), "{name}: {}", sheet.len());
        assert!(sheets::pairs(&sheet) > 10_700, "{name}: {}", sheets::pairs(&sheet));
        assert!(matches!(reference::load(&FOUR, &sheet), Verdict::Accepted(_)), "{name}");
        assert_eq!(reference::load(&LARGE, &sheet).refusal().map(|r| r.number), Some(2), "{name}");
    }
}

#[test]
fn timed_sheets_with_owners() {
    let (plain, owned) = (sheets::small_honest(200), sheets::small_owned(200));
    for (plain, owned) in plain.iter().zip(&owned) {
        let (points, _) = sheets::points(plain);
        assert_eq!(sheets::points(owned), (points, points));
        assert_eq!(owned.len(), plain.len() + 2 * points);
        assert_eq!(reference::load(&LARGE, owned), reference::load(&LARGE, plain));
    }
}

#[test]
fn hostile_sheets_are_accepted() {
    let pairs = [
        10_855, 10_861, 10_885, 10_855, 10_849, 10_849, 10_884, 10_885, 10_885, 10_881, 10_881,
        10_855, 10_818,
    ];
    assert_eq!(sheets::HOSTILE.map(|(_, make)| sheets::pairs(&make(usize::MAX))), pairs);
    for (name, make) in sheets::HOSTILE {
        let sheet = make(usize::MAX);
        assert!((65_531..=65_536).contains(&sheet.len()), "{name}");
        assert!(matches!(reference::load(&LARGE, &sheet), Verdict::Accepted(_)), "{name}");
    }
}

/// The naive loader takes long, so it has the hostile sheets with few fillers;
/// the last three need many pairs.
#[test]
fn short_hostile_sheets() {
    let mut random = Random::new(8);
    let mut unproved = 0;
    for (name, make) in &sheets::HOSTILE[..10] {
        let sheet = make(80);
        assert!(matches!(naive::load(&LARGE, &sheet), Verdict::Accepted(_)), "{name}");
        for _ in 0..4 {
            let mut changed = sheet.clone();
            changed[sheet.len() - 1 - random.below(400)] ^= 1 << random.below(8);
            let verdict = naive::load(&LARGE, &changed);
            assert_eq!(reference::load(&LARGE, &changed), verdict, "{name}");
            unproved += matches!(verdict, Verdict::Unproved { .. }) as usize;
        }
    }
    assert!(unproved > 3, "{unproved}");
}

#[test]
fn the_same_seed_gives_the_same_sheets() {
    let make = |seed| sheets::sheet(&mut Random::new(seed));
    for seed in 0..50 {
        assert_eq!(make(seed), make(seed));
    }
}

#[test]
fn made_words_are_held() {
    let mut random = Random::new(5);
    for _ in 0..500 {
        let tree = Tree::random(&mut random, 3);
        let mut word = vec![];
        if tree.word(&mut random, &mut word) && word.len() < 120 {
            assert!(naive::holds(&tree, &word));
        }
    }
}

#[test]
fn stored_sheets() {
    let sheet = least();
    let length = (sheet.len() as u32).to_le_bytes();
    let file = [&length[..], &sheet, &[0; 4], &[1, 0, 0, 0, 15]].concat();
    for doors in &BOTH {
        let lines = vectors::lines(doors, &LARGE, &vectors::Kind::Sheets, &file).unwrap();
        assert_eq!(lines, ["accepted 6", "refused 9 at 0", "refused 3 at 0"]);
    }
    assert!(vectors::sheets(&file[..20]).is_err());
}

#[test]
fn stored_words() {
    let sheet = least();
    let length = (sheet.len() as u32).to_le_bytes();
    let cases = hex("04000000 0000 0000 0000 0100 07 0100 0000 0000 0200 00 FF");
    let group = [&length[..], &sheet, &cases].concat();
    let file = [&group[..], &hex("00000000 01000000 0000 0000")].concat();
    for doors in &BOTH {
        let lines = vectors::lines(doors, &LARGE, &vectors::Kind::Words, &file).unwrap();
        assert_eq!(lines, ["yes", "no 0", "refused 14", "refused 13 at 1", "refused 9 at 0"]);
    }
}

#[test]
fn a_known_use_of_stack_is_seen() {
    let used = stack::used(|| {
        let mut area = [0u8; 100_000];
        std::hint::black_box(&mut area);
    });
    let used = used.unwrap();
    assert!((100_000..110_000).contains(&used), "{used}");
}
