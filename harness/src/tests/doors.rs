//! The library's doors against the header: the status, the numbers, and what is
//! written into slices of every length.
use super::{hex, least, BODY, PAIR, POINT};
use crate::library::header::{
    ACCEPTED, ENTRY, FOUR, LARGE, NO, NOT_WRITTEN, NO_PLACE, READ_WHOLE, REFUSED, ROOM,
    UNKNOWN_INSTRUMENT, UNPROVED, YES,
};
use crate::library::raw;
use crate::{sheets, stack};
use std::hint::black_box;
use std::io::Write;
use std::path::{Path, PathBuf};
use std::process::{Command, Stdio};

/// What a slice holds before a door is called.
const BEFORE: [usize; ROOM + 2] = [7_777_777; ROOM + 2];

/// The numbers that a door gives, in slices of every length.
fn gives(door: impl Fn(&mut [usize]) -> usize, status: usize, number: usize, values: &[usize]) {
    let mut numbers = [0; ROOM];
    numbers[0] = status;
    numbers[1] = number;
    numbers[2..2 + values.len()].copy_from_slice(values);
    for length in 0..BEFORE.len() {
        let mut out = BEFORE;
        let given = door(&mut out[..length]);
        if length < ROOM {
            assert_eq!((given, out), (NOT_WRITTEN, BEFORE), "{length} numbers");
        } else {
            assert_eq!(given, status, "{length} numbers");
            assert_eq!(out[..ROOM], numbers, "{length} numbers");
            assert_eq!(out[ROOM..], BEFORE[ROOM..], "{length} numbers");
        }
    }
}

/// On every instrument, and by the door that the entry instrument has alone.
fn load(sheet: &[u8], status: usize, number: usize, values: &[usize]) {
    for on in [LARGE, FOUR] {
        gives(|out| raw::load(on, sheet, out), status, number, values);
    }
    load_entry(sheet, status, number, values);
}

fn load_entry(sheet: &[u8], status: usize, number: usize, values: &[usize]) {
    gives(|out| raw::load(ENTRY, sheet, out), status, number, values);
    gives(|out| raw::load_entry(sheet, out), status, number, values);
}

/// M with a condition that does not hold the empty word, and the trace 1.
fn unproved() -> Vec<u8> {
    let body = "09 0000 0100 0000 0000 0000";
    let certificate = format!("{PAIR} 0E").repeat(3);
    hex(&format!("02 06 01 01000000 06 {POINT} {body} {certificate}"))
}

/// One condition, one point and a method with body, and a call of it that can fail.
fn other_outcomes() -> Vec<u8> {
    hex(&format!("02 06 {POINT} {BODY} 11 0000 0000 0000 0000"))
}

/// A first method that can fail, with a failed future that holds no word.
fn failed_future() -> Vec<u8> {
    let body = "10 0000 0000 0000 0000 0000 0000 0100 0000";
    let certificate = format!("{PAIR} 0E").repeat(5);
    hex(&format!("02 06 01 00000000 06 {POINT} {body} {certificate}"))
}

/// A record of kind 18 that is not first, and a stop in an old sheet.
fn late_edition() -> Vec<u8> {
    hex(&format!("02 06 12 {POINT} {BODY}"))
}

fn old_stop() -> Vec<u8> {
    hex(&format!("02 06 {POINT} {BODY} 13 0000"))
}

/// M of the new edition with a stop, where the empty word is due or is not.
fn stop(due: bool) -> Vec<u8> {
    let certificate = format!("{PAIR} 0E").repeat(3);
    let point = format!("07 0000 0000 {}", if due { "0000" } else { "0100" });
    hex(&format!("12 02 06 01 00000000 06 {POINT} {point} {BODY} 13 0100 {certificate}"))
}

/// M of the new edition with a call of its method, from a point where nothing is due: the
/// method has the trace that holds no word, and never returns.
fn call_due() -> Vec<u8> {
    let points = "07 0000 0000 0000 07 0000 0100 0000 07 0000 0000 0100";
    let body = "09 0000 0100 0000 0000 0100";
    let certificate = format!("{PAIR} 0E").repeat(9);
    hex(&format!("12 02 06 01 00000000 06 {points} {body} 0B 0200 0000 0000 {certificate}"))
}

/// A step that joins the points of two methods, and a point whose owner is no method.
fn other_owner() -> Vec<u8> {
    let points = "14 0000 0000 0000 0000 14 0000 0000 0000 0100";
    let other = "09 0000 0000 0000 0100 0100";
    hex(&format!("02 06 {points} {BODY} {other} 0C 0000 0100"))
}

fn unknown_owner() -> Vec<u8> {
    hex(&format!("02 06 {POINT} 14 0000 0000 0000 0100 {BODY}"))
}

/// M with an owner of its point.
fn owned() -> Vec<u8> {
    let certificate = format!("{PAIR} 0E").repeat(3);
    hex(&format!("02 06 14 0000 0000 0000 0000 {BODY} {certificate}"))
}

/// The document's condition with 0 open, 1 close, 2 advance, in a sheet.
fn condition() -> Vec<u8> {
    hex(&format!("02 01 04000000 01 FFFFFFFF 05 03 04 06 {POINT} {BODY}"))
}

#[test]
fn the_statuses_differ() {
    for answers in [[ACCEPTED, REFUSED, UNPROVED], [YES, REFUSED, NO]] {
        let [a, b, c] = answers;
        assert!(a != b && b != c && c != a && !answers.contains(&NOT_WRITTEN));
    }
    assert!(READ_WHOLE != REFUSED && READ_WHOLE != NOT_WRITTEN);
    let known = [NOT_WRITTEN, ACCEPTED, REFUSED, UNPROVED, YES, NO, READ_WHOLE];
    assert!(!known.contains(&UNKNOWN_INSTRUMENT));
}

#[test]
fn the_instruments_differ() {
    assert!(LARGE != ENTRY && LARGE != FOUR && ENTRY != FOUR);
    assert!([LARGE, ENTRY, FOUR].iter().all(|on| !UNKNOWN.contains(on)));
}

#[test]
fn loading() {
    load(&least(), ACCEPTED, 0, &[6]);
    load(&[], REFUSED, 9, &[0]);
    load(&hex("02 06 FF"), REFUSED, 2, &[2]);
    load(&unproved(), UNPROVED, 11, &[5, 0, 3, 0, 0, 0]);
    load(&other_outcomes(), REFUSED, 18, &[20]);
    load(&failed_future(), UNPROVED, 11, &[24, 0, 5, 0, 0, 0]);
    load(&late_edition(), REFUSED, 19, &[2]);
    load(&old_stop(), REFUSED, 20, &[20]);
    load(&stop(true), ACCEPTED, 0, &[7]);
    load(&stop(false), UNPROVED, 11, &[25, 0, 5, 0, 0, 0]);
    load(&call_due(), UNPROVED, 11, &[26, 0, 3, 0, 0, 0]);
    load(&owned(), ACCEPTED, 0, &[6]);
    load(&other_owner(), REFUSED, 24, &[42]);
    load(&unknown_owner(), REFUSED, 25, &[9]);
    for on in [LARGE, FOUR] {
        gives(|out| raw::load(on, &[0; 65_537], out), REFUSED, 1, &[65_536]);
    }
    load_entry(&[0; 8_193], REFUSED, 1, &[8_192]);
    load_entry(&[0; 65_537], REFUSED, 1, &[8_192]);
    load(&[0; 8_192], REFUSED, 2, &[0]);
    let points = hex(&format!("02 06 {} {BODY}", POINT.repeat(65)));
    load_entry(&points, REFUSED, 6, &[450]);
    for on in [LARGE, FOUR] {
        gives(|out| raw::load(on, &points, out), REFUSED, 10, &[468]);
    }
}

/// The four-channel instrument alone: a call by a channel, one that 26 is about, and an
/// event above 31 at fault.
#[test]
fn four_channels() {
    let call = |method: &str, channel: &str| {
        let certificates = format!("{PAIR} 0E").repeat(8);
        let methods = format!("{BODY} 08 0000 0000 0000");
        hex(&format!("02 06 {POINT} {methods} 16 0000 0000 {method} {channel} {certificates}"))
    };
    let high = hex(&format!(
        "02 06 02 15 00000000 00000080 04 06 {POINT} 09 0100 0000 0000 0000 0000 {}",
        format!("{PAIR} 0E").repeat(3)
    ));
    let loads = |sheet: &[u8], status, number, values: &[usize]| {
        gives(|out| raw::load(FOUR, sheet, out), status, number, values);
    };
    for channel in ["00", "01", "02", "03"] {
        loads(&call("0100", channel), ACCEPTED, 0, &[11]);
        gives(|out| raw::read(FOUR, &call("0100", channel), out), READ_WHOLE, 0, &[1, 1, 2, 1, 8]);
        for on in [LARGE, ENTRY] {
            gives(|out| raw::load(on, &call("0100", channel), out), REFUSED, 2, &[27]);
        }
    }
    for sheet in [call("0000", "00"), call("0100", "04")] {
        loads(&sheet, REFUSED, 26, &[27]);
        gives(|out| raw::read(FOUR, &sheet, out), REFUSED, 26, &[27]);
        gives(|out| raw::word_test(FOUR, &sheet, 9, &[99], out), REFUSED, 26, &[27]);
    }
    loads(&high, UNPROVED, 11, &[3, 0, 4, 0, 63, 1]);
    for on in [LARGE, ENTRY] {
        gives(|out| raw::load(on, &high, out), REFUSED, 2, &[3]);
    }
    gives(|out| raw::word_test(FOUR, &high, 1, &[63], out), YES, 0, &[]);
    gives(|out| raw::word_test(FOUR, &high, 1, &[62], out), NO, 0, &[0]);
    gives(|out| raw::word_test(FOUR, &high, 1, &[63, 64], out), REFUSED, 13, &[1]);
    for on in [LARGE, ENTRY] {
        gives(|out| raw::word_test(on, &least(), 0, &[31, 32], out), REFUSED, 13, &[1]);
    }
}

/// Numbers of no instrument.
const UNKNOWN: [usize; 13] = [
    0,
    4,
    5,
    8,
    255,
    256,
    257,
    65_538,
    LARGE | 1 << 32,
    ENTRY | 1 << 32,
    FOUR | 1 << 32,
    usize::MAX - 1,
    usize::MAX,
];

/// No sheet, word or condition gets another answer than that the instrument is
/// unknown.
#[test]
fn unknown_instruments() {
    let sheets = [
        least(),
        unproved(),
        condition(),
        vec![],
        hex("02 06 FF"),
        least()[..20].to_vec(),
        sheets::many_rules(),
        vec![0; 65_537],
        vec![1; 100_000],
    ];
    for number in UNKNOWN {
        for sheet in &sheets {
            gives(|out| raw::load(number, sheet, out), UNKNOWN_INSTRUMENT, 0, &[]);
            gives(|out| raw::read(number, sheet, out), UNKNOWN_INSTRUMENT, 0, &[]);
            for (condition, word) in
                [(0, &[2, 0][..]), (0, &[]), (0, &[0, 2]), (9, &[]), (0, &[99]), (0, &[0; 4_097])]
            {
                let test = |out: &mut [usize]| raw::word_test(number, sheet, condition, word, out);
                gives(test, UNKNOWN_INSTRUMENT, 0, &[]);
            }
        }
    }
}

/// The door of the entry instrument alone has no room for the large one's points.
/// Without optimisation the wrapper's own frames are not what they are in use.
#[cfg(not(debug_assertions))]
#[test]
fn stack_of_the_entry_instrument() {
    type Door = fn(&[u8], &mut [usize]) -> usize;
    let doors: [Door; 2] = [raw::load_entry, |sheet, out| raw::load(ENTRY, sheet, out)];
    for (name, make) in sheets::ENTRY_SHEETS {
        let [alone, numbered] = doors.map(|door| {
            let sheet = make();
            let call = move || assert_eq!(door(black_box(&sheet), &mut [0; ROOM]), ACCEPTED);
            stack::used(call).unwrap()
        });
        assert!(alone + 1_500 <= numbered, "{name}: {alone} {numbered}");
    }
}

#[test]
fn testing_words() {
    let sheet = condition();
    let tests = |condition: usize, word: &[u8], status, number, values: &[usize]| {
        for on in [LARGE, ENTRY, FOUR] {
            gives(|out| raw::word_test(on, &sheet, condition, word, out), status, number, values);
        }
    };
    tests(0, &[2, 0], YES, 0, &[]);
    tests(0, &[], YES, 0, &[]);
    tests(0, &[0, 2], NO, 0, &[0]);
    tests(0, &[2; 4_096], YES, 0, &[]);
    tests(0, &[2; 4_097], REFUSED, 12, &[NO_PLACE]);
    tests(0, &[2, 64], REFUSED, 13, &[1]);
    tests(1, &[2], REFUSED, 14, &[NO_PLACE]);
    tests(usize::MAX, &[2], REFUSED, 14, &[NO_PLACE]);
    for on in [LARGE, ENTRY, FOUR] {
        gives(|out| raw::word_test(on, &[15], 0, &[], out), REFUSED, 3, &[0]);
        gives(|out| raw::word_test(on, &[18], 0, &[], out), REFUSED, 9, &[1]);
        gives(|out| raw::word_test(on, &[20], 0, &[], out), REFUSED, 3, &[0]);
        gives(|out| raw::word_test(on, &[23], 0, &[], out), REFUSED, 2, &[0]);
        gives(|out| raw::word_test(on, &other_outcomes(), 0, &[], out), REFUSED, 18, &[20]);
        gives(|out| raw::word_test(on, &late_edition(), 0, &[], out), REFUSED, 19, &[2]);
        gives(|out| raw::word_test(on, &old_stop(), 0, &[], out), REFUSED, 20, &[20]);
        gives(|out| raw::word_test(on, &other_owner(), 9, &[99], out), REFUSED, 24, &[42]);
        gives(|out| raw::word_test(on, &unknown_owner(), 9, &[99], out), REFUSED, 25, &[9]);
        gives(|out| raw::word_test(on, &owned(), 0, &[], out), YES, 0, &[]);
        gives(|out| raw::word_test(on, &stop(false), 0, &[], out), YES, 0, &[]);
        gives(|out| raw::word_test(on, &stop(false), 1, &[], out), NO, 0, &[0]);
    }
    let long = [0; 8_193];
    for on in [LARGE, FOUR] {
        gives(|out| raw::word_test(on, &long, 0, &[], out), REFUSED, 2, &[0]);
    }
    gives(|out| raw::word_test(ENTRY, &long, 0, &[], out), REFUSED, 1, &[8_192]);
}

/// The number of a no is its first value: after 1 no word can be finished, after 0 one can.
#[test]
fn beginnings() {
    let leaves = "01 01000000 01 02000000 01 00000000 03 04 01 04000000 03 06";
    let star = "01 04000000 05 06";
    let sheet = hex(&format!("{leaves} {star} 01 00000000 06 {POINT} {BODY}"));
    let tests = |condition: usize, word: &[u8], status, values: &[usize]| {
        for on in [LARGE, ENTRY, FOUR] {
            gives(|out| raw::word_test(on, &sheet, condition, word, out), status, 0, values);
        }
    };
    tests(0, &[], NO, &[0]);
    tests(0, &[1], NO, &[0]);
    tests(0, &[0], NO, &[1]);
    tests(0, &[0, 2], YES, &[]);
    tests(0, &[0, 2, 2], NO, &[2]);
    let mut word = [2; 4_096];
    tests(1, &word, YES, &[]);
    word[4_095] = 0;
    tests(1, &word, NO, &[4_095]);
    word[0] = 0;
    tests(1, &word, NO, &[0]);
    tests(2, &word, NO, &[0]);
}

#[test]
fn reading() {
    for on in [LARGE, ENTRY, FOUR] {
        gives(|out| raw::read(on, &least(), out), READ_WHOLE, 0, &[1, 1, 1, 0, 3]);
        gives(|out| raw::read(on, &unproved(), out), READ_WHOLE, 0, &[2, 1, 1, 0, 3]);
        gives(|out| raw::read(on, &failed_future(), out), READ_WHOLE, 0, &[2, 1, 1, 0, 5]);
        gives(|out| raw::read(on, &hex("02 06 03"), out), REFUSED, 5, &[2]);
        gives(|out| raw::read(on, &other_outcomes(), out), REFUSED, 18, &[20]);
        gives(|out| raw::read(on, &late_edition(), out), REFUSED, 19, &[2]);
        gives(|out| raw::read(on, &old_stop(), out), REFUSED, 20, &[20]);
        gives(|out| raw::read(on, &stop(false), out), READ_WHOLE, 0, &[2, 2, 1, 1, 3]);
        gives(|out| raw::read(on, &owned(), out), READ_WHOLE, 0, &[1, 1, 1, 0, 3]);
        gives(|out| raw::read(on, &other_owner(), out), REFUSED, 24, &[42]);
        gives(|out| raw::read(on, &unknown_owner(), out), REFUSED, 25, &[9]);
    }
    let points = hex(&format!("02 06 {} {BODY}", POINT.repeat(65)));
    for on in [LARGE, FOUR] {
        gives(|out| raw::read(on, &points, out), READ_WHOLE, 0, &[1, 65, 1, 0, 0]);
    }
    gives(|out| raw::read(ENTRY, &points, out), REFUSED, 6, &[450]);
    gives(|out| raw::read(ENTRY, &points[..450], out), REFUSED, 9, &[450]);
}

/// A C program over the header gives the same. Skipped where there is no C compiler.
#[test]
fn from_c() {
    for standard in ["c89", "c99"] {
        let Some(program) = compiled(standard) else { return };
        from_c_prints(&program, &least(), ["accepted 0 6 0 0 0 0 0"; 3]);
        from_c_prints(&program, &[15], ["refused 3 0 0 0 0 0 0"; 3]);
        from_c_prints(&program, &[18], ["refused 9 1 0 0 0 0 0"; 3]);
        from_c_prints(&program, &[20], ["refused 3 0 0 0 0 0 0"; 3]);
        from_c_prints(&program, &[23], ["refused 2 0 0 0 0 0 0"; 3]);
        for kind in [21, 22] {
            let lines = ["refused 2 0 0 0 0 0 0"; 2];
            from_c_prints(&program, &[kind], [lines[0], lines[1], "refused 3 0 0 0 0 0 0"]);
        }
        from_c_prints(&program, &other_owner(), ["refused 24 42 0 0 0 0 0"; 3]);
        from_c_prints(&program, &unknown_owner(), ["refused 25 9 0 0 0 0 0"; 3]);
        from_c_prints(&program, &old_stop(), ["refused 20 20 0 0 0 0 0"; 3]);
        from_c_prints(&program, &call_due(), ["unproved 11 26 0 3 0 0 0"; 3]);
        from_c_prints(&program, &unproved(), ["unproved 11 5 0 3 0 0 0"; 3]);
        from_c_prints(&program, &other_outcomes(), ["refused 18 20 0 0 0 0 0"; 3]);
        let lines = ["refused 2 0 0 0 0 0 0", "refused 1 8192 0 0 0 0 0"];
        from_c_prints(&program, &[0; 8_193], [lines[0], lines[1], lines[0]]);
        std::fs::remove_file(program).unwrap();
    }
}

fn compiled(standard: &str) -> Option<PathBuf> {
    let here = Path::new(env!("CARGO_MANIFEST_DIR"));
    let program = std::env::temp_dir().join(format!("load-{standard}-{}", std::process::id()));
    let status = Command::new("cc")
        .args([&format!("-std={standard}"), "-Wall", "-Wextra", "-pedantic", "-Werror"])
        .args(["-I", "include", "c/load.c", "../target/staticlib/libsheet_loader.a", "-o"])
        .arg(&program)
        .current_dir(here)
        .status()
        .ok()?;
    assert!(status.success(), "{standard}");
    Some(program)
}

/// The program prints these answers of the large, the entry and the four-channel
/// instrument.
fn from_c_prints(program: &Path, sheet: &[u8], [large, entry, four]: [&str; 3]) {
    let mut child =
        Command::new(program).stdin(Stdio::piped()).stdout(Stdio::piped()).spawn().unwrap();
    child.stdin.take().unwrap().write_all(sheet).unwrap();
    let output = child.wait_with_output().unwrap();
    let lines = format!("large: {large}\nentry: {entry}\nentry alone: {entry}\n");
    let lines = format!("{lines}four: {four}\nnot written\n");
    let unknown = "0: unknown instrument 0 0 0 0 0 0 0\n";
    assert_eq!(String::from_utf8(output.stdout).unwrap(), lines + unknown);
}
