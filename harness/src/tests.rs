//! The starred cases of the document, and more.
mod beginnings;
mod certificates;
mod channels;
#[cfg(feature = "library")]
mod doors;
mod instruments;
mod kinds;
mod outcomes;
mod owners;
mod reading;
mod runs;
mod stops;
mod tools;

use crate::answer::Doors;
use crate::instrument::{self, Instrument, LARGE};
use crate::{library, naive, reference};

const BOTH: [Doors; 2] = [reference::DOORS, naive::DOORS];

fn hex(text: &str) -> Vec<u8> {
    let digits: Vec<char> = text.chars().filter(|c| !c.is_whitespace()).collect();
    let byte = |pair: &[char]| u8::from_str_radix(&pair.iter().collect::<String>(), 16).unwrap();
    digits.chunks(2).map(byte).collect()
}

/// Both loaders and, if it is linked, the library.
fn every() -> Vec<Doors> {
    BOTH.into_iter().chain(library::doors()).collect()
}

/// Every loader prints this line for a sheet on an instrument.
fn loads_on(on: &Instrument, sheet: &[u8], line: &str) {
    for doors in every() {
        let found = (doors.load)(on, sheet).to_string();
        assert_eq!(found, line, "{}, {}", doors.name, on.name);
    }
}

/// The same for a word.
fn tests_on(on: &Instrument, sheet: &[u8], condition: usize, word: &[u8], line: &str) {
    for doors in every() {
        let found = (doors.word_test)(on, sheet, condition, word).to_string();
        assert_eq!(found, line, "{}, {}", doors.name, on.name);
    }
}

/// Every loader prints this line for a sheet on the large instrument.
fn loads(sheet: &[u8], line: &str) {
    loads_on(&LARGE, sheet, line);
}

/// The same for a word.
fn tests(sheet: &[u8], condition: usize, word: &[u8], line: &str) {
    tests_on(&LARGE, sheet, condition, word, line);
}

/// Every loader prints this line on every instrument; reading alone and the word test
/// have the same refusal, if it is one of theirs.
fn refused(text: &str, line: &str) {
    let sheet = hex(text);
    for on in instrument::ALL {
        loads_on(&on, &sheet, line);
        if line.starts_with("refused 10") {
            continue;
        }
        tests_on(&on, &sheet, 9, &[99; 5_000], line);
        for doors in every() {
            let refusal = (doors.read)(&on, &sheet).unwrap_err();
            assert_eq!(refusal.to_string(), line, "{}", doors.name);
        }
    }
}

const POINT: &str = "07 0000 0000 0000";
const BODY: &str = "09 0000 0000 0000 0000 0000";
const PAIR: &str = "0D 00 01000000";

/// The sheet M of the document.
fn least() -> Vec<u8> {
    let certificate = format!("{PAIR} 0E");
    hex(&format!("02 06 {POINT} {BODY} {certificate} {certificate} {certificate}"))
}

#[test]
fn starred_refusals() {
    loads(&[], "refused 9 at 0");
    loads(&hex("0F"), "refused 3 at 0");
    loads(&hex("01"), "refused 3 at 0");
    loads(&hex("03"), "refused 5 at 0");
    loads(&hex("02 06 07 01 00 00 00 00 00"), "refused 7 at 2");
}

#[test]
fn starred_least_sheet() {
    let sheet = least();
    assert_eq!(sheet.len(), 41);
    loads(&sheet, "accepted 6");
    loads(&sheet[..40], "refused 8 at 40");
}

#[test]
fn starred_unproved() {
    let mut sheet = least();
    sheet.splice(2..2, hex("01 01 00 00 00 06"));
    // The method stands 6 bytes further on; its second name is the trace.
    assert_eq!(sheet[15], 9);
    sheet[18] = 1;
    loads(&sheet, "unproved rule 5 method 0 clause 3 pair 0 event 0 place 0");
}

#[test]
fn starred_words() {
    let condition = hex("02 01 04 00 00 00 01 FF FF FF FF 05 03 04 06");
    let sheet = [condition, hex("07 00 00 00 00 00 00"), hex(BODY)].concat();
    tests(&sheet, 0, &[], "yes");
    tests(&sheet, 0, &[2], "yes");
    tests(&sheet, 0, &[2, 0], "yes");
    tests(&sheet, 0, &[0], "no 0");
    tests(&sheet, 0, &[0, 2], "no 0");
}
