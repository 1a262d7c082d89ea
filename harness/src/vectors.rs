//! Stored cases and their expected lines.
use crate::answer::{Counts, Doors, Refusal};
use crate::instrument::{Instrument, ENTRY, FOUR, LARGE};
use crate::sheets::Test;
use std::fs;
use std::path::{Path, PathBuf};

/// A sheet and the words to try on it.
pub struct Group {
    pub sheet: Vec<u8>,
    pub tests: Vec<Test>,
}

/// The front of a file, taken piece by piece.
struct Pieces<'a>(&'a [u8]);

impl<'a> Pieces<'a> {
    fn take(&mut self, length: usize) -> Result<&'a [u8], String> {
        if length > self.0.len() {
            return Err("the file ends inside a case".to_string());
        }
        let (piece, rest) = self.0.split_at(length);
        self.0 = rest;
        Ok(piece)
    }

    /// A number of a few bytes, low byte first.
    fn number(&mut self, bytes: usize) -> Result<usize, String> {
        let piece = self.take(bytes)?;
        Ok(piece.iter().rev().fold(0, |n, &byte| n << 8 | byte as usize))
    }

    fn sheet(&mut self) -> Result<&'a [u8], String> {
        let length = self.number(4)?;
        self.take(length)
    }
}

/// The sheets of a file of sheets.
pub fn sheets(file: &[u8]) -> Result<Vec<Vec<u8>>, String> {
    let mut pieces = Pieces(file);
    let mut found = vec![];
    while !pieces.0.is_empty() {
        found.push(pieces.sheet()?.to_vec());
    }
    Ok(found)
}

/// The sheets and words of a file of words.
pub fn groups(file: &[u8]) -> Result<Vec<Group>, String> {
    let mut pieces = Pieces(file);
    let mut found = vec![];
    while !pieces.0.is_empty() {
        let sheet = pieces.sheet()?.to_vec();
        let mut tests = vec![];
        for _ in 0..pieces.number(4)? {
            let condition = pieces.number(2)?;
            let length = pieces.number(2)?;
            tests.push(Test { condition, word: pieces.take(length)?.to_vec() });
        }
        found.push(Group { sheet, tests });
    }
    Ok(found)
}

/// The line for a sheet that was only read.
pub fn line(read: &Result<Counts, Refusal>) -> String {
    match read {
        Ok(counts) => counts.to_string(),
        Err(refusal) => refusal.to_string(),
    }
}

/// What is done with the stored cases of a file.
pub enum Kind {
    Reading,
    Sheets,
    Words,
}

/// The program of the gate that runs the stored cases.
const PROGRAM: &str = "stored_cases";

/// The files of the stored sheets of the large and of the four-channel instrument.
pub const SHEETS: &str = "sheets";
pub const FOUR_SHEETS: &str = "four_sheets";

/// The files that it reads, in the order of the lines that it prints.
const FILES: [(&str, Instrument, Kind); 9] = [
    ("reading", LARGE, Kind::Reading),
    (SHEETS, LARGE, Kind::Sheets),
    ("words", LARGE, Kind::Words),
    ("entry_reading", ENTRY, Kind::Reading),
    ("entry_sheets", ENTRY, Kind::Sheets),
    ("entry_words", ENTRY, Kind::Words),
    ("four_reading", FOUR, Kind::Reading),
    (FOUR_SHEETS, FOUR, Kind::Sheets),
    ("four_words", FOUR, Kind::Words),
];

/// The sheets of a file of stored sheets, by its name, below the folder of crates.
pub fn stored_sheets(crates: &str, name: &str) -> Result<Vec<Vec<u8>>, String> {
    let path = data(&Path::new(crates).join(PROGRAM), name);
    let file = fs::read(&path).map_err(|error| explained(&path, error))?;
    sheets(&file).map_err(|error| explained(&path, error))
}

fn data(program: &Path, name: &str) -> PathBuf {
    program.join("data").join(name)
}

/// The lines of one loader for a file of cases.
pub fn lines(
    doors: &Doors,
    on: &Instrument,
    kind: &Kind,
    file: &[u8],
) -> Result<Vec<String>, String> {
    let answer: fn(&Doors, &Instrument, &[u8]) -> String = match kind {
        Kind::Reading => |doors, on, sheet| line(&(doors.read)(on, sheet)),
        Kind::Sheets => |doors, on, sheet| (doors.load)(on, sheet).to_string(),
        Kind::Words => return word_lines(doors, on, file),
    };
    Ok(sheets(file)?.iter().map(|sheet| answer(doors, on, sheet)).collect())
}

fn word_lines(doors: &Doors, on: &Instrument, file: &[u8]) -> Result<Vec<String>, String> {
    let mut found = vec![];
    for group in groups(file)? {
        for Test { condition, word } in &group.tests {
            found.push((doors.word_test)(on, &group.sheet, *condition, word).to_string());
        }
    }
    Ok(found)
}

/// Runs the stored cases, below the folder of crates, through the loaders; returns the differences.
pub fn run(crates: &str, all: &[Doors]) -> Result<usize, String> {
    let program = Path::new(crates).join(PROGRAM);
    let mut differences = 0;
    for doors in all {
        differences += run_files(&program, doors)?;
    }
    Ok(differences)
}

fn explained(path: &Path, error: impl std::fmt::Display) -> String {
    format!("{}: {error}", path.display())
}

fn run_files(program: &Path, doors: &Doors) -> Result<usize, String> {
    let path = program.join("stdout");
    let expected = fs::read_to_string(&path).map_err(|error| explained(&path, error))?;
    let mut expected = expected.lines();
    let mut differences = 0;
    for (name, on, kind) in &FILES {
        let path = data(program, name);
        let file = fs::read(&path).map_err(|error| explained(&path, error))?;
        let found = lines(doors, on, kind, &file).map_err(|error| explained(&path, error))?;
        let wrong = compared(name, doors, &found, expected.by_ref().take(found.len()).collect());
        println!("{name}: {}, {} cases, {wrong} differences", doors.name, found.len());
        differences += wrong;
    }
    let more = expected.count();
    if more > 0 {
        println!("{}: {more} lines more than cases", path.display());
    }
    Ok(differences + more)
}

fn compared(name: &str, doors: &Doors, found: &[String], expected: Vec<&str>) -> usize {
    let mut differences = found.len() - expected.len();
    for (case, (found, expected)) in found.iter().zip(&expected).enumerate() {
        if found != expected {
            differences += 1;
            println!("{name} case {case}: {} gives {found}, expected {expected}", doors.name);
        }
    }
    differences
}
