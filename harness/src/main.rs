//! Compares the sheet loader with a reference, runs stored cases, and measures.

mod answer;
mod bench;
mod clock;
mod compare;
mod derivatives;
mod former;
mod instrument;
mod library;
mod naive;
mod random;
mod reference;
mod runs;
mod search;
mod sheets;
mod simulate;
mod smaller;
mod stack;
#[cfg(test)]
mod tests;
mod tree;
mod vectors;

use answer::Doors;
use instrument::{Instrument, LARGE};
use std::io::Read;
use std::process::ExitCode;

const USAGE: &str = "commands; I is large, which stands where none is given, entry or four:
  compare N --seed S      N sheets on every instrument: library against reference, or reference against naive
  self-check N --seed S   N sheets on every one, and on two with random limits: reference against naive
  vectors CRATES          stored cases of the gate's programs
  runs CRATES --seed S    random runs of the stored sheets that are accepted, and of random ones
  bench [WORD]            timings of the families, or of those with WORD in their name
  search [--instrument I] N --seed S
                          N tries to find the certificate that takes longest
  stack                   stack used by one call
  load [--instrument I]   the line for the sheet on standard input";

fn main() -> ExitCode {
    let arguments: Vec<String> = std::env::args().skip(1).collect();
    let words: Vec<&str> = arguments.iter().map(String::as_str).collect();
    match run(&words) {
        Ok(0) => ExitCode::SUCCESS,
        Ok(_) => ExitCode::FAILURE,
        Err(message) => {
            eprintln!("{message}");
            ExitCode::from(2)
        }
    }
}

/// Runs a command; returns the differences it found.
fn run(words: &[&str]) -> Result<usize, String> {
    match words {
        ["compare", rest @ ..] => {
            let (sheets, seed) = numbers(rest)?;
            Ok(match library::doors() {
                Some(library) => compare::compare(&reference::DOORS, &library, sheets, seed),
                None => compare::compare(&reference::DOORS, &naive::DOORS, sheets, seed),
            })
        }
        ["self-check", rest @ ..] => {
            let (sheets, seed) = numbers(rest)?;
            Ok(compare::self_check(&reference::DOORS, &naive::DOORS, sheets, seed))
        }
        ["vectors", folder] => vectors::run(folder, &loaders()),
        ["runs", folder, rest @ ..] => {
            let doors = library::doors().unwrap_or(reference::DOORS);
            simulate::simulate(folder, &doors, seed(rest)?)
        }
        ["bench"] => {
            bench::bench(&loaders(), "");
            Ok(0)
        }
        ["bench", word] => {
            bench::bench(&loaders(), word);
            Ok(0)
        }
        ["search", rest @ ..] => {
            let (on, rest) = instrument(rest)?;
            let (tries, seed) = numbers(rest)?;
            search::search(&library::doors().unwrap_or(reference::DOORS), &on, tries, seed);
            Ok(0)
        }
        ["stack"] => {
            stack::stack(&loaders());
            Ok(0)
        }
        ["load", rest @ ..] => match instrument(rest)? {
            (on, []) => load(&on),
            _ => Err(USAGE.to_string()),
        },
        _ => Err(USAGE.to_string()),
    }
}

/// The reference and, if it is linked, the library.
fn loaders() -> Vec<Doors> {
    [Some(reference::DOORS), library::doors()].into_iter().flatten().collect()
}

fn number(word: &str) -> Result<u64, String> {
    word.parse().map_err(|_| USAGE.to_string())
}

/// The instrument, the large one if none is given, and the words behind it.
fn instrument<'a, 'b>(words: &'b [&'a str]) -> Result<(Instrument, &'b [&'a str]), String> {
    match words {
        ["--instrument", word, rest @ ..] => match Instrument::named(word) {
            Some(on) => Ok((on, rest)),
            None => Err(format!("{word} is no instrument: large, entry or four")),
        },
        _ => Ok((LARGE, words)),
    }
}

/// The seed, 1 if none is given.
fn seed(words: &[&str]) -> Result<u64, String> {
    match words {
        [] => Ok(1),
        ["--seed", seed] => number(seed),
        _ => Err(USAGE.to_string()),
    }
}

/// The number of sheets and the seed.
fn numbers(words: &[&str]) -> Result<(usize, u64), String> {
    match words {
        [sheets, rest @ ..] => Ok((number(sheets)? as usize, seed(rest)?)),
        [] => Err(USAGE.to_string()),
    }
}

fn load(on: &Instrument) -> Result<usize, String> {
    let mut sheet = vec![];
    std::io::stdin().read_to_end(&mut sheet).map_err(|error| error.to_string())?;
    for doors in loaders() {
        println!("{}: {}", doors.name, (doors.load)(on, &sheet));
    }
    Ok(0)
}
