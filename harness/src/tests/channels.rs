//! Kinds 21 and 22 and events up to 63: reading, refusal 26, rules and runs with
//! exchanged conditions, and what stays as it was.
mod leaves;
mod orders;
mod reading;
mod rules;
mod runs;

use super::{hex, loads_on, tests_on, BODY, POINT};
use crate::instrument::FOUR;

const PRIMITIVE: &str = "08 0000 0000 0000";
const FAILING_PRIMITIVE: &str = "0F 0000 0000 0000 0000 0000";
const FAILING_BODY: &str = "10 0000 0000 0000 0000 0000 0000 0000 0000";

/// Names, of two bytes each.
fn names(numbers: &[usize]) -> String {
    numbers.iter().map(|number| format!("{:02X}{:02X} ", number % 256, number / 256)).collect()
}

/// A call by a channel.
fn call(from: usize, to: usize, method: usize, channel: u8) -> String {
    format!("16 {} {channel:02X}", names(&[from, to, method]))
}

/// One condition, one point, and methods with all names 0: a body and a primitive, of one
/// outcome and of two.
fn four_methods() -> String {
    format!("02 06 {POINT} {BODY} {PRIMITIVE} {FAILING_PRIMITIVE} {FAILING_BODY}")
}

/// The method of `four_methods` that may be called by a channel.
const CALLED: usize = 1;

/// Every loader prints this line on the four-channel instrument; the word test has the
/// same refusal, if it is one of its own.
fn refused(text: &str, line: &str) {
    let sheet = hex(text);
    loads_on(&FOUR, &sheet, line);
    if !line.starts_with("refused 10") {
        tests_on(&FOUR, &sheet, 9, &[99; 5_000], line);
    }
}

/// A record between others is refused with a number; with none, the sheet lacks its
/// certificates alone.
fn judged(front: &str, record: &str, behind: &str, number: Option<usize>) {
    let text = format!("{front} {record} {behind}");
    let line = match number {
        Some(number) => format!("refused {number} at {}", hex(front).len()),
        None => format!("refused 10 at {}", hex(&text).len()),
    };
    refused(&text, &line);
}
