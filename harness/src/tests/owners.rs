//! Kind 20: reading, refusals 24 and 25, and the owner of a run's point.
mod orders;
mod reading;
mod runs;

use super::{hex, refused, POINT};

/// By point, its owner if it has one.
type Owners = [Option<usize>];

const PRIMITIVE: &str = "08 0000 0000 0000";
const FAILING_PRIMITIVE: &str = "0F 0000 0000 0000 0000 0000";

/// Names, of two bytes each.
fn names(numbers: &[usize]) -> String {
    numbers.iter().map(|number| format!("{:02X}{:02X} ", number % 256, number / 256)).collect()
}

/// A point with an owner; its conditions are 0.
fn owned(owner: usize) -> String {
    format!("14 0000 0000 0000 {}", names(&[owner]))
}

/// One condition, and points with their owners.
fn head(owners: &Owners) -> String {
    let point = |owner: &Option<usize>| owner.map_or(POINT.to_string(), owned);
    format!("02 06 {}", owners.iter().map(point).collect::<String>())
}

/// A method with body: its entry, its exit and, if it has two outcomes, its failed exit.
fn body(points: &[usize]) -> String {
    match points {
        [entry, exit, failed] => {
            format!("10 0000 0000 0000 {} 0000 0000 {}", names(&[*entry, *exit]), names(&[*failed]))
        }
        _ => format!("09 0000 0000 0000 {}", names(points)),
    }
}

/// A pass step.
fn pass(from: usize, to: usize) -> String {
    format!("0C {}", names(&[from, to]))
}

/// A record between others is refused with a number; with none, the sheet lacks its
/// certificates alone.
fn judged(front: &str, record: &str, behind: &str, number: Option<usize>) {
    let text = format!("{front} {record} {behind}");
    let line = match number {
        Some(number) => format!("refused {number} at {}", hex(front).len()),
        None => format!("refused 10 at {}", hex(&text).len()),
    };
    refused(&text, &line);
}
