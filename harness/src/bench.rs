//! Timings of the loaders on the same families, in turn, in processor time.
use crate::answer::Doors;
use crate::clock;
use crate::instrument::{Instrument, ENTRY, FOUR, LARGE};
use crate::sheets;
use crate::tree::TWO_CHANNELS;
use std::hint::black_box;
use std::time::Duration;

/// Rounds of a measurement, and of one whose work takes longer than a span.
const ROUNDS: usize = 31;
const FEW_ROUNDS: usize = 7;
/// Each measurement repeats its work for about this long.
const SPAN: Duration = Duration::from_millis(20);

/// One family: its name and its work for one loader.
struct Family {
    name: String,
    work: Box<dyn Fn(&Doors)>,
    /// Loads, readings or word tests done by one call of the work.
    parts: usize,
}

/// Prints the table of the families whose name has the word.
pub fn bench(all: &[Doors], word: &str) {
    let names: Vec<&str> = all.iter().map(|doors| doors.name).collect();
    let ratio = all.len() == 2;
    print!("| family | {} |", names.join(" | "));
    println!("{}", if ratio { " ratio |" } else { "" });
    println!("|---|{}", "---|".repeat(all.len() + ratio as usize));
    for (name, make) in families().into_iter().filter(|(name, _)| name.contains(word)) {
        let family = make(&name);
        let times = rounds(&family, all);
        let cells: Vec<String> = times.iter().map(|list| shown(median(list.clone()))).collect();
        print!("| {} | {} |", family.name, cells.join(" | "));
        let ratios = || times[1].iter().zip(&times[0]).map(|(one, other)| one / other).collect();
        println!("{}", if ratio { format!(" {:.2} |", median(ratios())) } else { String::new() });
    }
}

/// Makes small sheets, or one sheet.
type MakeSmall = fn(usize) -> Vec<Vec<u8>>;
type MakeSheet = fn() -> Vec<u8>;

/// Makes the family of a name.
type Make = Box<dyn Fn(&str) -> Family>;

/// Families by name; each is made where it is asked for.
type Families = Vec<(String, Make)>;

fn families() -> Families {
    let mut list = two_channels();
    list.extend(four_channels());
    list
}

/// Those of the large and the entry instrument.
fn two_channels() -> Families {
    let smalls: [(&str, MakeSmall); 4] = [
        ("small honest sheet", sheets::small_honest),
        ("small honest sheet, two outcomes", sheets::small_failing),
        ("small sheets that stop", sheets::small_stopping),
        ("small honest sheet, owned points", sheets::small_owned),
    ];
    let loads: [(&str, MakeSheet); 5] = [
        ("as many rules as fit", sheets::many_rules),
        ("as many rules as fit, under 35 stars", sheets::starred_rules),
        ("new edition: as many rules as fit, under 35 stars", sheets::new_rules),
        ("as many rules as fit, owned points", sheets::owned_rules),
        ("large honest certificate", sheets::large_certificate),
    ];
    let readings: [(&str, MakeSheet); 3] = [
        ("reading alone", sheets::many_rules),
        ("reading alone, most records", sheets::many_records),
        ("reading alone, owned points", sheets::owned_rules),
    ];
    let mut list = vec![];
    add(&mut list, &smalls, |name, make| small(name, LARGE, make(200)));
    add(&mut list, &loads, |name, make| one_load(name, LARGE, make()));
    add(&mut list, &sheets::HOSTILE, |name, make| one_load(name, LARGE, make(usize::MAX)));
    add(&mut list, &sheets::WORDS, |name, make| one_word(name, LARGE, make(TWO_CHANNELS)));
    add(&mut list, &readings, |name, make| reading(name, LARGE, make()));
    add(&mut list, &sheets::ENTRY_SHEETS, |name, make| one_load(name, ENTRY, make()));
    list
}

/// Those of the four-channel instrument.
fn four_channels() -> Families {
    let smalls: [(&str, MakeSmall); 2] = [
        ("small honest sheet", sheets::small_honest),
        ("small sheets with calls by channel", sheets::small_channels),
    ];
    let loads: [(&str, MakeSheet); 4] = [
        ("as many calls by channel as fit", sheets::channel_rules),
        ("as many calls by channel as fit, under 35 stars", sheets::starred_channel_rules),
        ("large honest certificate", sheets::four_certificate),
        ("hostile: one pair for each follower and each of 64 events", || {
            sheets::each_of_64(usize::MAX)
        }),
    ];
    let readings: [(&str, MakeSheet); 2] = [
        ("reading alone, calls by channel", sheets::channel_rules),
        ("reading alone, most records", sheets::many_records),
    ];
    let mut list = vec![];
    add(&mut list, &smalls, |name, make| small(name, FOUR, make(200)));
    add(&mut list, &loads, |name, make| one_load(name, FOUR, make()));
    add(&mut list, &sheets::HOSTILE, |name, make| one_load(name, FOUR, sheets::doubled(make)));
    add(&mut list, &sheets::WORDS, |name, make| one_word(name, FOUR, make(u64::MAX)));
    add(&mut list, &readings, |name, make| reading(name, FOUR, make()));
    list.into_iter().map(|(name, make)| (format!("{}: {name}", FOUR.name), make)).collect()
}

/// Adds families, given the names, what makes the sheets, and the family of these.
fn add<M: Copy + 'static>(
    list: &mut Families,
    named: &[(&'static str, M)],
    family: fn(&str, M) -> Family,
) {
    for &(name, make) in named {
        list.push((name.to_string(), Box::new(move |name| family(name, make))));
    }
}

fn small(name: &str, on: Instrument, small: Vec<Vec<u8>>) -> Family {
    let bytes: usize = small.iter().map(Vec::len).sum();
    let name = format!("{name}, {} bytes on average", bytes / small.len());
    let parts = small.len();
    let work = Box::new(move |doors: &Doors| {
        for sheet in &small {
            black_box((doors.load)(&on, black_box(sheet)));
        }
    });
    Family { name, work, parts }
}

fn reading(name: &str, on: Instrument, sheet: Vec<u8>) -> Family {
    let name = format!("{name}, {} bytes", sheet.len());
    let work = Box::new(move |doors: &Doors| {
        black_box((doors.read)(&on, black_box(&sheet)).is_ok());
    });
    Family { name, work, parts: 1 }
}

fn one_load(name: &str, on: Instrument, sheet: Vec<u8>) -> Family {
    let pairs = sheets::pairs(&sheet);
    let name = format!("{name}, {} bytes, {pairs} pairs", sheet.len());
    let work = Box::new(move |doors: &Doors| {
        black_box((doors.load)(&on, black_box(&sheet)));
    });
    Family { name, work, parts: 1 }
}

fn one_word(name: &str, on: Instrument, (sheet, word): (Vec<u8>, Vec<u8>)) -> Family {
    let events = if word.len() == 1 { "event" } else { "events" };
    let name = format!("{name}, {} {events} on 31 leaves", word.len());
    let work = Box::new(move |doors: &Doors| {
        black_box((doors.word_test)(&on, black_box(&sheet), 1, black_box(&word)));
    });
    Family { name, work, parts: 1 }
}

/// Nanoseconds of one part in each round, for each loader.
fn rounds(family: &Family, all: &[Doors]) -> Vec<Vec<f64>> {
    let repeats: Vec<usize> = all.iter().map(|doors| repeats(family, doors)).collect();
    let quick = repeats.iter().all(|&times| times > 1);
    let mut times = vec![vec![]; all.len()];
    for _ in 0..if quick { ROUNDS } else { FEW_ROUNDS } {
        for (i, doors) in all.iter().enumerate() {
            let start = clock::now();
            for _ in 0..repeats[i] {
                (family.work)(doors);
            }
            let parts = (repeats[i] * family.parts) as f64;
            times[i].push((clock::now() - start).as_nanos() as f64 / parts);
        }
    }
    times
}

/// How often the work is done in one measurement.
fn repeats(family: &Family, doors: &Doors) -> usize {
    let start = clock::now();
    (family.work)(doors);
    let once = (clock::now() - start).max(Duration::from_nanos(100));
    (SPAN.as_nanos() / once.as_nanos()).max(1) as usize
}

fn median(mut list: Vec<f64>) -> f64 {
    list.sort_by(f64::total_cmp);
    list[list.len() / 2]
}

fn shown(nanoseconds: f64) -> String {
    match nanoseconds {
        n if n < 10_000.0 => format!("{n:.0} ns"),
        n if n < 10_000_000.0 => format!("{:.1} us", n / 1e3),
        n => format!("{:.1} ms", n / 1e6),
    }
}
