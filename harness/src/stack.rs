//! The stack that one call of a loader uses: the stack below the caller is
//! painted before the call, and the lowest byte that changed is found after.
use crate::answer::Doors;
use crate::instrument::{Instrument, ENTRY, FOUR, LARGE};
use crate::sheets;
use crate::tree::TWO_CHANNELS;
use std::hint::black_box;
use std::thread;

const THREAD: usize = 16 << 20;
/// Painted bytes.
const AREA: usize = 8 << 20;
/// Bytes just below the caller that the painter itself stands on.
const GAP: usize = 1_024;
const PAINT: u8 = 0xA5;

/// Prints a table for some loaders.
pub fn stack(all: &[Doors]) {
    println!("| call | loader | bytes of stack |");
    println!("|---|---|---|");
    let mut loads = vec![("as many rules as fit", sheets::many_rules())];
    loads.extend(sheets::HOSTILE.map(|(name, make)| (name, make(usize::MAX))));
    let mut four = vec![("as many calls by channel as fit", sheets::channel_rules())];
    four.extend(sheets::HOSTILE.map(|(name, make)| (name, sheets::doubled(make))));
    for &doors in all {
        rows(doors, LARGE, &loads, sheets::steady_word(TWO_CHANNELS));
        entry(doors);
        rows(doors, FOUR, &four, sheets::steady_word(u64::MAX));
    }
}

/// Rows for an instrument: loads of sheets by name, and one word test.
fn rows(
    doors: Doors,
    on: Instrument,
    loads: &[(&str, Vec<u8>)],
    (word_sheet, word): (Vec<u8>, Vec<u8>),
) {
    let of = if on == LARGE { String::new() } else { format!("{}: ", on.name) };
    for (name, sheet) in loads {
        let sheet = sheet.clone();
        row(&format!("load, {of}{name}"), doors.name, move || {
            black_box((doors.load)(&on, black_box(&sheet)));
        });
    }
    row(&format!("word test, {of}4,096 events, 31 leaves"), doors.name, move || {
        black_box((doors.word_test)(&on, black_box(&word_sheet), 1, black_box(&word)));
    });
}

/// Rows for the entry instrument: by the function for any instrument, and by its own.
fn entry(doors: Doors) {
    for (name, make) in sheets::ENTRY_SHEETS {
        let (sheet, again) = (make(), make());
        row(&format!("load, {name}"), doors.name, move || {
            black_box((doors.load)(&ENTRY, black_box(&sheet)));
        });
        row(&format!("load_entry, {name}"), doors.name, move || {
            black_box((doors.load_entry)(black_box(&again)));
        });
    }
}

fn row(call: &str, loader: &str, work: impl Fn() + Send + 'static) {
    match used(work) {
        Some(bytes) if bytes <= GAP => println!("| {call} | {loader} | at most {GAP} |"),
        Some(bytes) => println!("| {call} | {loader} | {bytes} |"),
        None => println!("| {call} | {loader} | at least {AREA} |"),
    }
}

/// The bytes of stack that some work changes, if it stays in the painted area.
pub fn used(work: impl Fn() + Send + 'static) -> Option<usize> {
    let thread = thread::Builder::new().stack_size(THREAD);
    let measured = thread.spawn(move || {
        work();
        measure(&work)
    });
    measured.expect("a thread starts").join().expect("the work ends")
}

#[inline(never)]
fn measure(work: &dyn Fn()) -> Option<usize> {
    let marker = 0u8;
    let top = black_box(&marker) as *const u8 as usize;
    paint(top - AREA, top - GAP);
    // Hidden from the compiler, or the work might be a part of this frame.
    black_box(work)();
    lowest_changed(top - AREA, top - GAP).map(|address| top - address)
}

#[inline(never)]
fn paint(from: usize, to: usize) {
    for address in from..to {
        // This thread's own stack, below every frame in use and above its end.
        unsafe { (address as *mut u8).write_volatile(PAINT) };
    }
}

/// The lowest changed byte, or the top; none if the lowest byte of all changed.
#[inline(never)]
fn lowest_changed(from: usize, to: usize) -> Option<usize> {
    // The same bytes that were painted.
    let changed = |address: &usize| unsafe { (*address as *const u8).read_volatile() != PAINT };
    match (from..to).find(changed) {
        Some(address) if address == from => None,
        Some(address) => Some(address),
        None => Some(to),
    }
}
