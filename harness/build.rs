//! Hands the header's numbers to the wrapper, and links the library where it is asked for:
//! its own bytes, with each function at a multiple of 64. So a change of one function does
//! not move the loops of the others, and times before and after it can be compared.
use std::path::Path;
use std::{env, fs};

const HEADER: &str = "include/sheet_loader.h";
const PREFIX: &str = "SHEET_LOADER_";
const LIBRARY: &str = "libsheet_loader.a";
const ALIGNMENT: u64 = 64;

fn main() {
    let here = env::var("CARGO_MANIFEST_DIR").unwrap();
    println!("cargo:rerun-if-changed=build.rs");
    println!("cargo:rerun-if-changed={HEADER}");
    let header = fs::read_to_string(Path::new(&here).join(HEADER)).unwrap();
    let out = env::var("OUT_DIR").unwrap();
    fs::write(Path::new(&out).join("header.rs"), constants(&header)).unwrap();
    if env::var("CARGO_FEATURE_LIBRARY").is_ok() {
        let made = format!("{here}/../target/staticlib/{LIBRARY}");
        println!("cargo:rerun-if-changed={made}");
        let mut archive = fs::read(&made).expect("tools/build sheet_loader makes the library");
        align_functions(&mut archive);
        fs::write(Path::new(&out).join(LIBRARY), archive).unwrap();
        println!("cargo:rustc-link-search=native={out}");
        println!("cargo:rustc-link-lib=static=sheet_loader");
    }
}

/// A constant for each `#define SHEET_LOADER_NAME NUMBER` of the header.
fn constants(header: &str) -> String {
    let mut text = String::new();
    for line in header.lines() {
        let words: Vec<&str> = line.split_whitespace().collect();
        let ["#define", name, value] = words[..] else { continue };
        let Some(name) = name.strip_prefix(PREFIX) else { continue };
        let value = if value == "SIZE_MAX" { "usize::MAX" } else { value };
        text += &format!("pub const {name}: usize = {value};\n");
    }
    text
}

/// Sets the alignment of each section with code, in each ELF file of an archive.
fn align_functions(archive: &mut [u8]) {
    const MEMBERS: usize = 8;
    const MEMBER_HEADER: usize = 60;
    let mut at = MEMBERS;
    while at < archive.len() {
        let size = String::from_utf8_lossy(&archive[at + 48..at + 58]).trim().parse::<usize>();
        let start = at + MEMBER_HEADER;
        let end = start + size.unwrap();
        if archive[start..end].starts_with(b"\x7fELF") {
            align_sections(&mut archive[start..end]);
        }
        at = end + end % 2;
    }
}

fn align_sections(file: &mut [u8]) {
    const EXECUTABLE: u64 = 4;
    let word = |file: &[u8], at: usize| u64::from_le_bytes(file[at..at + 8].try_into().unwrap());
    let half = |file: &[u8], at: usize| u16::from_le_bytes([file[at], file[at + 1]]) as usize;
    let (table, size, count) = (word(file, 40) as usize, half(file, 58), half(file, 60));
    for section in (0..count).map(|number| table + number * size) {
        if word(file, section + 8) & EXECUTABLE != 0 {
            file[section + 48..section + 56].copy_from_slice(&ALIGNMENT.to_le_bytes());
        }
    }
}
