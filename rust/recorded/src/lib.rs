//! The sheets that this repository records with what they give, for tests. Nothing here judges a sheet.
//!
//! | sheets | where they stand |
//! |---|---|
//! | with printouts | `crates/replay`: `data/sheets.bin` has the sheets, `stdout` the printouts |
//! | with lent lengths and whole buffers | `crates/replay_lent`, likewise |
//! | with pages | `crates/replay_page`, likewise |
//! | both | `docs/FORMAT.md`, in its examples ([`format`]) |
//! | both | `program.txt` and `library.txt` of the folder that `NAPSILO_VECTORS` names, if it names one |
//!
//! docs/VECTORS.md says where the expected results of the first three come from.

pub mod format;
mod parse;
pub mod ranks;

pub use parse::{bytes, hex};

use parse::{blocks, buffers_of, numbered};
use std::env;
use std::fs;
use std::io::{self, Write};
use std::path::{Path, PathBuf};

/// A sheet and what a program prints for it.
#[derive(Debug, Clone, PartialEq, Eq)]
pub struct Printed {
    /// The sheet.
    pub sheet: Vec<u8>,
    /// The lines, each with its newline.
    pub text: String,
}

/// A sheet, the lengths of the lent buffers, and what the library gives: 0 or the number of a refused sheet, and each buffer whole.
#[derive(Debug, Clone, PartialEq, Eq)]
#[allow(missing_docs)]
pub struct Buffers {
    pub sheet: Vec<u8>,
    pub lent: [usize; 4],
    pub outcome: u32,
    pub records: Vec<u8>,
    pub places: Vec<u32>,
    pub rows: Vec<u32>,
    pub answers: Vec<u32>,
}

/// Says that a test tries nothing, and why. It goes past the capture of tests' output, so that `cargo test` shows it.
pub fn skipped(reason: &str) {
    // A test may go on where standard error is closed.
    let _ = io::stderr().write_all(format!("skipped: {reason}\n").as_bytes());
}

/// A path from the top of the repository.
pub fn path(of: &str) -> PathBuf {
    Path::new(env!("CARGO_MANIFEST_DIR")).join("../..").join(of)
}

/// The bytes of a file of the repository.
///
/// # Panics
/// If it cannot be read.
pub fn read(of: &str) -> Vec<u8> {
    fs::read(path(of)).unwrap_or_else(|error| panic!("{of}: {error}"))
}

/// The text of a file of the repository.
///
/// # Panics
/// If it cannot be read, or is no text.
pub fn text(of: &str) -> String {
    String::from_utf8(read(of)).unwrap_or_else(|error| panic!("{of}: {error}"))
}

/// The text of a file in the folder that `NAPSILO_VECTORS` names, empty if it names none.
fn named(file: &str) -> String {
    let Some(folder) = env::var_os("NAPSILO_VECTORS") else {
        return String::new();
    };
    let path = PathBuf::from(folder).join(file);
    fs::read_to_string(&path).unwrap_or_else(|error| panic!("{}: {error}", path.display()))
}

/// The recorded sheets of a crate and what it prints for each: in the file a sheet stands behind its length in four bytes.
fn of_crate(name: &str) -> Vec<Printed> {
    let (data, expected) = (read(&format!("crates/{name}/data/sheets.bin")), text(&format!("crates/{name}/stdout")));
    let mut rest = data.as_slice();
    let mut all = Vec::new();
    for lines in numbered(&expected) {
        let (length, behind) = rest.split_at(4);
        let length = u32::from_le_bytes(length.try_into().expect("four bytes"));
        let (sheet, behind) = behind.split_at(usize::try_from(length).expect("a length"));
        all.push(Printed { sheet: sheet.to_vec(), text: lines.concat() });
        rest = behind;
    }
    assert!(rest.is_empty(), "{name}: as many sheets as printouts");
    all
}

/// All sheets with recorded pages.
///
/// # Panics
/// As [`printed`].
pub fn paged() -> Vec<Printed> {
    of_crate("replay_page")
}

/// All sheets with a recorded printout.
///
/// # Panics
/// If a recorded file cannot be read or is not of its form.
pub fn printed() -> Vec<Printed> {
    let mut all = of_crate("replay");
    for block in blocks(&named("program.txt")) {
        let sheet = bytes(block[0].strip_prefix("sheet").expect("a sheet comes first"));
        let line = |line: &&str| format!("{}\n", line.strip_prefix("  ").expect("two blanks"));
        all.push(Printed { sheet, text: block[1..].iter().map(line).collect() });
    }
    all.extend(format::printed());
    all
}

/// All sheets with recorded buffers.
///
/// # Panics
/// As [`printed`].
pub fn buffers() -> Vec<Buffers> {
    let (data, expected) = (read("crates/replay_lent/data/sheets.bin"), text("crates/replay_lent/stdout"));
    let mut rest = data.as_slice();
    let mut all: Vec<Buffers> = Vec::new();
    for lines in numbered(&expected) {
        let (head, behind) = rest.split_at(10);
        let number = |at: usize| usize::from(u16::from_le_bytes([head[at], head[at + 1]]));
        let (sheet, behind) = behind.split_at(number(8));
        all.push(buffers_of(sheet.to_vec(), [number(0), number(2), number(4), number(6)], &lines));
        rest = behind;
    }
    assert!(rest.is_empty(), "as many sheets as results");
    for block in blocks(&named("library.txt")) {
        let words: Vec<&str> = block[0].split_whitespace().collect();
        let lent = [words[2], words[4], words[6], words[8]].map(|word| word.parse().expect("a length"));
        let sheet = bytes(block[1].strip_prefix("sheet").expect("a sheet comes second"));
        all.push(buffers_of(sheet, lent, &block[2..]));
    }
    all.extend(format::buffers());
    all
}
