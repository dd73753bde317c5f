//! The page for the rule meeting: the rows on lines of 80 columns.
//!
//! It is written from the request's sentences: each byte of a text is put where its column says it stands, on lines that are blank before.
//!
//! | columns | what stands there |
//! |---|---|
//! | 1 to 6 | the term number without T, right-justified, on a row's first line |
//! | 7 | a blank |
//! | 8 to 43 | the text of the inferred row; its 37th byte stands below its first, and so on |
//! | 44 | a blank |
//! | 45 to 80 | the text of the checked row, likewise |

use crate::printed::{program, row};
use std::io::{self, Write};

/// The columns of a line.
const COLUMNS: usize = 80;

/// Where the number ends.
const NUMBER_END: usize = 6;

/// Where the texts of the inferred and the checked row begin.
const STARTS: [usize; 2] = [7, 44];

/// The columns of a text.
const WIDTH: usize = 36;

/// The lines of a page.
const PAGE: usize = 60;

/// A line of blanks.
const BLANK: [u8; COLUMNS] = [b' '; COLUMNS];

/// What the second program prints for a sheet: the pages of an accepted one, the line `!n` of a refused one.
///
/// # Panics
/// Never: a page is ASCII, and memory takes all that is written.
pub fn page(sheet: &[u8]) -> String {
    let mut out = Vec::new();
    write_page(sheet, &mut out).expect("memory takes all");
    String::from_utf8(out).expect("a page is ASCII")
}

/// Writes what [`page`] gives, a row at a time.
///
/// # Errors
/// Where a write fails.
pub fn write_page(sheet: &[u8], out: &mut impl Write) -> io::Result<()> {
    match program(sheet) {
        Err(number) => writeln!(out, "!{number}"),
        Ok((read, judged)) => {
            let texts = |number: usize| [0, 1].map(|column| row(&judged, judged.rows[2 * number + column]));
            write_rows((0..read.terms.len()).map(texts), out)
        }
    }
}

/// Writes the pages of rows, each by the texts of its inferred and its checked sort: nothing if there are none.
///
/// # Errors
/// Where a write fails.
pub fn write_rows(rows: impl IntoIterator<Item = [String; 2]>, out: &mut impl Write) -> io::Result<()> {
    let mut lines = 0;
    for (number, texts) in rows.into_iter().enumerate() {
        for line in row_lines(number, &texts) {
            write_line(&line, out)?;
            lines += 1;
        }
    }
    while lines % PAGE != 0 {
        write_line(&BLANK, out)?;
        lines += 1;
    }
    Ok(())
}

/// Writes a line and its newline, which is no column.
fn write_line(line: &[u8], out: &mut impl Write) -> io::Result<()> {
    out.write_all(line)?;
    out.write_all(b"\n")
}

/// The lines of a row: as many as the longer of its two texts fills.
fn row_lines(number: usize, texts: &[String; 2]) -> Vec<[u8; COLUMNS]> {
    let longest = texts.iter().map(String::len).max().unwrap_or(0);
    let mut lines = vec![BLANK; longest.div_ceil(WIDTH).max(1)];
    let digits = number.to_string();
    lines[0][NUMBER_END - digits.len()..NUMBER_END].copy_from_slice(digits.as_bytes());
    for (start, text) in STARTS.into_iter().zip(texts) {
        for (at, byte) in text.bytes().enumerate() {
            lines[at / WIDTH][start + at % WIDTH] = byte;
        }
    }
    lines
}
