//! The printout, by the library; and its lines with the user's names.

use crate::{Answer, Judged, Names, Row, ffi};
use std::fmt;

/// The length of a buffer that holds every line of a printout: a piece for it has a line at least, if one is left.
pub const LINE_BUFFER: usize = 1_937_856;

/// The length of the first buffer that [`print`] lends. Nearly every printout fits it, and so does the line of a refused sheet.
const FIRST_BUFFER: usize = 65_536;

/// What the program prints for a sheet: for an accepted one a line `Tk inferred checked` for each term and a line `Qk answer` for each
/// question, for a refused one the line `!n` with the number of the refusal.
///
/// The text is the library's, whose every byte is proved; here its pieces are put together. The library judges the sheet, with the
/// buffers that the program lends, once for each piece. A printout of up to 65,536 bytes is one piece, of a longer one the others are of
/// up to [`LINE_BUFFER`] bytes. There are sheets with printouts of many gigabytes; [`print_into`] gives them piece by piece.
///
/// # Panics
/// If the library stops before the last line; it is proved not to.
pub fn print(sheet: &[u8]) -> String {
    let mut text = Vec::new();
    let mut buffer = vec![0; FIRST_BUFFER];
    let mut line = 0;
    loop {
        let end = print_into(sheet, line, &mut buffer);
        line += lines(&buffer[..end]);
        text.extend_from_slice(&buffer[..end]);
        if line == all_lines(sheet, &text) {
            return String::from_utf8(text).expect("the library writes ASCII");
        }
        assert!(end != 0 || buffer.len() < LINE_BUFFER, "the library stops before the last line");
        buffer.resize(LINE_BUFFER, 0);
    }
}

/// Writes the printout of a sheet into a lent buffer of any length, whatever it holds: its whole lines from the number `from` on, as many
/// as fit, from the start of the buffer on. Gives the place behind them; what lies there is as it was.
///
/// The number of the next line is `from` and as many more as newlines were written: every line has one, at its end. 0 says that there is
/// no line `from`, or that it does not fit; in a buffer of [`LINE_BUFFER`] bytes every line fits.
///
/// The library judges the sheet anew at every call, with the buffers that the program lends, on the stack of the caller, of which
/// [`STACK`](crate::STACK) bytes must be left.
pub fn print_into(sheet: &[u8], from: usize, out: &mut [u8]) -> usize {
    ffi::text(sheet, from, out)
}

/// The number of whole lines in a text: of its newlines.
fn lines(text: &[u8]) -> usize {
    text.iter().filter(|byte| **byte == b'\n').count()
}

/// The number of lines of a sheet's whole printout, of which this is the beginning. A refused sheet's is not empty.
fn all_lines(sheet: &[u8], text: &[u8]) -> usize {
    match (text.first(), sheet) {
        (Some(b'!'), _) => 1,
        (_, [_, _, terms_low, terms_high, questions_low, questions_high, ..]) => {
            let [terms, questions] = [[terms_low, terms_high], [questions_low, questions_high]]
                .map(|[low, high]| usize::from(u16::from_le_bytes([*low, *high])));
            terms + questions
        }
        _ => panic!("the library accepts a sheet without a header"),
    }
}

impl Judged {
    /// The lines of the printout with the strings of a table in place of the names that the table gave out: `Tk inferred checked` for each
    /// term, `Qk answer` for each question. This text is made here, from the rows; [`print()`] gives the library's own.
    pub fn with_names<'a>(&'a self, names: &'a Names) -> impl fmt::Display + 'a {
        NamedLines { judged: self, names }
    }
}

/// A judgement with a table for its names.
struct NamedLines<'a> {
    judged: &'a Judged,
    names: &'a Names,
}

impl NamedLines<'_> {
    /// Writes a row behind a blank.
    fn row(&self, f: &mut fmt::Formatter<'_>, row: &Row) -> fmt::Result {
        match row {
            Ok(sort) => write!(f, " {}", sort.with_names(self.names)),
            Err(cause) => write!(f, " !{}", cause.number()),
        }
    }
}

impl fmt::Display for NamedLines<'_> {
    fn fmt(&self, f: &mut fmt::Formatter<'_>) -> fmt::Result {
        for (number, (inferred, checked)) in self.judged.rows().enumerate() {
            write!(f, "T{number}")?;
            self.row(f, inferred)?;
            self.row(f, checked)?;
            f.write_str("\n")?;
        }
        for (number, answer) in self.judged.answers().iter().enumerate() {
            write!(f, "Q{number}")?;
            match answer {
                Answer::Compatible(yes) => f.write_str(if *yes { " yes" } else { " no" })?,
                Answer::Sort(row) => self.row(f, row)?,
            }
            f.write_str("\n")?;
        }
        Ok(())
    }
}
