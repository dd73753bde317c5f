//! Every number that a printout can hold: all names, widths, and numbers of terms and questions, held to Rust's own decimal digits; and
//! that a line fits a buffer of exactly its length and none that is a byte shorter.

mod common;

use common::n;
use napsilo::{
    GREATEST_WIDTH, MOST_QUESTIONS, MOST_SORTS, MOST_TERMS, QuestionRecord, SheetWriter, SortRecord, TermRecord, print,
    print_into,
};
use std::fmt::Write;

/// The sorts of a sheet, each with a variable of it, and the lines that these must give.
#[derive(Default)]
struct Variables {
    sheet: SheetWriter,
    lines: String,
}

impl Variables {
    /// Adds a variable of this sort, with the texts of its two rows.
    fn add(&mut self, sort: SortRecord<'_>, inferred: &str, checked: &str) {
        let number = self.sheet.terms();
        let sort = self.sheet.add_sort(sort).expect("a sort");
        self.sheet.add_term(TermRecord::Var(n(1), sort)).expect("a term");
        writeln!(self.lines, "T{number} {inferred} {checked}").expect("a string takes it");
    }

    /// Holds the printout of the sheet to the lines.
    fn try_it(&self) {
        assert_eq!(print(&self.sheet.finish()), self.lines);
    }
}

#[test]
fn every_name() {
    let names: Vec<u16> = (0..=u16::MAX).collect();
    for some in names.chunks(MOST_SORTS) {
        let mut of = Variables::default();
        for name in some {
            let text = if *name == 0 { "?".to_owned() } else { format!("n{name}") };
            of.add(SortRecord::Atom(n(*name), &[]), &text, &text);
        }
        of.try_it();
    }
}

#[test]
fn every_width() {
    let widths: Vec<u32> = (0..=GREATEST_WIDTH).collect();
    for some in widths.chunks(MOST_SORTS) {
        let mut of = Variables::default();
        for width in some {
            let text = format!("(_ BitVec {width})");
            of.add(SortRecord::BitVec(*width), &text, if *width == 0 { "!28" } else { &text });
        }
        of.try_it();
    }
}

/// A sheet of as many terms and questions as there can be, and its lines.
fn full() -> (SheetWriter, Vec<String>) {
    let mut sheet = SheetWriter::new();
    let bool = sheet.add_sort(SortRecord::Bool).expect("a sort");
    for _ in 0..MOST_TERMS {
        sheet.add_term(TermRecord::Var(n(1), bool)).expect("a term");
    }
    for _ in 0..MOST_QUESTIONS {
        sheet.add_question(QuestionRecord::Compatible(bool, bool)).expect("a question");
    }
    let terms = (0..MOST_TERMS).map(|number| format!("T{number} Bool Bool\n"));
    let lines = terms.chain((0..MOST_QUESTIONS).map(|number| format!("Q{number} yes\n"))).collect();
    (sheet, lines)
}

#[test]
fn every_term_and_question() {
    let (sheet, lines) = full();
    assert_eq!(print(&sheet.finish()), lines.concat());
}

/// The first and the last line of each length, of the terms and of the questions.
#[test]
fn lines_and_their_lengths() {
    let (sheet, lines) = full();
    let sheet = sheet.finish();
    let mut tried = 0;
    for (at, line) in lines.iter().enumerate() {
        let beside = [at.checked_sub(1), Some(at + 1)].map(|other| other.and_then(|other| lines.get(other)));
        if beside.iter().all(|other| other.is_some_and(|other| other.len() == line.len())) {
            continue;
        }
        let mut buffer = vec![0xa5; line.len()];
        assert_eq!(print_into(&sheet, at, &mut buffer), line.len());
        assert_eq!(buffer, line.as_bytes());
        let mut short = vec![0xa5; line.len() - 1];
        assert_eq!(print_into(&sheet, at, &mut short), 0);
        assert!(short.iter().all(|byte| *byte == 0xa5), "{line}");
        tried += 1;
    }
    // Numbers of one to four digits, the first and the last of each, of terms and of questions.
    assert_eq!(tried, 16);
}
