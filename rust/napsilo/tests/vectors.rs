//! Recorded sheets: the program's printouts, and the library's buffers at exit over their whole lent length.
//!
//! They are those of the repository and of docs/FORMAT.md, and those of the folder that `NAPSILO_VECTORS` names, if it names one.

use napsilo::{Binder, Operator, ParamOperator, QualifiedOperator, Refusal, judge_into, print, print_into};
use recorded::{format, hex, ranks};
use std::collections::BTreeMap;

/// The most lines of a printout that is asked for piece by piece: the sheet is judged anew for every piece.
const MOST_PIECES: usize = 300;

#[test]
fn the_program() {
    let sheets = recorded::printed();
    let mut lines = 0;
    let mut refused: BTreeMap<String, usize> = BTreeMap::new();
    for vector in &sheets {
        let printed = print(&vector.sheet);
        assert_eq!(printed, vector.text, "{}", hex(&vector.sheet));
        let count = vector.text.lines().count();
        if count <= MOST_PIECES {
            in_pieces(&vector.sheet, &vector.text);
        }
        lines += count;
        if printed.starts_with('!') {
            *refused.entry(printed.trim_end().to_owned()).or_default() += 1;
        }
    }
    println!("{} sheets, {lines} lines; refused: {refused:?}", sheets.len());
}

/// The printout in pieces, in a buffer that just holds the longest line: together they are the whole.
fn in_pieces(sheet: &[u8], expected: &str) {
    let longest = expected.lines().map(|line| line.len() + 1).max().unwrap_or(0);
    let mut buffer = vec![0xa5; longest];
    let mut text = Vec::new();
    loop {
        let line = text.iter().filter(|byte| **byte == b'\n').count();
        let end = print_into(sheet, line, &mut buffer);
        if end == 0 {
            break;
        }
        text.extend_from_slice(&buffer[..end]);
    }
    assert_eq!(String::from_utf8(text).as_deref(), Ok(expected), "{}", hex(sheet));
}

#[test]
fn the_library() {
    let sheets = recorded::buffers();
    let mut outcomes: BTreeMap<u32, usize> = BTreeMap::new();
    for vector in &sheets {
        let [records, places, rows, answers] = vector.lent;
        // The buffers come dirty.
        let mut record_bytes = vec![0xa5; records];
        let mut place_words = vec![0xa5a5_a5a5; places];
        let mut row_words = vec![0xa5a5_a5a5; rows];
        let mut answer_words = vec![0xa5a5_a5a5; answers];
        let said = judge_into(&vector.sheet, &mut record_bytes, &mut place_words, &mut row_words, &mut answer_words);
        let said = said.err().map_or(0, Refusal::number);
        assert_eq!(said, vector.outcome, "{}", hex(&vector.sheet));
        assert_eq!(hex(&record_bytes), hex(&vector.records), "{}", hex(&vector.sheet));
        assert_eq!(place_words, vector.places, "{}", hex(&vector.sheet));
        assert_eq!(row_words, vector.rows, "{}", hex(&vector.sheet));
        assert_eq!(answer_words, vector.answers, "{}", hex(&vector.sheet));
        *outcomes.entry(said).or_default() += 1;
    }
    println!("{} sheets; by outcome: {outcomes:?}", sheets.len());
}

#[test]
fn the_table_of_ranks() {
    for ranked in ranks::sheets() {
        let text = print(&ranked.sheet);
        assert!(ranked.is_in(&text), "{text}not {ranked:?}");
    }
}

/// The number, the name and the symbol of each of these operators.
macro_rules! listed {
    ($of:ident) => {
        $of::ALL
            .iter()
            .map(|op| (u32::from(op.number()), format!("{op:?}"), op.symbol().to_owned()))
            .collect::<Vec<_>>()
    };
}

#[test]
fn the_operators_of_the_page_are_those_of_this_crate() {
    assert_eq!(format::operators("Operators"), listed!(Operator));
    assert_eq!(format::operators("Indexed operators"), listed!(ParamOperator));
    assert_eq!(format::operators("Qualified operators"), listed!(QualifiedOperator));
    assert_eq!(format::operators("Binders"), listed!(Binder));
}
