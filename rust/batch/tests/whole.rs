//! A batch over small sheets says what one sheet says that has all the terms.

mod common;

use common::later::{Later, OTHER_SORT};
use common::random::Random;
use common::{make, said};
use napsilo::{Cause, Lent, Refusal};
use napsilo_batch::{Batch, BatchTerm, Judge, Library, Limits, Refused, Row, Verdicts};
use std::collections::BTreeMap;
use std::fs;
use std::path::PathBuf;

/// How little is put on a sheet.
const SMALL: [Limits; 4] = [
    Limits { sorts: 1, terms: 1, bytes: 1 },
    Limits { terms: 3, ..Limits::SHEET },
    Limits { sorts: 4, terms: 8, bytes: 200 },
    Limits { terms: 20, ..Limits::SHEET },
];

/// What is said of a sheet.
fn judged(judge: &mut impl Judge, sheet: &[u8]) -> Result<model::Judged, Refusal> {
    let lent = Lent::PROGRAM;
    let terms = usize::from(u16::from_le_bytes([sheet[2], sheet[3]]));
    let (mut records, mut places, mut rows) = (vec![0; lent.records], vec![0; lent.places], vec![0; 2 * terms]);
    judge.judge(sheet, &mut records, &mut places, &mut rows)?;
    Ok(model::Judged { number: 0, records, places, rows, answers: Vec::new() })
}

/// The printed rows of the terms of an accepted sheet.
fn whole(judge: &mut impl Judge, sheet: &[u8]) -> Vec<[String; 2]> {
    let judged = judged(judge, sheet).expect("an accepted sheet");
    let texts = judged.rows.iter().map(|word| model::printed::row(&judged, *word)).collect::<Vec<String>>();
    texts.chunks_exact(2).map(|two| [two[0].clone(), two[1].clone()]).collect()
}

/// The printed rows of the terms of an accepted sheet by a batch, and how many sheets that took.
fn in_pieces(judge: &mut impl Judge, sheet: &[u8], limits: Limits) -> (Vec<[String; 2]>, u64) {
    let mut batch = Batch::new();
    let terms = batch.add_sheet(sheet).expect("an accepted sheet");
    let verdicts = batch.judge_by(judge, limits);
    let rows = terms.iter().map(|term| [Row::Inferred, Row::Checked].map(|row| said(&verdicts, *term, row)));
    (rows.collect(), verdicts.batch().sheets())
}

/// The printed line of a term.
fn line(number: usize, rows: &[String; 2]) -> String {
    format!("T{number} {} {}", rows[0], rows[1])
}

#[test]
fn recorded_sheets() {
    let (mut sheets, mut terms) = (0, 0);
    for recorded::Printed { sheet, text } in recorded::printed() {
        let lines: Vec<&str> = text.lines().filter(|line| line.starts_with('T')).collect();
        if lines.is_empty() {
            continue;
        }
        // For want of room a sheet says less than several do.
        if lines.iter().any(|line| line.contains("!23")) {
            continue;
        }
        for limits in SMALL.into_iter().chain([Limits::SHEET]) {
            let (rows, _) = in_pieces(&mut Library, &sheet, limits);
            assert_eq!(rows.len(), lines.len());
            for (number, (rows, recorded)) in rows.iter().zip(&lines).enumerate() {
                assert_eq!(line(number, rows), **recorded, "{limits:?}, sheet {sheet:02x?}");
            }
        }
        sheets += 1;
        terms += lines.len();
    }
    println!("{sheets} sheets, {terms} terms");
    assert!(sheets > 500 && terms > 5_000);
}

/// Terms that have two sorts.
const DIFFERENT: &str = "different";

/// Compares on random sheets; how often each text that is a refusal came and how often two sorts, and how many sheets the batches took.
fn compare(judge: &mut impl Judge, seed: u64, sheets: usize) -> (BTreeMap<String, usize>, u64) {
    let mut random = Random(seed);
    let (mut refused, mut taken) = (BTreeMap::<String, usize>::new(), 0);
    for _ in 0..sheets {
        let terms = 20 + random.under(60);
        let sheet = make::sheet(&mut random, terms);
        let expected = whole(judge, &sheet);
        for limits in SMALL {
            let (rows, count) = in_pieces(judge, &sheet, limits);
            assert_eq!(rows, expected, "{limits:?}, sheet {sheet:02x?}");
            taken += count;
        }
        for (row, text) in expected.iter().flatten().enumerate().filter(|(_, text)| text.starts_with('!')) {
            *refused.entry(format!("{} {text}", ["inferred", "checked"][row % 2])).or_insert(0) += 1;
        }
        let differ = |[one, other]: &&[String; 2]| one != other && !one.starts_with('!') && !other.starts_with('!');
        *refused.entry(DIFFERENT.to_owned()).or_insert(0) += expected.iter().filter(differ).count();
    }
    (refused, taken)
}

#[test]
fn random_sheets() {
    let (refused, taken) = compare(&mut Library, 1, 3_000);
    println!("{taken} sheets, {refused:?}");
    assert_eq!(refused[DIFFERENT], 0);
    for cause in ["inferred !20", "inferred !21", "checked !20", "checked !24", "checked !25", "checked !26"] {
        assert!(refused[cause] > 100, "{cause}");
    }
}

#[test]
fn scopes() {
    let mut later = Later { scopes: true, ..Later::default() };
    let (refused, taken) = compare(&mut later, 2, 2_000);
    println!("{taken} sheets, {refused:?}");
    assert!(refused[&format!("checked !{OTHER_SORT}")] > 1_000);
}

#[test]
fn rows_with_different_sorts() {
    let mut later = Later { lengths_are_real: true, ..Later::default() };
    let (refused, taken) = compare(&mut later, 3, 2_000);
    println!("{taken} sheets, {refused:?}");
    assert!(refused[DIFFERENT] > 1_000);
}

/// The library with little room in its store.
struct Tight {
    places: usize,
    bytes: usize,
}

impl Judge for Tight {
    fn judge(&mut self, sheet: &[u8], records: &mut [u8], places: &mut [u32], rows: &mut [u32]) -> Result<(), Refusal> {
        records.fill(0);
        places.fill(0);
        Library.judge(sheet, &mut records[..self.bytes], &mut places[..self.places], rows)
    }
}

/// Whether what a batch says is for want of room: 23 or 10 itself, or 20 over it.
fn for_room(verdicts: &Verdicts<'_>, term: BatchTerm, row: Row) -> bool {
    let source = verdicts.source(term, row).map(|source| verdicts.verdict(source, row));
    matches!(source, Some(Err(Refused::Row(Cause::Full) | Refused::Sheet(Refusal::Store))))
}

/// Where a sheet has no room, the terms are judged again on smaller ones; what is said then is what one sheet says that has room.
#[test]
fn little_room() {
    let mut random = Random(4);
    let [mut same, mut without, mut whole_without] = [0; 3];
    for _ in 0..2_000 {
        let sheet = make::sheet(&mut random, 60);
        let expected = whole(&mut Library, &sheet);
        let mut tight = Tight { places: 7 + random.under(6), bytes: 40 + random.under(60) };
        let mut batch = Batch::new();
        let terms = batch.add_sheet(&sheet).expect("an accepted sheet");
        let limits = random.one(&[Limits { terms: 20, ..Limits::SHEET }, Limits::SHEET]);
        let verdicts = batch.judge_by(&mut tight, limits);
        for (number, (term, expected)) in terms.iter().zip(&expected).enumerate() {
            for (row, expected) in [Row::Inferred, Row::Checked].into_iter().zip(expected) {
                if for_room(&verdicts, *term, row) {
                    without += 1;
                } else {
                    assert_eq!(said(&verdicts, *term, row), *expected, "T{number} {row:?}, sheet {sheet:02x?}");
                    same += 1;
                }
            }
        }
        whole_without += match judged(&mut tight, &sheet) {
            Err(_) => 2 * terms.len(),
            Ok(judged) => judged.rows.iter().filter(|row| **row >> 16 == 23).count(),
        };
    }
    println!("{same} rows as with room, {without} without; without on whole sheets {whole_without}");
    assert!(without > 0 && 20 * without < same && 5 * without < whole_without);
}

/// What stands here for the library that looks at scopes says what is recorded of such a one: which rows are refused for a bound name with
/// another sort, and all others.
#[test]
fn scopes_are_as_recorded() {
    let folder = PathBuf::from(std::env::var_os("NAPSILO_VECTORS").unwrap_or_default());
    let Ok(text) = fs::read_to_string(folder.join("after-A.4/program.txt")) else {
        return recorded::skipped("NAPSILO_VECTORS names no folder with after-A.4/program.txt");
    };
    let mut later = Later { scopes: true, ..Later::default() };
    let mut found = 0;
    for block in text.split("\n\n") {
        let mut lines = block.trim_start().lines();
        let Some(hex) = lines.next().and_then(|line| line.strip_prefix("sheet ")) else { continue };
        let sheet = recorded::bytes(hex);
        // A sheet may have what the model does not read yet.
        if sheet.len() < 6 || judged(&mut later, &sheet).is_err() {
            continue;
        }
        for (rows, line) in whole(&mut later, &sheet).iter().zip(lines) {
            let ours = rows.join(" ").replace(&format!("!{OTHER_SORT}"), "!30");
            let (_, recorded) = line.trim_start().split_once(' ').expect("a term, then its rows");
            assert_eq!(ours, recorded, "{line}, sheet {hex}");
            found += usize::from(ours.ends_with("!30"));
        }
    }
    println!("{found} rows");
    assert!(found > 0);
}
