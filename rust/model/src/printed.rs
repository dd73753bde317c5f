//! The printout, read from the buffers at exit.

use crate::reader::{self, Lent, Sheet};
use crate::sort::{KINDS, Kind};
use crate::{Judged, judge};
use std::fmt::Write;

/// The program's buffers.
const PROGRAM: Lent = Lent { records: 65_536, places: 4_096, rows: 8_192, answers: 1_024 };

/// A sheet as it is read and as it is judged with the program's buffers, or the number of its refusal.
pub(crate) fn program(sheet: &[u8]) -> Result<(Sheet, Judged), u8> {
    let judged = judge(sheet, PROGRAM.records, PROGRAM.places, PROGRAM.rows, PROGRAM.answers);
    match reader::read(sheet, &PROGRAM) {
        Ok((read, _)) => Ok((read, judged)),
        Err(_) => Err(judged.number),
    }
}

/// What the program prints for a sheet.
pub fn printout(sheet: &[u8]) -> String {
    let mut text = String::new();
    let (read, judged) = match program(sheet) {
        Ok(both) => both,
        Err(number) => return format!("!{number}\n"),
    };
    for number in 0..read.terms.len() {
        let [inferred, checked] = [0, 1].map(|column| row(&judged, judged.rows[2 * number + column]));
        writeln!(text, "T{number} {inferred} {checked}").expect("text can be written");
    }
    for (number, question) in read.questions.iter().enumerate() {
        let word = judged.answers[number];
        let answer = match (question.kind, word) {
            (0, 1) => "yes".to_owned(),
            (0, _) => "no".to_owned(),
            _ => row(&judged, word),
        };
        writeln!(text, "Q{number} {answer}").expect("text can be written");
    }
    text
}

/// The text of a coded row.
pub fn row(judged: &Judged, word: u32) -> String {
    match word >> 16 {
        0 => sort(judged, word),
        refusal => format!("!{refusal}"),
    }
}

/// The text of a name.
fn name(number: u32) -> String {
    match number {
        0 => "?".to_owned(),
        _ => format!("n{number}"),
    }
}

/// The text of the sort with this store number, from the store's bytes.
fn sort(judged: &Judged, number: u32) -> String {
    let record = &judged.records[judged.places[number as usize] as usize..];
    let short = |at: usize| u32::from(record[at]) + 256 * u32::from(record[at + 1]);
    let list =
        |at: usize| -> Vec<u32> { (0..usize::from(record[at])).map(|entry| short(at + 1 + 2 * entry)).collect() };
    // An opening, the parts of a list at this place with a blank before each, and a closing.
    let around = |open: &str, at: usize, close: &str| -> String {
        let parts: String = list(at).into_iter().map(|part| format!(" {}", sort(judged, part))).collect();
        format!("{open}{parts}{close}")
    };
    match KINDS[usize::from(record[1])] {
        Kind::Function => around("(->", 2, ")"),
        Kind::Atom if record[4] == 0 => name(short(2)),
        Kind::Atom => around(&format!("({}", name(short(2))), 4, ")"),
        Kind::Var => format!("'{}", name(short(2))),
        Kind::Bool => "Bool".to_owned(),
        Kind::Int => "Int".to_owned(),
        Kind::Real => "Real".to_owned(),
        Kind::String => "String".to_owned(),
        Kind::RegLan => "RegLan".to_owned(),
        Kind::Array => around("(Array", 2, ")"),
        Kind::BitVec => format!("(_ BitVec {})", short(2)),
        Kind::ParamBitVec => "(_ BitVec ?)".to_owned(),
        Kind::Datatype => around(&format!("[{}", name(short(2))), 4, "]"),
        Kind::Par => {
            let names: Vec<String> = list(5).into_iter().map(name).collect();
            around(&format!("(par ({})", names.join(" ")), 2, ")")
        }
        Kind::Type => "Type".to_owned(),
        Kind::Set => around("(Set", 2, ")"),
        Kind::Tuple => around("(Tuple", 2, ")"),
    }
}
