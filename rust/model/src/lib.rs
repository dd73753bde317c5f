//! A model of the whole: what a sheet gives, for every sheet and every length of the lent buffers.
//!
//! It is a second reading of the specification (the sheet, the store, the two rows, the questions, the causes and their order), written to
//! be compared with the program and with the Rust, and shares no code with either: sorts are trees, maps are ordered maps, and nothing
//! is done in place. [`judge`] gives the buffers at exit over their whole lent length, [`printout`] the program's text, [`page()`] the rows
//! on pages. The command `model` prints both.
//!
//! - [`sort`]: sorts as trees, with tree sizes and limits;
//! - [`reader`]: sheets, and why one is refused;
//! - [`store`]: the store, its records and places;
//! - [`substitution`]: substitution, matching by the definition, and the Rust's matching and compatibility;
//! - [`operator`]: the operators by number;
//! - [`inferred`], [`checked`], [`question`]: the two rows and the answers;
//! - [`printed`]: the text, read from the buffers;
//! - [`mod@page`]: the rows on pages.

pub mod checked;
pub mod inferred;
pub mod operator;
pub mod page;
pub mod printed;
pub mod question;
pub mod reader;
pub mod sort;
pub mod store;
pub mod substitution;

use reader::{Lent, Sheet, Term};
use sort::Tree;
use store::Store;

pub use page::{page, write_page};
pub use printed::printout;

/// Why a row or an answer is refused. The number of a cause is its value.
#[derive(Debug, Clone, Copy, PartialEq, Eq)]
#[repr(u8)]
pub enum Cause {
    /// A referenced term's same row is refused.
    Below = 20,
    /// The Rust panics.
    Panic = 21,
    /// The answer's width, list or tree is over its limit.
    Limit = 22,
    /// The store can't hold the answer's sorts.
    Full = 23,
    /// No rank.
    Unranked = 24,
    /// A wrong count of arguments, bindings or indices, or an index that is no integer constant or out of range.
    Count = 25,
    /// An argument's sort fits no rank, the head is no function, or the sort of a `const` is no Array, of a `set.empty` or `set.universe` no Set.
    Unfit = 26,
    /// The result keeps an unassigned parameter.
    Unassigned = 27,
    /// A sort holds what it may not hold, or a question to match is outside matching's premise.
    Held = 28,
    /// There is no assignment.
    Unmatched = 29,
}

/// What a sheet gives: 0 or the number of its refusal, and each lent buffer at exit.
#[derive(Debug, Clone, PartialEq, Eq)]
pub struct Judged {
    /// 0, or why the sheet is refused.
    pub number: u8,
    /// The bytes of the store's records.
    pub records: Vec<u8>,
    /// Where each record starts.
    pub places: Vec<u32>,
    /// The rows: of each term the inferred one, then the checked one.
    pub rows: Vec<u32>,
    /// The answers.
    pub answers: Vec<u32>,
}

/// Judges a sheet with buffers of these lengths.
pub fn judge(sheet: &[u8], records_len: usize, places_len: usize, rows_len: usize, answers_len: usize) -> Judged {
    let lent = Lent { records: records_len, places: places_len, rows: rows_len, answers: answers_len };
    let mut judged = Judged {
        number: 0,
        records: vec![0; records_len],
        places: vec![0; places_len],
        rows: vec![0; rows_len],
        answers: vec![0; answers_len],
    };
    match reader::read(sheet, &lent) {
        Err(refusal) => judged.number = refusal as u8,
        Ok((sheet, mut store)) => {
            let (rows, answers) = verdicts(&sheet, &mut store);
            fill(&mut judged.rows, &rows);
            fill(&mut judged.answers, &answers);
            fill(&mut judged.places, store.places());
            fill(&mut judged.records, store.records());
        }
    }
    judged
}

/// Puts values at the start of a buffer.
fn fill<T: Copy>(buffer: &mut [T], values: &[T]) {
    buffer[..values.len()].copy_from_slice(values);
}

/// The rows and answers of an accepted sheet, coded.
fn verdicts(sheet: &Sheet, store: &mut Store) -> (Vec<u32>, Vec<u32>) {
    let mut coded = Vec::new();
    let mut inferred: Vec<Option<Tree>> = Vec::new();
    let mut checked: Vec<Option<Tree>> = Vec::new();
    for term in &sheet.terms {
        let row = sorts_below(term, &inferred).and_then(|below| inferred::infer(&sheet.terms, term, &below));
        coded.push(settle(row, store, &mut inferred));
        let row = sorts_below(term, &checked).and_then(|below| checked::check(&sheet.terms, term, &below));
        coded.push(settle(row, store, &mut checked));
    }
    let answers = sheet.questions.iter().map(|question| match question::answer(question) {
        question::Answer::Compatible(yes) => u32::from(yes),
        question::Answer::Row(row) => code(&held(row, store)),
    });
    (coded, answers.collect())
}

/// The sorts of the terms in a term's list, by one column of the rows. Refused if one of them, or of its index terms, is.
fn sorts_below(term: &Term, rows: &[Option<Tree>]) -> Result<Vec<Tree>, Cause> {
    let sort = |number: &usize| rows[*number].clone().ok_or(Cause::Below);
    let list = term.list.iter().map(sort).collect::<Result<_, _>>()?;
    term.indices.iter().try_for_each(|number| sort(number).map(drop))?;
    Ok(list)
}

/// Puts a row's sort into the store: its number there, or the refusal, which can now be 22 or 23.
fn held(row: Result<Tree, Cause>, store: &mut Store) -> Result<(u16, Tree), Cause> {
    let sort = row?;
    if !sort.within_limits() {
        return Err(Cause::Limit);
    }
    let number = store.put(&sort).ok_or(Cause::Full)?;
    Ok((number, sort))
}

/// Puts a row's sort into the store, remembers it for the terms above and codes the row.
fn settle(row: Result<Tree, Cause>, store: &mut Store, rows: &mut Vec<Option<Tree>>) -> u32 {
    let row = held(row, store);
    let word = code(&row);
    rows.push(row.ok().map(|(_, sort)| sort));
    word
}

/// A row as a word: refusal times 65,536, plus the store number.
fn code(row: &Result<(u16, Tree), Cause>) -> u32 {
    match row {
        Ok((number, _)) => u32::from(*number),
        Err(cause) => (*cause as u32) << 16,
    }
}
