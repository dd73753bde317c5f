//! Sheets, libraries to come, and the text of what a batch says.

pub mod later;
pub mod make;
pub mod random;

use napsilo_batch::{BatchTerm, Row, Verdicts};

/// The text of what a batch says of a term in a row, as the program prints it.
pub fn said(verdicts: &Verdicts<'_>, term: BatchTerm, row: Row) -> String {
    match verdicts.verdict(term, row) {
        Ok(sort) => verdicts.batch().text(sort).to_string(),
        Err(refused) => format!("!{}", refused.number()),
    }
}
