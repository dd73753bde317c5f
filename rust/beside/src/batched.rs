//! A batch over small sheets beside one sheet that has all the terms, and beside carcara.
//!
//! The sorts and terms of a sheet go into a batch, which may put little on a sheet of its own. The inferred rows must be carcara's and those of
//! the whole sheet, the checked rows those of the whole sheet.

use crate::random::Random;
use crate::{Difference, cause, differ, text};
use napsilo::judge;
use napsilo_batch::{Batch, BatchTerm, Library, Limits, Row, Verdicts};
use std::fmt::Write;

/// What was compared so far.
#[derive(Debug, Clone, Default)]
pub struct Batched {
    /// Sheets that were accepted, and sheets that were refused.
    pub sheets: [usize; 2],
    /// The sheets that the batches wrote.
    pub taken: u64,
    /// Rows by their number, the inferred ones first; a sort counts at 0.
    pub rows: [[usize; 30]; 2],
}

impl Batched {
    /// Compares on one sheet whose store has room, with limits that are drawn.
    pub fn sheet(&mut self, sheet: &[u8], random: &mut Random) -> Result<(), Difference> {
        let mut batch = Batch::new();
        let (whole, terms) = match (judge(sheet), batch.add_sheet(sheet)) {
            (Err(refusal), Err(other)) if refusal == other => {
                self.sheets[1] += 1;
                return Ok(());
            }
            (Ok(whole), Ok(terms)) => (whole, terms),
            _ => return Err(differ(sheet, "refused by one of both alone")),
        };
        let Some(said) = oracle::sheet::read(sheet).and_then(|read| oracle::ask::ask(&read)) else {
            return Err(differ(sheet, "the oracle refuses what the library accepts"));
        };
        let limits = limits(random);
        let verdicts = batch.judge_by(&mut Library, limits);
        for (number, ((rows, carcara), term)) in whole.rows().zip(&said.rows).zip(terms).enumerate() {
            let carcara = oracle::text::row(carcara);
            for (row, of_whole) in [(Row::Inferred, rows.0), (Row::Checked, rows.1)] {
                let of_batch = said_by(&verdicts, term, row);
                let same = of_batch == text(of_whole) && (row == Row::Checked || of_batch == carcara);
                if !same {
                    let whole = text(of_whole);
                    let how = format!(
                        "T{number} {row:?}, {limits:?}: batch {of_batch}, whole {whole}, carcara infers {carcara}"
                    );
                    return Err(differ(sheet, &how));
                }
                self.rows[row as usize][cause(of_whole)] += 1;
            }
        }
        self.sheets[0] += 1;
        self.taken += verdicts.batch().sheets();
        Ok(())
    }

    /// The counts.
    pub fn summary(&self) -> String {
        let [accepted, refused] = self.sheets;
        let mut summary = format!("{accepted} sheets accepted, {refused} refused; {} sheets of batches\n", self.taken);
        for (name, counts) in ["inferred", "checked"].iter().zip(&self.rows) {
            write!(summary, "{name} rows: {} (given {}", counts.iter().sum::<usize>(), counts[0])
                .expect("a string takes all");
            for (number, count) in counts.iter().enumerate().skip(1).filter(|(_, count)| **count != 0) {
                write!(summary, ", !{number} {count}").expect("a string takes all");
            }
            summary.push_str(")\n");
        }
        summary
    }
}

/// The text of what a batch says.
fn said_by(verdicts: &Verdicts<'_>, term: BatchTerm, row: Row) -> String {
    match verdicts.verdict(term, row) {
        Ok(sort) => verdicts.batch().text(sort).to_string(),
        Err(refused) => format!("!{}", refused.number()),
    }
}

/// How much is put on a sheet: mostly little.
fn limits(random: &mut Random) -> Limits {
    let mut few = |most: usize, all: usize| if random.percent(30) { all } else { 1 + random.under(most) };
    Limits {
        sorts: few(12, Limits::SHEET.sorts),
        terms: few(30, Limits::SHEET.terms),
        bytes: few(600, Limits::SHEET.bytes),
    }
}
