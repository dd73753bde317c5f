//! Writes sheets with what they must give, by the model.

use crate::hex;
use std::io::{self, Write};

/// Writes a sheet with the model's printout, each line behind two blanks, and an empty line.
pub fn printout(out: &mut impl Write, sheet: &[u8]) -> io::Result<()> {
    writeln!(out, "sheet {}", hex(sheet))?;
    for line in model::printout(sheet).lines() {
        writeln!(out, "  {line}")?;
    }
    writeln!(out)
}

/// Numbers with a blank before each.
fn spaced(numbers: &[u32]) -> String {
    numbers.iter().map(|number| format!(" {number}")).collect()
}

/// Writes lent lengths (bytes of records, places, rows, answers) and a sheet with the model's number and buffers at exit, and an empty
/// line.
pub fn buffers(out: &mut impl Write, sheet: &[u8], lent: [usize; 4]) -> io::Result<()> {
    let [records, places, rows, answers] = lent;
    let judged = model::judge(sheet, records, places, rows, answers);
    writeln!(out, "lent records {records} places {places} rows {rows} answers {answers}")?;
    writeln!(out, "sheet {}", hex(sheet))?;
    writeln!(out, "  outcome {}", judged.number)?;
    writeln!(out, "  records {}", hex(&judged.records))?;
    writeln!(out, "  places{}", spaced(&judged.places))?;
    writeln!(out, "  rows{}", spaced(&judged.rows))?;
    writeln!(out, "  answers{}\n", spaced(&judged.answers))
}
