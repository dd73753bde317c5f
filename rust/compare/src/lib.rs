//! Compares carcara (by the oracle), the model and, if there is one, a program that prints as the specification says.
//!
//! - [`writer`]: writes sheets;
//! - [`sweep`]: sheets with every operator at every choice of arguments from a list of sorts;
//! - [`random`]: random sheets, some of them broken;
//! - [`numbers`]: random sheets about numbers, Int and Real beside each other;
//! - [`relations`]: random sheets about sets and relations;
//! - [`continued`]: random sheets about matching, with names given or not;
//! - [`sizes`]: writes tree sizes into the sort records of a sheet;
//! - [`vectors`]: writes sheets with what they must give.
//!
//! The oracle and the model are compared in the inferred column and in the answers, and in whether a sheet is refused; the model and the
//! program in the whole printout, and the model and the program of pages in all pages.

mod choice;
pub mod continued;
pub mod numbers;
pub mod random;
pub mod relations;
mod shapes;
pub mod sizes;
pub mod sweep;
pub mod vectors;
pub mod writer;

use std::io::{self, Write};
use std::path::Path;
use std::process::{Command, Stdio};

/// What was compared so far.
#[derive(Debug, Clone, Default)]
pub struct Counts {
    /// Sheets that are accepted.
    pub accepted: usize,
    /// Sheets that are refused.
    pub refused: usize,
    /// Inferred rows by their refusal; a sort counts at 0.
    pub inferred: [usize; 32],
    /// Checked rows by their refusal.
    pub checked: [usize; 32],
    /// Answers by their refusal.
    pub answers: [usize; 32],
    /// Rows and answers that the model refuses since the store is full, and what stands after them on their sheets.
    pub past_store: usize,
    /// What differs: a sheet in hexadecimal, and how.
    pub differences: Vec<String>,
}

/// A sheet in hexadecimal.
pub fn hex(sheet: &[u8]) -> String {
    sheet.iter().map(|byte| format!("{byte:02x}")).collect()
}

/// The refusal that a row's text tells, 0 for a sort.
fn refusal(text: &str) -> usize {
    match text.strip_prefix('!') {
        Some(number) => number.parse().expect("a refusal has a number"),
        None => 0,
    }
}

/// The columns of a line after its first word.
fn columns(line: &str) -> Vec<&str> {
    let mut columns = Vec::new();
    let mut depth = 0;
    let mut start = 0;
    for (at, c) in line.char_indices() {
        match c {
            '(' | '[' => depth += 1,
            ')' | ']' => depth -= 1,
            ' ' if depth == 0 => {
                columns.push(&line[start..at]);
                start = at + 1;
            }
            _ => (),
        }
    }
    columns.push(&line[start..]);
    columns.remove(0);
    columns
}

impl Counts {
    /// Compares all on one sheet.
    pub fn compare(&mut self, sheet: &[u8], program: Option<&Path>) -> io::Result<()> {
        let modelled = model::printout(sheet);
        if let Some(program) = program {
            let printed = run(program, sheet)?;
            if printed != modelled.as_bytes() {
                let printed = String::from_utf8_lossy(&printed);
                self.differ(sheet, &format!("model\n{modelled}program\n{printed}"));
            }
        }
        let lines: Vec<&str> = modelled.lines().collect();
        let refused = matches!(lines.as_slice(), [line] if line.starts_with('!'));
        match oracle::lines(sheet) {
            None if refused => self.refused += 1,
            // carcara's pool is never full.
            Some(_) if lines == ["!10"] => self.refused += 1,
            Some(told) if !refused && told.len() == lines.len() => {
                self.accepted += 1;
                self.compare_lines(sheet, &told, &lines);
            }
            _ => self.differ(sheet, "one of oracle and model refuses the sheet"),
        }
        Ok(())
    }

    /// Compares the lines for an accepted sheet.
    fn compare_lines(&mut self, sheet: &[u8], told: &[String], lines: &[&str]) {
        let mut full = false;
        for (told, line) in told.iter().zip(lines) {
            let (told, found) = (columns(told), columns(line));
            let first = refusal(found[0]);
            if line.starts_with('T') {
                self.inferred[first] += 1;
                self.checked[refusal(found[1])] += 1;
            } else {
                self.answers[first] += 1;
            }
            full |= first == 23;
            if full {
                self.past_store += 1;
            } else if told[0] != found[0] {
                self.differ(sheet, &format!("oracle {}, model {line}", told[0]));
            }
        }
    }

    /// Notes a difference.
    fn differ(&mut self, sheet: &[u8], how: &str) {
        self.differences.push(format!("sheet {}\n{how}", hex(sheet)));
    }

    /// A line of counts by refusal.
    fn line(counts: &[usize; 32]) -> String {
        let counted = counts.iter().enumerate().filter(|(_, count)| **count != 0);
        let parts: Vec<String> = counted
            .map(|(refusal, count)| match refusal {
                0 => format!("{count} given"),
                _ => format!("{count} !{refusal}"),
            })
            .collect();
        parts.join(", ")
    }

    /// A summary.
    pub fn summary(&self) -> String {
        format!(
            "{} sheets accepted, {} refused\ninferred: {}\nchecked: {}\nanswers: {}\nnot compared (store full): {}\ndifferences: {}",
            self.accepted,
            self.refused,
            Self::line(&self.inferred),
            Self::line(&self.checked),
            Self::line(&self.answers),
            self.past_store,
            self.differences.len()
        )
    }
}

/// What differs between the model's pages and those that a program prints for a sheet, if something does.
///
/// # Errors
/// If the program cannot be run.
pub fn compare_pages(sheet: &[u8], program: &Path) -> io::Result<Option<String>> {
    let modelled = model::page(sheet);
    let printed = run(program, sheet)?;
    let differs = || format!("sheet {}\nmodel\n{modelled}program\n{}", hex(sheet), String::from_utf8_lossy(&printed));
    Ok((printed != modelled.as_bytes()).then(differs))
}

/// What a program prints for a sheet on its standard input.
fn run(program: &Path, sheet: &[u8]) -> io::Result<Vec<u8>> {
    let mut child = Command::new(program).stdin(Stdio::piped()).stdout(Stdio::piped()).spawn()?;
    let mut input = child.stdin.take().expect("standard input is piped");
    // A program may stop reading a sheet that is too long.
    let _ = input.write_all(sheet);
    drop(input);
    Ok(child.wait_with_output()?.stdout)
}
