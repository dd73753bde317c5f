//! Runs the oracle on recorded sheets: every inferred row and every answer must be the recorded one.
//!
//! They are those of the repository and of docs/FORMAT.md, and those of the folder that `NAPSILO_VECTORS` names, if it names one. Left out
//! are sheets on which the store is full (23): carcara's pool has no such limit.

use recorded::{Printed, hex};

/// The line without its last column: a term's checked row is no business of the oracle's.
fn without_checked(line: &str) -> &str {
    if !line.starts_with('T') {
        return line;
    }
    let start = line.find(' ').expect("a number stands before the rows") + 1;
    let mut depth = 0;
    for (at, c) in line.char_indices().skip(start) {
        match c {
            '(' | '[' => depth += 1,
            ')' | ']' => depth -= 1,
            ' ' if depth == 0 => return &line[..at],
            _ => (),
        }
    }
    panic!("a line of a term has two rows: {line}");
}

/// Whether a recorded printout is a refused sheet's.
fn refused(vector: &Printed) -> bool {
    vector.text.starts_with('!')
}

/// What is compared, and what differs.
#[derive(Default)]
struct Compared {
    sheets: usize,
    turned: usize,
    rows: usize,
    answers: usize,
    differences: Vec<String>,
}

impl Compared {
    /// Compares the oracle's lines of a sheet with the recorded ones.
    fn compare(&mut self, vector: &Printed) {
        let Some(lines) = oracle::lines(&vector.sheet) else {
            self.turned += 1;
            if !refused(vector) {
                self.differences.push(format!("refused: {}", hex(&vector.sheet)));
            }
            return;
        };
        self.sheets += 1;
        if refused(vector) || lines.len() != vector.text.lines().count() {
            self.differences.push(format!("accepted: {}", hex(&vector.sheet)));
            return;
        }
        for (line, recorded) in lines.iter().zip(vector.text.lines()) {
            match line.starts_with('T') {
                true => self.rows += 1,
                false => self.answers += 1,
            }
            if line != without_checked(recorded) {
                self.differences.push(format!("{line} but recorded {recorded}: {}", hex(&vector.sheet)));
            }
        }
    }
}

#[test]
fn recorded_sheets() {
    let (full, vectors): (Vec<Printed>, Vec<Printed>) =
        recorded::printed().into_iter().partition(|vector| vector.text.contains("!23"));
    let mut compared = Compared::default();
    oracle::on_stack(|| vectors.iter().for_each(|vector| compared.compare(vector)));
    let Compared { sheets, turned, rows, answers, differences } = compared;
    println!(
        "{sheets} sheets, {rows} inferred rows, {answers} answers; {turned} sheets refused; {} left out",
        full.len()
    );
    assert!(sheets > 800 && rows > 10_000 && answers > 500);
    assert!(differences.is_empty(), "{} differences: {differences:#?}", differences.len());
}
