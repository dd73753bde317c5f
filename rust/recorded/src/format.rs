//! The examples and tables of docs/FORMAT.md, read from the page.
//!
//! A cell's quoted words are those between backticks. What the page should have and has not panics.

use crate::parse::{bytes, numbers};
use crate::{Buffers, Printed, text};

/// The page.
const PAGE: &str = "docs/FORMAT.md";

/// The example files that the page takes apart.
pub const TAKEN_APART: [&str; 5] = [
    "examples/k1.sheet",
    "examples/session.sheet",
    "examples/sizes.sheet",
    "examples/prism.sheet",
    "examples/branches.sheet",
];

/// The lengths that the program lends: bytes of records, places, rows, answers.
const PROGRAM: [usize; 4] = [65_536, 4_096, 8_192, 1_024];

/// A row of a table: its cells.
pub type Row = Vec<String>;

/// The part of the page below a heading, up to the next one.
fn section(heading: &str) -> String {
    let page = text(PAGE);
    let is_heading = |line: &&str| line.starts_with('#');
    let lines = page.lines().skip_while(|line| !is_heading(line) || line.trim_start_matches('#').trim() != heading);
    let found: Vec<&str> = lines.skip(1).take_while(|line| !is_heading(line)).collect();
    assert!(!found.is_empty(), "{PAGE} has no part {heading}");
    found.join("\n")
}

/// The tables below a heading, each without its first two lines.
pub fn tables(heading: &str) -> Vec<Vec<Row>> {
    let mut tables: Vec<Vec<Row>> = vec![Vec::new()];
    for line in section(heading).lines() {
        match line.strip_prefix('|').and_then(|line| line.strip_suffix('|')) {
            Some(cells) => {
                tables.last_mut().expect("one").push(cells.split('|').map(|c| c.trim().to_owned()).collect())
            }
            None => tables.push(Vec::new()),
        }
    }
    tables.into_iter().filter(|table| !table.is_empty()).map(|table| table[2..].to_vec()).collect()
}

/// The one table below a heading.
pub(crate) fn table(heading: &str) -> Vec<Row> {
    let mut tables = tables(heading);
    assert_eq!(tables.len(), 1, "{heading} has one table");
    tables.remove(0)
}

/// The quoted words of a cell.
pub fn quoted(cell: &str) -> Vec<&str> {
    cell.split('`').skip(1).step_by(2).collect()
}

/// The one quoted word of a cell.
fn one(cell: &str) -> &str {
    let words = quoted(cell);
    assert_eq!(words.len(), 1, "one quoted word: {cell}");
    words[0]
}

/// A sheet that is taken apart: the bytes of its table, of which each row says where they start, and the indented lines below it.
pub fn taken_apart(file: &str) -> Printed {
    let heading = format!("`{file}`");
    let mut sheet = Vec::new();
    for row in table(&heading) {
        assert_eq!(row[0].parse(), Ok(sheet.len()), "{file}: {row:?}");
        sheet.extend(bytes(one(&row[1])));
    }
    let indented = section(&heading);
    let lines = indented.lines().filter_map(|line| line.strip_prefix("    "));
    Printed { sheet, text: lines.map(|line| format!("{line}\n")).collect() }
}

/// A sheet of these records.
fn sheet(parts: [&[Vec<u8>]; 3]) -> Vec<u8> {
    let counts = parts.iter().flat_map(|part| u16::try_from(part.len()).expect("few").to_le_bytes());
    counts.chain(parts.concat().concat()).collect()
}

/// The records of a table of kinds, and what its last column says of each.
fn kinds(heading: &str) -> (Vec<Vec<u8>>, Vec<String>) {
    let row = |row: Row| (bytes(one(&row[4])), one(&row[5]).to_owned());
    table(heading).into_iter().map(row).unzip()
}

/// The sheet with each kind once, from the records of the three tables.
pub fn every_kind() -> Printed {
    let (sorts, _) = kinds("Sort records");
    let (terms, rows) = kinds("Term records");
    let (questions, answers) = kinds("Question records");
    let rows = rows.iter().enumerate().map(|(k, row)| format!("T{k} {row}\n"));
    let answers = answers.iter().enumerate().map(|(k, answer)| format!("Q{k} {answer}\n"));
    Printed { sheet: sheet([&sorts, &terms, &questions]), text: rows.chain(answers).collect() }
}

/// The sorts of that sheet, and a question for each that answers just it: nothing is replaced.
fn texts() -> Printed {
    let (sorts, texts) = kinds("Sort records");
    let question = |at: usize| [0x51, 2, 1, u8::try_from(at).expect("few"), 0, 0].to_vec();
    let questions: Vec<Vec<u8>> = (0..sorts.len()).map(question).collect();
    let lines = texts.iter().enumerate().map(|(k, text)| format!("Q{k} {text}\n"));
    Printed { sheet: sheet([&sorts, &[], &questions]), text: lines.collect() }
}

/// The rows of the table of numbers.
pub fn all_numbers() -> Vec<Row> {
    table("All numbers")
}

/// The examples of the page with their printouts.
pub fn printed() -> Vec<Printed> {
    let mut all: Vec<Printed> = TAKEN_APART.map(taken_apart).to_vec();
    all.extend([every_kind(), texts()]);
    for row in all_numbers() {
        if let [hex] = quoted(&row[3])[..] {
            let lines = one(&row[4]).split(" / ").map(|line| format!("{line}\n"));
            all.push(Printed { sheet: bytes(hex), text: lines.collect() });
        }
    }
    all
}

/// A buffer that begins with these entries and goes on with zeros.
fn filled<T: Clone + Default>(mut entries: Vec<T>, length: usize) -> Vec<T> {
    assert!(entries.len() <= length, "the entries fit the buffer");
    entries.resize(length, T::default());
    entries
}

/// The examples of the page with lent lengths: those of the table of numbers, and the buffers of `examples/session.sheet`.
pub fn buffers() -> Vec<Buffers> {
    let mut all = vec![session()];
    for row in all_numbers() {
        let [hex, lent] = quoted(&row[3])[..] else { continue };
        let lent: Vec<usize> = lent.split(' ').map(|length| length.parse().expect("a length")).collect();
        let lent: [usize; 4] = lent.try_into().expect("four lengths");
        let said = one(&row[4]).strip_prefix("outcome ").expect("an outcome").to_owned();
        let (outcome, rows) = said.split_once(" rows ").unwrap_or((&said, ""));
        all.push(Buffers {
            sheet: bytes(hex),
            lent,
            outcome: outcome.parse().expect("a number"),
            records: vec![0; lent[0]],
            places: vec![0; lent[1]],
            rows: filled(numbers(rows), lent[2]),
            answers: vec![0; lent[3]],
        });
    }
    all
}

/// The buffers of `examples/session.sheet`.
fn session() -> Buffers {
    let begins = tables("The four buffers").remove(1);
    let cell = |at: usize, buffer: &str| -> String {
        assert_eq!(begins[at][0], buffer);
        quoted(&begins[at][1]).concat()
    };
    Buffers {
        sheet: taken_apart("examples/session.sheet").sheet,
        lent: PROGRAM,
        outcome: 0,
        records: filled(bytes(&cell(0, "records")), PROGRAM[0]),
        places: filled(numbers(&cell(1, "places")), PROGRAM[1]),
        rows: filled(numbers(&cell(2, "rows")), PROGRAM[2]),
        answers: filled(numbers(&cell(3, "answers")), PROGRAM[3]),
    }
}

/// The number, the name and the symbol of each operator in the first column of a table, in the order of the numbers.
pub fn operators(heading: &str) -> Vec<(u32, String, String)> {
    let mut all = Vec::new();
    for row in table(heading) {
        for operator in row[0].split(", ") {
            let words: Vec<&str> = operator.split(' ').collect();
            let [number, name, symbol] = words[..] else {
                panic!("number, name, symbol: {operator}");
            };
            all.push((number.parse().expect("a number"), name.to_owned(), one(symbol).to_owned()));
        }
    }
    all.sort();
    all
}
