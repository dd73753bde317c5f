//! The proved library beside carcara (by the oracle) and beside the model.
//!
//! - [`make`]: random sheets whose terms mostly fit and whose patterns mostly match, and damaged copies of sheets;
//! - [`random`]: the numbers behind them;
//! - [`record`]: random sheets written with what they must give;
//! - [`guarded`]: small sheets with guards round the buffers;
//! - [`explained`], [`mend`], [`case`]: explanations of refused rows, held to the rows and followed;
//! - [`batched`]: a batch over small sheets beside one sheet that has all the terms.
//!
//! [`Trial::sheet`] compares on one sheet. With the program's buffers and with others, short ones among them, the library's number and its
//! four buffers, which come dirty, must be the model's over their whole length. Of an accepted sheet the inferred rows and the answers must
//! be carcara's. The library's text of every sheet must be the model's printout, and its pages the model's, whole and in pieces.

pub mod batched;
pub mod case;
pub mod explained;
pub mod guarded;
pub mod make;
pub mod mend;
pub mod random;
pub mod record;

use compare::sizes;
use napsilo::{
    Answer, Judged, Lent, PAGE_LINE, PAGE_LINES, Refusal, Row, judge_into, judge_with, page, page_into, print,
    print_into,
};
use random::Random;
use std::fmt::Write;
use std::ops::{Deref, DerefMut};

/// Counts by the number of a refusal or a cause; what is given counts at 0.
#[derive(Debug, Clone)]
pub struct ByNumber([usize; 64]);

impl Default for ByNumber {
    /// Nothing is counted.
    fn default() -> Self {
        ByNumber([0; 64])
    }
}

impl Deref for ByNumber {
    type Target = [usize];

    fn deref(&self) -> &[usize] {
        &self.0
    }
}

impl DerefMut for ByNumber {
    fn deref_mut(&mut self) -> &mut [usize] {
        &mut self.0
    }
}

/// What was compared so far.
#[derive(Debug, Clone, Default)]
pub struct Trial {
    /// Sheets by their refusal; an accepted one counts at 0.
    pub sheets: ByNumber,
    /// Sheets with other lent lengths by their refusal.
    pub lent: ByNumber,
    /// Inferred rows by their cause; a sort counts at 0.
    pub inferred: ByNumber,
    /// Checked rows by their cause.
    pub checked: ByNumber,
    /// Answers by their cause; yes and no count as sorts.
    pub answers: ByNumber,
    /// Rows and answers with other lent lengths by their cause, in the model's buffers, which the library's equal.
    pub lent_rows: ByNumber,
    /// Inferred rows and answers that were compared with carcara.
    pub beside_carcara: usize,
    /// Printouts that were compared whole.
    pub texts: usize,
    /// Pieces of printouts that were compared; those with no line count first.
    pub pieces: [usize; 2],
    /// Pages of sheets that were compared whole.
    pub pages: usize,
    /// Pieces of pages that were compared; those with no line count first.
    pub page_pieces: [usize; 2],
}

/// The refusal for a store without room for the sheet's sorts, of which carcara has nothing to say.
const STORE: u8 = 10;

/// The refusal for a tree size that is written wrong.
const WRITTEN: u8 = 34;

/// The most lines of a text that is compared in pieces to its end too: each piece judges the sheet once more.
const FEW_LINES: usize = 40;

/// Lengths of buffers for pages: none, a line and a byte less or more, two lines and a byte less, a page and a byte less.
const PAGE_LENGTHS: [usize; 8] = [
    0,
    PAGE_LINE - 1,
    PAGE_LINE,
    PAGE_LINE + 1,
    2 * PAGE_LINE - 1,
    2 * PAGE_LINE,
    PAGE_LINES * PAGE_LINE - 1,
    PAGE_LINES * PAGE_LINE,
];

/// Writes the whole lines of a sheet's text from a number on that fit: the place behind them.
type Writer = fn(&[u8], usize, &mut [u8]) -> usize;

/// What differs, with the sheet in hexadecimal.
pub type Difference = String;

/// Bytes in hexadecimal.
fn hex(bytes: &[u8]) -> String {
    bytes.iter().map(|byte| format!("{byte:02x}")).collect()
}

/// The number of a row's cause, 0 for a sort.
fn cause(row: &Row) -> usize {
    row.as_ref().err().map_or(0, |cause| cause.number() as usize)
}

/// The text of a row.
fn text(row: &Row) -> String {
    match row {
        Ok(sort) => sort.to_string(),
        Err(cause) => format!("!{}", cause.number()),
    }
}

impl Trial {
    /// Compares on a sheet, with the program's buffers and with some others.
    pub fn sheet(&mut self, sheet: &[u8], random: &mut Random, others: usize) -> Result<(), Difference> {
        let modelled = self.buffers(sheet, Lent::PROGRAM)?;
        self.sheets[usize::from(modelled.number)] += 1;
        self.text(sheet, others)?;
        self.page(sheet, others)?;
        if modelled.number == 0 {
            let judged = judge_with(sheet, Lent::PROGRAM).map_err(|e| differ(sheet, &e.to_string()))?;
            self.beside(sheet, &judged)?;
        } else if modelled.number != STORE && oracle::lines(sheet).is_some() {
            return Err(differ(sheet, "the library refuses what the oracle reads"));
        }
        for _ in 0..others {
            let lent = match modelled.number {
                WRITTEN => short(random, sheet, &modelled),
                _ => lengths(random, sheet, &modelled),
            };
            let modelled = self.buffers(sheet, lent)?;
            self.lent[usize::from(modelled.number)] += 1;
            if modelled.number == 0 {
                for word in modelled.rows.iter().chain(&modelled.answers) {
                    self.lent_rows[(word >> 16) as usize] += 1;
                }
                // What the wrapper reads back from short buffers.
                judge_with(sheet, lent).map_err(|e| differ(sheet, &e.to_string()))?;
            }
        }
        Ok(())
    }

    /// The library's number and buffers must be the model's.
    fn buffers(&self, sheet: &[u8], lent: Lent) -> Result<model::Judged, Difference> {
        let modelled = model::judge(sheet, lent.records, lent.places, lent.rows, lent.answers);
        let mut records = vec![0xa7; lent.records];
        let [mut places, mut rows, mut answers] =
            [lent.places, lent.rows, lent.answers].map(|length| vec![0xa7a7_a7a7; length]);
        let said = judge_into(sheet, &mut records, &mut places, &mut rows, &mut answers);
        let number = said.err().map_or(0, Refusal::number);
        if number != u32::from(modelled.number) {
            return Err(differ(sheet, &format!("{lent:?}: library {number}, model {}", modelled.number)));
        }
        let first = |name: &str, library: &[u32], model: &[u32]| {
            let at = library.iter().zip(model).position(|(one, two)| one != two)?;
            Some(format!("{lent:?}: {name}[{at}]: library {:#x}, model {:#x}", library[at], model[at]))
        };
        let words = |bytes: &[u8]| -> Vec<u32> { bytes.iter().map(|byte| u32::from(*byte)).collect() };
        let how = first("rows", &rows, &modelled.rows)
            .or_else(|| first("answers", &answers, &modelled.answers))
            .or_else(|| first("places", &places, &modelled.places))
            .or_else(|| first("records", &words(&records), &words(&modelled.records)));
        match how {
            Some(how) => Err(differ(sheet, &how)),
            None => Ok(modelled),
        }
    }

    /// The library's text must be the model's printout: whole; in so many pieces from any line on, into buffers of any length round that
    /// of the lines there; and, if it has few lines, in the pieces of a buffer that just holds the longest.
    fn text(&mut self, sheet: &[u8], others: usize) -> Result<(), Difference> {
        let text = model::printout(sheet);
        self.texts += 1;
        // Numbers of its own, so that the sheets of a seed do not depend on what is asked of their texts.
        let mut random = Random::new(u64::try_from(self.texts).expect("64 bits"));
        if print(sheet) != text {
            return Err(differ(sheet, "the printouts differ"));
        }
        let lines: Vec<&str> = text.split_inclusive('\n').collect();
        for _ in 0..others {
            let from = random.under(lines.len() + 2);
            let some = random.under(4);
            let length: usize = lines.iter().skip(from).take(some).map(|line| line.len()).sum();
            let length = (length + random.under(4)).saturating_sub(random.under(4));
            self.text_piece(sheet, &lines, from, length)?;
        }
        if lines.len() <= FEW_LINES {
            let longest = lines.iter().map(|line| line.len()).max().unwrap_or(0);
            let mut from = 0;
            while from < lines.len() {
                from += self.text_piece(sheet, &lines, from, longest)?;
            }
        }
        Ok(())
    }

    /// A piece of the text must be as [`piece`] says; the count of its lines.
    fn text_piece(&mut self, sheet: &[u8], lines: &[&str], from: usize, length: usize) -> Result<usize, Difference> {
        let count = piece(print_into, sheet, lines, from, length)?;
        self.pieces[usize::from(count != 0)] += 1;
        Ok(count)
    }

    /// The library's pages must be the model's: whole; in so many pieces from any line on, half of them from below a row's first line, if
    /// one is so high; and, if they have few lines, line by line.
    fn page(&mut self, sheet: &[u8], others: usize) -> Result<(), Difference> {
        let text = model::page(sheet);
        self.pages += 1;
        // Numbers of its own, as for the text.
        let mut random = Random::new(u64::try_from(self.pages).expect("64 bits"));
        if page(sheet) != text {
            return Err(differ(sheet, "the pages differ"));
        }
        let lines: Vec<&str> = text.split_inclusive('\n').collect();
        let below: Vec<usize> = (0..lines.len()).filter(|at| is_below(lines[*at])).collect();
        for _ in 0..others {
            let from = match random.percent(50) && !below.is_empty() {
                true => below[random.under(below.len())],
                false => random.under(lines.len() + 2),
            };
            let length = match random.percent(80) {
                true => PAGE_LENGTHS[random.under(PAGE_LENGTHS.len())],
                false => random.under(text.len() + 2 * PAGE_LINE),
            };
            self.page_piece(sheet, &lines, from, length)?;
        }
        let used = lines.iter().filter(|line| line.trim() != "").count();
        let step = if used <= FEW_LINES { 1 } else { PAGE_LINES };
        for from in (0..=lines.len()).step_by(step).take(FEW_LINES) {
            self.page_piece(sheet, &lines, from, step * PAGE_LINE)?;
        }
        Ok(())
    }

    /// A piece of the pages must be as [`piece`] says.
    fn page_piece(&mut self, sheet: &[u8], lines: &[&str], from: usize, length: usize) -> Result<(), Difference> {
        let count = piece(page_into, sheet, lines, from, length)?;
        self.page_pieces[usize::from(count != 0)] += 1;
        Ok(())
    }

    /// Inferred rows and answers must be carcara's.
    fn beside(&mut self, sheet: &[u8], judged: &Judged) -> Result<(), Difference> {
        let said = oracle::sheet::read(sheet).and_then(|read| oracle::ask::ask(&read));
        let Some(said) = said else {
            return Err(differ(sheet, "the oracle refuses what the library accepts"));
        };
        if said.rows.len() != judged.rows().len() || said.answers.len() != judged.answers().len() {
            return Err(differ(sheet, "the counts of rows or answers differ"));
        }
        // carcara's pool is never full; from the first row on that is refused for room, the two go apart.
        let mut full = false;
        for (k, ((inferred, checked), row)) in judged.rows().zip(&said.rows).enumerate() {
            self.inferred[cause(inferred)] += 1;
            self.checked[cause(checked)] += 1;
            full |= cause(inferred) == 23;
            if full {
                continue;
            }
            self.beside_carcara += 1;
            let (library, carcara) = (text(inferred), oracle::text::row(row));
            if library != carcara {
                return Err(differ(sheet, &format!("T{k}: library {library}, carcara {carcara}")));
            }
        }
        for (k, (answer, other)) in judged.answers().iter().zip(&said.answers).enumerate() {
            let library = match answer {
                Answer::Compatible(yes) => if *yes { "yes" } else { "no" }.to_owned(),
                Answer::Sort(row) => text(row),
            };
            let number = answer.sort().map_or(0, cause);
            self.answers[number] += 1;
            if number == 23 {
                continue;
            }
            self.beside_carcara += 1;
            let carcara = oracle::text::answer(other);
            if library != carcara {
                return Err(differ(sheet, &format!("Q{k}: library {library}, carcara {carcara}")));
            }
        }
        Ok(())
    }

    /// The counts.
    pub fn summary(&self) -> String {
        let mut summary = String::new();
        for (name, counts) in [
            ("sheets, the program's buffers", &self.sheets),
            ("sheets, other buffers", &self.lent),
            ("inferred rows", &self.inferred),
            ("checked rows", &self.checked),
            ("answers", &self.answers),
            ("rows and answers, other buffers", &self.lent_rows),
        ] {
            write!(summary, "{name}: {}", counts.iter().sum::<usize>()).expect("a string takes all");
            let mut separator = " (";
            for (number, count) in counts.iter().enumerate().filter(|(_, count)| **count != 0) {
                let name = if number == 0 { "given".to_owned() } else { format!("!{number}") };
                write!(summary, "{separator}{name} {count}").expect("a string takes all");
                separator = ", ";
            }
            summary.push_str(if separator == " (" { "\n" } else { ")\n" });
        }
        writeln!(summary, "inferred rows and answers beside carcara: {}", self.beside_carcara).expect("as above");
        let [none, some] = self.pieces;
        writeln!(summary, "texts: {} whole, {} pieces of them, {none} without a line", self.texts, none + some)
            .expect("as above");
        let [none, some] = self.page_pieces;
        writeln!(summary, "pages: {} whole, {} pieces of them, {none} without a line", self.pages, none + some)
            .expect("as above");
        summary
    }
}

/// Whether a line of a page stands below the first of its row.
fn is_below(line: &str) -> bool {
    line.starts_with("      ") && line.trim() != ""
}

/// A piece of a text must be the lines from a number on that fit, and leave the rest of the buffer as it was; their count.
fn piece(writer: Writer, sheet: &[u8], lines: &[&str], from: usize, length: usize) -> Result<usize, Difference> {
    let mut out = vec![0xa7; length];
    let end = writer(sheet, from, &mut out);
    let (expected, count) = guarded::piece(lines, from, length);
    if end != expected.len() || out[..end] != *expected.as_bytes() || out[end..].iter().any(|byte| *byte != 0xa7) {
        return Err(differ(sheet, &format!("line {from} on in a buffer of {length} bytes differs")));
    }
    Ok(count)
}

/// A difference on a sheet.
fn differ(sheet: &[u8], how: &str) -> Difference {
    format!("sheet {}\n{how}", hex(sheet))
}

/// Lent lengths for a sheet with a wrong tree size: places or bytes for some of its sorts, as if none were wrong, so that the first without room
/// comes before that one (10), is that one (34) or comes after it (34).
fn short(random: &mut Random, sheet: &[u8], modelled: &model::Judged) -> Lent {
    let Lent { records, places, rows, answers } = Lent::PROGRAM;
    let all = model::reader::Lent { records, places, rows, answers };
    let mut lent = lengths(random, sheet, modelled);
    if let Ok((_, store)) = model::reader::read(&sizes::none(sheet), &all) {
        (lent.records, lent.places) = (store.records().len(), store.places().len());
    }
    match random.under(2) {
        0 => lent.records = random.under(lent.records + 1),
        _ => lent.places = random.under(lent.places + 1),
    }
    lent
}

/// Lent lengths: around what the sheet needs, from nothing to a little more.
fn lengths(random: &mut Random, sheet: &[u8], modelled: &model::Judged) -> Lent {
    let count = |at: usize| match sheet.get(at..at + 2) {
        Some(bytes) => usize::from(u16::from_le_bytes([bytes[0], bytes[1]])),
        None => 0,
    };
    let used = |length: Option<usize>| length.map_or(0, |at| at + 1);
    // A store ends in a size, whose high byte is mostly 0.
    let records = modelled.records.iter().rposition(|byte| *byte != 0).map_or(0, |at| at + 2);
    let places = used(modelled.places.iter().rposition(|place| *place != 0)).max(1);
    // What is needed and a little more, a little less, or anything from nothing on.
    let mut length = |need: usize, less: usize, any: usize| match random.under(100) {
        at if at < less => need - random.under(need.min(24) + 1),
        at if at < less + any => random.under(need + 1),
        _ => need + random.under(4),
    };
    Lent {
        records: length(records, 40, 6),
        places: length(places, 40, 6),
        rows: length(2 * count(2).min(4_096), 2, 3),
        answers: length(count(4).min(1_024), 2, 3),
    }
}
