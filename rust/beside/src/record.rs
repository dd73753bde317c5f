//! Random sheets of the comparison, written with what they must give.
//!
//! Expected is what the model says, never what the library says. Inferred rows and answers are written only where carcara says the same.
//! Two generators take turns: what the library says steers the making in [`make`](crate::make), and that of `compare` does without it.

use crate::random::Random;
use crate::{Difference, lengths, make};
use compare::random::{Source, lent, sheet};
use compare::{Counts, vectors};
use napsilo::Lent;
use std::collections::BTreeMap;
use std::io::{self, Write};

/// The most bytes of a sheet that is written.
const LONGEST: usize = 600;

/// The longest printout that is written.
const LONGEST_TEXT: usize = 20_000;

/// The most that is lent of each buffer where buffers are written.
const MOST_LENT: [usize; 4] = [400, 64, 128, 64];

/// The program's buffers: bytes of records, places, rows, answers.
const PROGRAM: [usize; 4] = [Lent::PROGRAM.records, Lent::PROGRAM.places, Lent::PROGRAM.rows, Lent::PROGRAM.answers];

/// Writes so many sheets of repeated applications with their printouts, on each of which oracle and model agree.
pub fn repeated(out: &mut impl Write, count: usize, seed: u64) -> io::Result<()> {
    let mut random = Random::new(seed);
    let mut counts = Counts::default();
    for _ in 0..count {
        let sheet = make::repeated(&mut random);
        counts.compare(&sheet, None)?;
        if let Some(difference) = counts.differences.pop() {
            return Err(io::Error::other(difference));
        }
        vectors::printout(out, &sheet)?;
    }
    Ok(())
}

/// Makes the sheets that are written.
pub struct Recorder {
    random: Random,
    source: Source,
    /// Sheets made so far.
    made: usize,
}

impl Recorder {
    /// What makes the sheets of a seed.
    pub fn new(seed: u64) -> Self {
        Recorder { random: Random::new(seed), source: Source::new(seed), made: 0 }
    }

    /// A short sheet on which oracle and model agree.
    fn next(&mut self) -> io::Result<Vec<u8>> {
        loop {
            self.made += 1;
            let mut sheet = match self.made % 2 {
                0 => sheet(&mut self.source),
                _ => make::sheet(&mut self.random),
            };
            if self.made % 2 == 1 && self.random.percent(50) {
                sheet = make::sized(&mut self.random, &sheet);
            }
            if self.random.percent(20) && !sheet.is_empty() {
                sheet = make::damaged(&mut self.random, &sheet);
            }
            if sheet.len() > LONGEST {
                continue;
            }
            let mut counts = Counts::default();
            counts.compare(&sheet, None)?;
            return match counts.differences.pop() {
                Some(difference) => Err(io::Error::other(difference)),
                None => Ok(sheet),
            };
        }
    }

    /// Writes so many sheets with their printouts, and more until each refusal and cause stands on its share of them; what was written.
    pub fn printouts(&mut self, out: &mut impl Write, count: usize) -> io::Result<String> {
        let mut kept = Kept::new(count);
        let mut counts = Counts::default();
        while kept.wants(self.made) {
            let sheet = self.next()?;
            let judged = judge(&sheet, PROGRAM);
            if model::printout(&sheet).len() <= LONGEST_TEXT && kept.keeps(&features(&sheet, &judged)) {
                counts.compare(&sheet, None)?;
                vectors::printout(out, &sheet)?;
            }
        }
        Ok(format!("{}\n{}\n", kept.summary(), counts.summary()))
    }

    /// Writes so many sheets and lent lengths with the buffers at exit, and more until each refusal and cause stands on its share of them;
    /// what was written.
    pub fn buffers(&mut self, out: &mut impl Write, count: usize) -> io::Result<String> {
        let mut kept = Kept::new(count);
        self.made = 0;
        while kept.wants(self.made) {
            let sheet = self.next()?;
            let lent = match self.random.percent(40) {
                true => {
                    let Lent { records, places, rows, answers } =
                        lengths(&mut self.random, &sheet, &judge(&sheet, PROGRAM));
                    [records, places, rows, answers]
                }
                false => lent(&mut self.source, &sheet),
            };
            let short = lent.iter().zip(MOST_LENT).all(|(length, most)| *length <= most);
            if short && kept.keeps(&features(&sheet, &judge(&sheet, lent))) {
                vectors::buffers(out, &sheet, lent)?;
            }
        }
        Ok(kept.summary() + "\n")
    }
}

/// What the model says to a sheet with these lengths lent.
fn judge(sheet: &[u8], [records, places, rows, answers]: [usize; 4]) -> model::Judged {
    model::judge(sheet, records, places, rows, answers)
}

/// What can be met on a sheet: a refusal of it, or a cause in one of the columns.
type Feature = (&'static str, usize);

/// What is met on a sheet. An accepted one is a sheet with refusal 0; rows and answers that are sorts are not told.
fn features(sheet: &[u8], judged: &model::Judged) -> Vec<Feature> {
    let mut met = vec![("sheet", usize::from(judged.number))];
    if judged.number == 0 {
        let terms = usize::from(u16::from_le_bytes([sheet[2], sheet[3]]));
        let rows = judged.rows[..2 * terms].iter().zip(["inferred", "checked"].into_iter().cycle());
        let answers = judged.answers.iter().map(|word| (word, "answer"));
        met.extend(rows.chain(answers).map(|(word, column)| (column, (word >> 16) as usize)));
    }
    met.retain(|(column, number)| *column == "sheet" || *number != 0);
    met.sort_unstable();
    met.dedup();
    met
}

/// What was kept so far.
struct Kept {
    /// How many sheets are wanted.
    count: usize,
    /// How many were kept.
    sheets: usize,
    /// On how many of them each feature was met.
    met: BTreeMap<Feature, usize>,
}

impl Kept {
    /// Nothing is kept of so many.
    fn new(count: usize) -> Self {
        Kept { count, sheets: 0, met: BTreeMap::new() }
    }

    /// Whether more is wanted after so many sheets were made: the count, and what is rare among a hundred times as many.
    fn wants(&self, made: usize) -> bool {
        self.sheets < self.count || made < 100 * self.count
    }

    /// Whether a sheet is kept: one on which something is met that has not its share yet, and an accepted one until there are enough.
    fn keeps(&mut self, features: &[Feature]) -> bool {
        let share = self.count.div_ceil(25);
        let rare = features.iter().any(|feature| self.met.get(feature).is_none_or(|sheets| *sheets < share));
        let keeps = rare || features.contains(&("sheet", 0)) && self.sheets < self.count;
        if keeps {
            self.sheets += 1;
            for feature in features {
                *self.met.entry(*feature).or_default() += 1;
            }
        }
        keeps
    }

    /// On how many sheets each feature was met.
    fn summary(&self) -> String {
        let met = self.met.iter().map(|((column, number), sheets)| format!("{column} !{number} on {sheets}"));
        let met: Vec<String> = met.map(|text| text.replace("sheet !0 on", "accepted")).collect();
        format!("{} sheets: {}", self.sheets, met.join(", "))
    }
}

/// Writes both files of a seed: so many sheets or some more with printouts, and so many with buffers; what was written.
pub fn files(seed: u64, printouts: (usize, &str), buffers: (usize, &str)) -> Result<String, Difference> {
    let mut recorder = Recorder::new(seed);
    let mut write = || -> io::Result<String> {
        let mut out = io::BufWriter::new(std::fs::File::create(printouts.1)?);
        let first = recorder.printouts(&mut out, printouts.0)?;
        out.flush()?;
        let mut out = io::BufWriter::new(std::fs::File::create(buffers.1)?);
        let second = recorder.buffers(&mut out, buffers.0)?;
        out.flush()?;
        Ok(format!("printouts\n{first}\nbuffers\n{second}"))
    };
    write().map_err(|error| error.to_string())
}
