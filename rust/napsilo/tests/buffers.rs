//! Lent buffers of every small length, dirty and between guards: nothing outside is touched, everything inside is the promised.

mod common;

use common::{bytes, hex};
use napsilo::{
    Judged, Lent, PAGE_LINE, PAGE_LINES, Refusal, judge, judge_into, judge_with, page, page_into, print, print_into,
};
use std::fmt::Debug;

/// A lent buffer between guards.
struct Guarded<T> {
    words: Vec<T>,
    length: usize,
    guard: T,
}

/// The entries of a guard.
const GUARD: usize = 16;

impl<T: Copy + PartialEq + Debug + Default> Guarded<T> {
    /// A buffer of this length that holds something.
    fn new(length: usize, guard: T, dirt: T) -> Self {
        let mut words = vec![guard; length + 2 * GUARD];
        words[GUARD..GUARD + length].fill(dirt);
        Guarded { words, length, guard }
    }

    /// What is lent.
    fn lend(&mut self) -> &mut [T] {
        &mut self.words[GUARD..GUARD + self.length]
    }

    /// What is lent, after a look at the guards.
    fn look(&self) -> &[T] {
        let (before, rest) = self.words.split_at(GUARD);
        let (inside, behind) = rest.split_at(self.length);
        assert_eq!((before.len(), behind.len()), (GUARD, GUARD));
        assert!(before.iter().chain(behind).all(|word| *word == self.guard));
        inside
    }

    /// Whether what is lent is all zeros from an entry on.
    fn zeros_from(&self, at: usize) -> bool {
        self.look()[at.min(self.length)..].iter().all(|word| *word == T::default())
    }
}

/// What a run gave.
struct Run {
    said: Result<(), Refusal>,
    records: Guarded<u8>,
    places: Guarded<u32>,
    rows: Guarded<u32>,
    answers: Guarded<u32>,
}

/// Judges a sheet with guarded buffers of these lengths.
fn run(sheet: &[u8], lent: Lent, dirt: u8) -> Run {
    let word = u32::from_le_bytes([dirt; 4]);
    let guard = 0x5eed_c0de;
    let mut records = Guarded::new(lent.records, 0xd7, dirt);
    let mut places = Guarded::new(lent.places, guard, word);
    let mut rows = Guarded::new(lent.rows, guard, word);
    let mut answers = Guarded::new(lent.answers, guard, word);
    let own = sheet.to_vec();
    let said = judge_into(sheet, records.lend(), places.lend(), rows.lend(), answers.lend());
    assert_eq!(own, sheet);
    Run { said, records, places, rows, answers }
}

/// The counts of a sheet's header: sorts, terms, questions.
fn counts(sheet: &[u8]) -> [usize; 3] {
    [0, 2, 4].map(|at| usize::from(u16::from_le_bytes([sheet[at], sheet[at + 1]])))
}

/// The length that the store takes with the program's buffers: bytes, and entries.
fn taken(sheet: &[u8]) -> (usize, usize) {
    let run = run(sheet, Lent::PROGRAM, 0);
    assert_eq!(run.said, Ok(()));
    let judged = judge(sheet).unwrap();
    let records = run.records.look();
    let last = records.iter().rposition(|byte| *byte != 0);
    // The last record ends in its size, whose high byte is 0 here.
    (last.map_or(0, |at| at + 2), judged.store().len())
}

/// All that is promised of a run without a look at what the verdicts are.
fn promised(sheet: &[u8], lent: Lent, dirt: u8) -> Result<(), Refusal> {
    let run = run(sheet, lent, dirt);
    let [_, terms, questions] = counts(sheet);
    match run.said {
        Ok(()) => {
            assert!(2 * terms <= lent.rows && questions <= lent.answers);
            assert!(run.rows.zeros_from(2 * terms));
            assert!(run.answers.zeros_from(questions));
            // The buffers decode, from the wrapper's own run too.
            let judged: Judged = judge_with(sheet, lent).unwrap();
            assert!(judged.store().len() <= lent.places);
            assert!(run.places.zeros_from(judged.store().len()));
        }
        Err(refusal) => {
            let short = 2 * terms > lent.rows || questions > lent.answers;
            assert_eq!(short, refusal == Refusal::Lent, "{}", hex(sheet));
            assert!(run.records.zeros_from(0) && run.places.zeros_from(0));
            assert!(run.rows.zeros_from(0) && run.answers.zeros_from(0));
            assert_eq!(judge_with(sheet, lent), Err(refusal));
        }
    }
    run.said
}

/// Sheets that are accepted with the program's buffers.
fn sheets() -> Vec<Vec<u8>> {
    [
        // No record at all.
        "000000000000",
        // K1.
        "010002000100 0104 050007000000 15070A0000000200000000 11000200000000",
        // A tuple of a variable twice, True, and the tuple with the variable replaced by itself.
        "030001000100 03020100 110f0200000000 0104 15070000000000 51020201000200010100",
        // Sets of strings, and operators over them that make new sorts.
        "000003000000 0102 15077b000000010000 1507810000000201000000",
        // A parametric head at an integer: 27.
        "040003000000 03020100 03020200 11000200000100 510c010200020100 0200
         0b0509000300 050007000000 11060200000100",
        // Int and a set of it, with their sizes and without, and a variable of the set.
        "040001000000 81040100 0104 910e0100000200 110e010100 0b0509000300",
    ]
    .map(bytes)
    .to_vec()
}

#[test]
fn every_small_length() {
    let (mut accepted, mut refused) = (0, 0);
    for sheet in sheets() {
        let (records, places) = taken(&sheet);
        let [_, terms, questions] = counts(&sheet);
        for records in 0..=records {
            for places in 0..=places + 1 {
                for rows in 0..=2 * terms + 1 {
                    for answers in 0..=questions + 1 {
                        let lent = Lent { records, places, rows, answers };
                        match promised(&sheet, lent, 0xa5) {
                            Ok(()) => accepted += 1,
                            Err(_) => refused += 1,
                        }
                    }
                }
            }
        }
    }
    println!("{accepted} accepted, {refused} refused");
    assert!(accepted > 100 && refused > 100);
}

/// The sheets, and two that are refused: a header that counts too many terms, and no header.
fn accepted_and_refused() -> Vec<Vec<u8>> {
    let mut all = sheets();
    all.extend(["00000110 0000", "0000"].map(bytes));
    all
}

/// A piece of a sheet's text into a guarded buffer of this length, from a line on: the whole lines that fit, and what lies behind is as it was.
fn holds(lines: &[&str], from: usize, length: usize, piece: impl Fn(&mut [u8]) -> usize) {
    let mut out = Guarded::new(length, 0xd7, 0x5a);
    let end = piece(out.lend());
    let mut expected = String::new();
    for line in lines.iter().skip(from) {
        if expected.len() + line.len() > length {
            break;
        }
        expected.push_str(line);
    }
    assert_eq!(end, expected.len(), "line {from} on, {length} bytes");
    let (written, behind) = out.look().split_at(end);
    assert_eq!(written, expected.as_bytes());
    assert!(behind.iter().all(|byte| *byte == 0x5a));
}

/// The printout into a guarded buffer of every small length, from every line on.
#[test]
fn every_small_piece() {
    for sheet in accepted_and_refused() {
        let text = print(&sheet);
        let lines: Vec<&str> = text.split_inclusive('\n').collect();
        for from in (0..lines.len() + 3).chain([usize::MAX]) {
            for length in 0..text.len() + 2 {
                holds(&lines, from, length, |out| print_into(&sheet, from, out));
            }
        }
    }
}

/// The page into a guarded buffer: every length up to two lines and some bytes, and those round each number of lines.
#[test]
fn every_small_piece_of_a_page() {
    let around =
        (3..PAGE_LINES + 2).flat_map(|lines| [lines * PAGE_LINE - 1, lines * PAGE_LINE, lines * PAGE_LINE + 1]);
    let lengths: Vec<usize> = (0..2 * PAGE_LINE + 3).chain(around).collect();
    for sheet in accepted_and_refused() {
        let text = page(&sheet);
        let lines: Vec<&str> = text.split_inclusive('\n').collect();
        for from in (0..5).chain(PAGE_LINES - 2..PAGE_LINES + 2).chain([usize::MAX]) {
            for length in &lengths {
                holds(&lines, from, *length, |out| page_into(&sheet, from, out));
            }
        }
    }
}

/// Room only takes away: with as much room as with the program's buffers, rows and answers are the same.
#[test]
fn just_enough() {
    for sheet in sheets() {
        let (records, places) = taken(&sheet);
        let [_, terms, questions] = counts(&sheet);
        let lent = Lent { records, places, rows: 2 * terms, answers: questions };
        assert_eq!(judge_with(&sheet, lent), judge(&sheet));
    }
}

/// Every beginning of a sheet, and every sheet with one byte changed: refused or accepted, and as promised.
#[test]
fn damaged_sheets() {
    let lent = Lent { records: 40, places: 5, rows: 8, answers: 3 };
    let mut by_number = [0; 35];
    let mut count = |said: Result<(), Refusal>| {
        by_number[said.err().map_or(0, |refusal| refusal.number() as usize)] += 1;
    };
    for sheet in sheets() {
        for length in 0..sheet.len() {
            let run = run(&sheet[..length], lent, 0xff);
            assert_eq!(run.said.is_err_and(|e| e == Refusal::Length), length < 6);
            assert!(run.said.is_err() || length >= 6);
            let zeros = run.records.zeros_from(0)
                && run.places.zeros_from(0)
                && run.rows.zeros_from(0)
                && run.answers.zeros_from(0);
            assert!(run.said.is_ok() || zeros);
            count(run.said);
        }
        for at in 6..sheet.len() {
            for change in [1, 2, 4, 8, 16, 32, 64, 128, 255] {
                let mut damaged = sheet.clone();
                damaged[at] ^= change;
                count(promised(&damaged, lent, 0x01));
            }
        }
        let mut longer = sheet.clone();
        longer.push(0);
        let run = run(&longer, lent, 0xff);
        assert_eq!(run.said, Err(Refusal::Trailing));
    }
    println!("by refusal, accepted first: {by_number:?}");
    // A map with bit 128 has two bytes of what follows for a size.
    assert!(by_number[34] > 0);
}
