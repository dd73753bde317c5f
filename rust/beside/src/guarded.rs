//! Small sheets with lent buffers that have guards round them, for a run under a memory checker.
//!
//! A checker sees what is read or written outside of an allocation; the guards show what is written between two buffers of one allocation.
//! So each sheet is judged twice: with the sheet and each buffer in an allocation of just its length, and with guards. And a piece of its
//! text and one of its pages are asked for twice in the same way.

use crate::random::Random;
use crate::{ByNumber, Difference, Writer, differ, lengths};
use compare::random::{Source, lent, sheet};
use napsilo::{Lent, PAGE_LINE, Refusal, judge_into, page_into, print_into};

/// The entries of a guard.
const GUARD: usize = 16;

/// The longest sheet that is judged.
const LONGEST: usize = 400;

/// The four buffers, each with so many entries before and behind it.
struct Buffers {
    guard: usize,
    records: Box<[u8]>,
    words: [Box<[u32]>; 3],
}

impl Buffers {
    /// What stands in the guards and, before the call, in the buffers.
    const BYTE: u8 = 0xd7;
    const WORD: u32 = 0xd7d7_d7d7;

    /// Buffers of these lengths.
    fn new(lent: Lent, guard: usize) -> Self {
        let words = |length: usize| vec![Self::WORD; length + 2 * guard].into_boxed_slice();
        Buffers {
            guard,
            records: vec![Self::BYTE; lent.records + 2 * guard].into_boxed_slice(),
            words: [lent.places, lent.rows, lent.answers].map(words),
        }
    }

    /// Judges a sheet into the buffers; the number of its refusal, or 0.
    fn judge(&mut self, sheet: &[u8]) -> u32 {
        fn inside<T>(buffer: &mut [T], guard: usize) -> &mut [T] {
            let end = buffer.len() - guard;
            &mut buffer[guard..end]
        }
        let guard = self.guard;
        let [places, rows, answers] = self.words.each_mut().map(|buffer| inside(buffer, guard));
        let said = judge_into(sheet, inside(&mut self.records, guard), places, rows, answers);
        said.err().map_or(0, Refusal::number)
    }

    /// Whether the buffers are the model's and the guards are as they were.
    fn hold(&self, modelled: &model::Judged) -> bool {
        fn held<T: Copy + PartialEq>(buffer: &[T], model: &[T], of_guard: T, guard: usize) -> bool {
            let (before, rest) = buffer.split_at(guard);
            let (inside, behind) = rest.split_at(model.len());
            inside == model && behind.len() == guard && before.iter().chain(behind).all(|entry| *entry == of_guard)
        }
        let words = [&modelled.places, &modelled.rows, &modelled.answers];
        held(&self.records, &modelled.records, Self::BYTE, self.guard)
            && self.words.iter().zip(words).all(|(buffer, model)| held(buffer, model, Self::WORD, self.guard))
    }
}

/// The lines of a text from a number on that fit a buffer of this length, and how many they are.
pub fn piece(lines: &[&str], from: usize, length: usize) -> (String, usize) {
    let mut text = String::new();
    let mut count = 0;
    for line in lines.iter().skip(from) {
        if text.len() + line.len() > length {
            break;
        }
        text.push_str(line);
        count += 1;
    }
    (text, count)
}

/// A piece of a sheet's text that is asked for: from which line on, and into a buffer of which length.
struct Piece {
    writer: Writer,
    from: usize,
    length: usize,
    expected: String,
}

impl Piece {
    /// Any piece of a text, into a buffer of up to so many bytes.
    fn any(random: &mut Random, writer: Writer, text: &str, most: usize) -> Self {
        let lines: Vec<&str> = text.split_inclusive('\n').collect();
        let (from, length) = (random.under(lines.len() + 1), random.under(most));
        let (expected, _) = piece(&lines, from, length);
        Piece { writer, from, length, expected }
    }

    /// Whether the piece, into a buffer with a guard, is the expected one, and the rest of the buffer and the guard are as they were.
    fn holds(&self, sheet: &[u8], guard: usize) -> bool {
        let mut out = vec![Buffers::BYTE; self.length + 2 * guard].into_boxed_slice();
        let end = (self.writer)(sheet, self.from, &mut out[guard..guard + self.length]);
        let (before, rest) = out.split_at(guard);
        end == self.expected.len()
            && rest.starts_with(self.expected.as_bytes())
            && before.iter().chain(&rest[end..]).all(|byte| *byte == Buffers::BYTE)
    }
}

/// Judges so many small random sheets, each with lent lengths round what it needs; how many of them have each number.
pub fn on_small(sheets: usize, seed: u64) -> Result<ByNumber, Difference> {
    let (mut random, mut source) = (Random::new(seed), Source::new(seed));
    // Numbers of its own, so that the sheets of a seed do not depend on what is asked of their texts.
    let mut of_text = Random::new(!seed);
    let mut numbers = ByNumber::default();
    let mut judged = 0;
    while judged < sheets {
        let sheet = sheet(&mut source).into_boxed_slice();
        if sheet.len() > LONGEST {
            continue;
        }
        let model = |lent: Lent| model::judge(&sheet, lent.records, lent.places, lent.rows, lent.answers);
        // What the sheet needs, found with buffers that are enough for a sheet of this length.
        let whole = model(Lent { records: 4_096, places: 512, rows: 1_024, answers: 256 });
        let lent = match random.percent(50) {
            true => lengths(&mut random, &sheet, &whole),
            false => {
                let [records, places, rows, answers] = lent(&mut source, &sheet);
                Lent { records, places, rows, answers }
            }
        };
        let modelled = model(lent);
        let text = model::printout(&sheet);
        let pieces = [
            Piece::any(&mut of_text, print_into, &text, text.len() + 8),
            Piece::any(&mut of_text, page_into, &model::page(&sheet), 6 * PAGE_LINE),
        ];
        for guard in [0, GUARD] {
            let mut buffers = Buffers::new(lent, guard);
            let number = buffers.judge(&sheet);
            if number != u32::from(modelled.number) || !buffers.hold(&modelled) {
                return Err(differ(&sheet, &format!("{lent:?}, guards of {guard}: not what the model says")));
            }
            if let Some(Piece { from, length, .. }) = pieces.iter().find(|piece| !piece.holds(&sheet, guard)) {
                let how = format!("line {from} on, {length} bytes, guards of {guard}: not the model's text or page");
                return Err(differ(&sheet, &how));
            }
        }
        numbers[usize::from(modelled.number)] += 1;
        judged += 1;
    }
    Ok(numbers)
}
