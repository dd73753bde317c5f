//! Where a sheet is refused: the record at which the library stops.
//!
//! The library says only why. The place is found by asking it about the beginnings of the sheet: with the counts of the header made
//! smaller, the first records alone are a sheet, and it is refused exactly if the record at fault is among them.

use napsilo::{Lent, MOST_BYTES, MOST_QUESTIONS, MOST_SORTS, MOST_TERMS, Refusal, judge_into};
use std::fmt;

/// The length of the header.
const HEADER: usize = 6;

/// The fields of a record: the bit of the map, the bytes that it has in any case, and the bytes of each entry where the first one counts them.
const FIELDS: [(u8, usize, usize); 8] =
    [(1, 1, 0), (2, 2, 0), (4, 4, 0), (8, 2, 0), (16, 1, 2), (32, 1, 4), (64, 1, 2), (128, 2, 0)];

/// The parts of a sheet: what a record of it is called, and how many there may be.
const PARTS: [(&str, usize); 3] = [("sort", MOST_SORTS), ("term", MOST_TERMS), ("question", MOST_QUESTIONS)];

/// The place in a refused sheet that is at fault.
#[derive(Debug, PartialEq, Eq)]
pub enum Place {
    /// A count of the header: of which records, what it is, and what it may be.
    Count { part: &'static str, count: usize, most: usize },
    /// A record: of which part, its number there, where it starts.
    Record { part: &'static str, number: usize, at: usize },
    /// What stands from here on, behind the last record.
    Behind { at: usize, length: usize },
    /// The sheet as a whole, with its length.
    Whole { length: usize },
}

impl fmt::Display for Place {
    fn fmt(&self, f: &mut fmt::Formatter<'_>) -> fmt::Result {
        match self {
            Place::Count { part, count, most } => write!(f, "{count} {part}s, at most {most} are taken"),
            Place::Record { part, number, at } => write!(f, "{part} {number}, which starts at byte {at}"),
            Place::Behind { at, length } => write!(f, "from byte {at} on, of {length}"),
            Place::Whole { length } if *length > MOST_BYTES => f.write_str("it is longer"),
            Place::Whole { length } => write!(f, "it has {length}"),
        }
    }
}

/// The counts of the header; the sheet is long enough to have them.
fn counts(sheet: &[u8]) -> [usize; 3] {
    [0, 2, 4].map(|at| usize::from(u16::from_le_bytes([sheet[at], sheet[at + 1]])))
}

/// The place behind the record that starts at this one, by the fields of its map; nothing if it runs past the end.
fn behind(sheet: &[u8], at: usize) -> Option<usize> {
    let map = *sheet.get(at)?;
    let mut at = at + 1;
    for (bit, fixed, entry) in FIELDS {
        if map & bit != 0 {
            let count = if entry == 0 { 0 } else { usize::from(*sheet.get(at)?) };
            at += fixed + count * entry;
        }
    }
    (at <= sheet.len()).then_some(at)
}

/// Where each record starts, up to the first one that runs past the end, and at last the place behind the last one.
fn starts(sheet: &[u8], records: usize) -> Vec<usize> {
    let mut starts = vec![HEADER];
    while starts.len() <= records {
        let Some(next) = behind(sheet, starts[starts.len() - 1]) else {
            break;
        };
        starts.push(next);
    }
    starts
}

/// The first so many records as a sheet of their own: the header with smaller counts, and the bytes up to this place.
fn beginning(sheet: &[u8], records: usize, end: usize) -> Vec<u8> {
    let mut left = records;
    let mut begun: Vec<u8> = Vec::new();
    for count in counts(sheet) {
        let count = count.min(left);
        left -= count;
        begun.extend(u16::try_from(count).expect("a count of the header").to_le_bytes());
    }
    begun.extend(&sheet[HEADER..end]);
    begun
}

/// Whether the library refuses a sheet.
fn refused(sheet: &[u8]) -> bool {
    let lent = Lent::PROGRAM;
    let [mut places, mut rows, mut answers] = [vec![0; lent.places], vec![0; lent.rows], vec![0; lent.answers]];
    judge_into(sheet, &mut vec![0; lent.records], &mut places, &mut rows, &mut answers).is_err()
}

/// The part and the number in it of a record by its number among all.
fn record(sheet: &[u8], mut number: usize, at: usize) -> Place {
    for ((part, _), count) in PARTS.into_iter().zip(counts(sheet)) {
        if number < count {
            return Place::Record { part, number, at };
        }
        number -= count;
    }
    Place::Behind { at, length: sheet.len() }
}

/// The place in a refused sheet that is at fault.
pub fn place(sheet: &[u8], refusal: Refusal) -> Place {
    if refusal == Refusal::Length {
        return Place::Whole { length: sheet.len() };
    }
    let counts = counts(sheet);
    let over = PARTS.into_iter().zip(counts).find(|((_, most), count)| count > most);
    if let Some(((part, most), count)) = over {
        return Place::Count { part, count, most };
    }
    let starts = starts(sheet, counts.iter().sum());
    // The first so many records whose beginning is refused: the last one with a start is, or nothing but what stands behind is at fault.
    let end = |records: usize| starts.get(records).copied().unwrap_or(sheet.len());
    let (mut accepted, mut least) = (0, starts.len());
    while accepted + 1 < least {
        let middle = accepted.midpoint(least);
        match refused(&beginning(sheet, middle, end(middle))) {
            true => least = middle,
            false => accepted = middle,
        }
    }
    record(sheet, accepted, starts[accepted])
}

#[cfg(test)]
mod tests {
    use super::*;
    use napsilo::judge;
    use recorded::format::taken_apart;

    /// The place at fault of a refused sheet.
    fn fault(sheet: &[u8]) -> Place {
        place(sheet, judge(sheet).expect_err("the sheet is refused"))
    }

    /// Where the records of `examples/session.sheet` start, by the offsets of docs/FORMAT.md.
    const SESSION: [(&str, &[usize]); 2] =
        [("sort", &[6, 11, 16, 18, 25]), ("term", &[32, 38, 44, 50, 57, 64, 71, 82])];

    /// Tries something of each record of `examples/session.sheet`: the sheet, the record's place, where it starts.
    fn each(mut tried: impl FnMut(&[u8], Place, usize)) {
        let sheet = taken_apart("examples/session.sheet").sheet;
        for (part, starts) in SESSION {
            for (number, at) in starts.iter().enumerate() {
                tried(&sheet, Place::Record { part, number, at: *at }, *at);
            }
        }
    }

    #[test]
    fn an_unknown_kind_in_each_record() {
        each(|sheet, place, at| {
            let mut damaged = sheet.to_vec();
            damaged[at + 1] = 99;
            assert_eq!(fault(&damaged), place);
        });
    }

    #[test]
    fn a_sheet_cut_in_each_record() {
        each(|sheet, place, at| {
            assert_eq!(fault(&sheet[..at]), place, "without a map");
            assert_eq!(fault(&sheet[..at + 1]), place, "without a kind");
        });
    }

    #[test]
    fn records_with_their_sizes() {
        // Int, a set of it and a term, the size of the set being right, wrong and cut short.
        let sheet = |size: &[u8], behind: &[u8]| {
            let sorts = [129, 4, 1, 0, 145, 14, 1, 0, 0];
            [&[2, 0, 1, 0, 0, 0], sorts.as_slice(), size, behind].concat()
        };
        let set = Place::Record { part: "sort", number: 1, at: 10 };
        assert_eq!(fault(&sheet(&[3, 0], &[1, 1])), set);
        assert_eq!(fault(&sheet(&[2], &[])), set);
        assert_eq!(fault(&sheet(&[2, 0], &[1, 99])), Place::Record { part: "term", number: 0, at: 17 });
        assert_eq!(fault(&sheet(&[2, 0], &[129, 1, 1, 0])), Place::Record { part: "term", number: 0, at: 17 });
        assert_eq!(fault(&sheet(&[2, 0], &[1, 1, 1])), Place::Behind { at: 19, length: 20 });
    }

    #[test]
    fn what_is_no_record() {
        let sheet = taken_apart("examples/session.sheet").sheet;
        let longer = [sheet.as_slice(), &[0]].concat();
        assert_eq!(fault(&longer), Place::Behind { at: 93, length: 94 });
        assert_eq!(fault(&sheet[..5]), Place::Whole { length: 5 });
        assert_eq!(fault(&[0, 0, 1, 16, 0, 0]), Place::Count { part: "term", count: 4_097, most: 4_096 });
        assert_eq!(fault(&[0, 0, 0, 0, 1, 0, 17, 9]), Place::Record { part: "question", number: 0, at: 6 });
    }

    #[test]
    fn every_recorded_refusal_has_a_place() {
        let refused = recorded::printed().into_iter().filter(|vector| vector.text.starts_with('!'));
        for vector in refused {
            let refusal = judge(&vector.sheet).expect_err("recorded as refused");
            let place = place(&vector.sheet, refusal);
            let fits = match refusal {
                Refusal::Length => matches!(place, Place::Whole { .. }),
                Refusal::Header => matches!(place, Place::Count { .. }),
                Refusal::Trailing => matches!(place, Place::Behind { .. }),
                _ => matches!(place, Place::Record { .. }),
            };
            assert!(fits, "{refusal}: {place:?} {}", recorded::hex(&vector.sheet));
        }
    }
}
