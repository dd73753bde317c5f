//! Reading what the library accepted or wrote: an accepted sheet, and the store.
//!
//! Nothing is judged here. What does not read is no accepted sheet and no store, and gives `None`.

use crate::{Name, Sort};
use std::sync::Arc;

/// The bytes that are not read yet.
struct Bytes<'a>(&'a [u8]);

/// The fields of a record of a sheet (docs/FORMAT.md). Those that its bit map does not have are 0 or empty.
#[derive(Debug, Clone, Default, PartialEq, Eq)]
pub struct Record {
    /// The kind.
    pub kind: u8,
    /// The name.
    pub name: u16,
    /// The number.
    pub number: u32,
    /// The number of a sort.
    pub sort: u16,
    /// The list.
    pub list: Vec<u16>,
    /// The pairs of a name and a sort.
    pub pairs: Vec<(u16, u16)>,
    /// The second list.
    pub second: Vec<u16>,
    /// The tree size that is written in a sort record, if one is.
    pub size: Option<u16>,
}

/// The records of a sheet, part by part.
#[derive(Debug, Clone, Default, PartialEq, Eq)]
pub struct Records {
    /// Those of the sorts.
    pub sorts: Vec<Record>,
    /// Those of the terms.
    pub terms: Vec<Record>,
    /// Those of the questions.
    pub questions: Vec<Record>,
}

impl Bytes<'_> {
    fn byte(&mut self) -> Option<u8> {
        let (first, rest) = self.0.split_first()?;
        self.0 = rest;
        Some(*first)
    }

    fn short(&mut self) -> Option<u16> {
        let low = self.byte()?;
        Some(u16::from_le_bytes([low, self.byte()?]))
    }

    fn long(&mut self) -> Option<u32> {
        let low = self.short()?;
        Some(u32::from(self.short()?) << 16 | u32::from(low))
    }

    fn list(&mut self) -> Option<Vec<u16>> {
        let count = self.byte()?;
        (0..count).map(|_| self.short()).collect()
    }

    /// A record: the fields that its bit map says.
    fn record(&mut self) -> Option<Record> {
        let map = self.byte()?;
        if map & 1 == 0 {
            return None;
        }
        let mut record = Record { kind: self.byte()?, ..Record::default() };
        if map & 2 != 0 {
            record.name = self.short()?;
        }
        if map & 4 != 0 {
            record.number = self.long()?;
        }
        if map & 8 != 0 {
            record.sort = self.short()?;
        }
        if map & 16 != 0 {
            record.list = self.list()?;
        }
        if map & 32 != 0 {
            let count = self.byte()?;
            record.pairs = (0..count).map(|_| Some((self.short()?, self.short()?))).collect::<Option<_>>()?;
        }
        if map & 64 != 0 {
            record.second = self.list()?;
        }
        if map & 128 != 0 {
            record.size = Some(self.short()?);
        }
        Some(record)
    }
}

/// The records of a sheet, read by their bit maps; nothing if they are not all there. Nothing else is looked at, so a sheet that reads may be
/// refused all the same.
pub fn records(sheet: &[u8]) -> Option<Records> {
    let mut bytes = Bytes(sheet);
    let counts = [bytes.short()?, bytes.short()?, bytes.short()?];
    let mut part = |count: u16| (0..count).map(|_| bytes.record()).collect::<Option<_>>();
    Some(Records { sorts: part(counts[0])?, terms: part(counts[1])?, questions: part(counts[2])? })
}

/// The sorts of sort records, as trees.
pub fn trees(records: &[Record]) -> Option<Vec<Arc<Sort>>> {
    let mut sorts = Vec::new();
    for record in records {
        sorts.push(Arc::new(sort(record, &sorts)?));
    }
    Some(sorts)
}

/// The sorts of the store: records back to back, each with its tree size, their offsets in the places, zeros behind in both.
pub fn store(records: &[u8], places: &[u32]) -> Option<Vec<Arc<Sort>>> {
    let mut bytes = Bytes(records);
    let mut sorts: Vec<Arc<Sort>> = Vec::new();
    let mut sizes: Vec<u16> = Vec::new();
    // A record's bit map is not 0.
    while bytes.0.first().is_some_and(|map| *map != 0) {
        let offset = records.len() - bytes.0.len();
        if usize::try_from(*places.get(sorts.len())?).ok()? != offset {
            return None;
        }
        let record = bytes.record()?;
        let sort = sort(&record, &sorts)?;
        let part = |number: &u16| sizes.get(usize::from(*number)).copied();
        let size = record.list.iter().try_fold(1_u16, |sum, number| sum.checked_add(part(number)?))?;
        if record.size != Some(size) {
            return None;
        }
        sorts.push(Arc::new(sort));
        sizes.push(size);
    }
    let behind = bytes.0.iter().all(|byte| *byte == 0);
    let unused = places[sorts.len()..].iter().all(|place| *place == 0);
    (behind && unused).then_some(sorts)
}

/// The sort of a record over earlier sorts of the store.
fn sort(record: &Record, earlier: &[Arc<Sort>]) -> Option<Sort> {
    let name = Name::new(record.name);
    let parts = || -> Option<Vec<Arc<Sort>>> {
        let part = |number: &u16| earlier.get(usize::from(*number)).cloned();
        record.list.iter().map(part).collect()
    };
    let part = |at: usize| {
        let number = record.list.get(at)?;
        earlier.get(usize::from(*number)).cloned()
    };
    Some(match record.kind {
        0 => Sort::Function(parts()?),
        1 => Sort::Atom(name, parts()?),
        2 => Sort::Var(name),
        3 => Sort::Bool,
        4 => Sort::Int,
        5 => Sort::Real,
        6 => Sort::String,
        7 => Sort::RegLan,
        8 => Sort::Array(part(0)?, part(1)?),
        9 => Sort::BitVec(record.number),
        10 => Sort::ParamBitVec,
        11 => Sort::Datatype { name, args: parts()? },
        12 => Sort::Par(record.second.iter().map(|n| Name::new(*n)).collect(), part(0)?),
        13 => Sort::Type,
        14 => Sort::Set(part(0)?),
        15 => Sort::Tuple(parts()?),
        _ => return None,
    })
}

#[cfg(test)]
mod tests {
    use super::*;

    /// The records of Int and of a set of it, with this size of the set, and two zeros.
    fn of_set(size: u8) -> Vec<u8> {
        vec![129, 4, 1, 0, 145, 14, 1, 0, 0, size, 0, 0, 0]
    }

    #[test]
    fn a_store_has_right_sizes() {
        let sorts = store(&of_set(2), &[0, 4, 0]).expect("it is a store");
        assert_eq!(sorts.iter().map(ToString::to_string).collect::<Vec<_>>(), ["Int", "(Set Int)"]);
        for wrong in [0, 1, 3, 255] {
            assert_eq!(store(&of_set(wrong), &[0, 4, 0]), None);
        }
        // A record without its size, a place that is not the record's, a size that is cut off, a list where the kind has none.
        assert_eq!(store(&[1, 4, 0], &[0]), None);
        assert_eq!(store(&of_set(2), &[0, 5, 0]), None);
        assert_eq!(store(&of_set(2)[..10], &[0, 4]), None);
        assert_eq!(store(&[145, 4, 1, 7, 0, 1, 0], &[0]), None);
    }

    #[test]
    fn records_are_read_with_and_without_sizes() {
        let sheet = [2, 0, 0, 0, 0, 0, 129, 4, 1, 0, 17, 14, 1, 0, 0];
        let read = records(&sheet).expect("all records are there");
        assert_eq!(read.sorts.iter().map(|sort| sort.size).collect::<Vec<_>>(), [Some(1), None]);
        assert_eq!(records(&sheet[..9]), None);
    }
}
