//! The bytes of a record, with what the reader would refuse it for.

use super::{LONGEST_LIST, QuestionRecord, SheetWriter, SortRecord, TermRecord, WriteError};
use crate::{GREATEST_WIDTH, Name, SortId, TermId};

/// A record with what the reader would refuse it for: the first fault in the order of the fields.
pub(super) struct Record {
    /// The bytes without a written tree size.
    pub(super) bytes: Vec<u8>,
    /// The tree size that is to be written in it, if one is.
    pub(super) size: Option<u16>,
    pub(super) fault: Option<WriteError>,
}

/// The bit of a map for the tree size.
const SIZE_BIT: u8 = 128;

impl Record {
    /// A record with this bit map and kind.
    fn new(map: u8, kind: u8) -> Self {
        Record { bytes: vec![map, kind], size: None, fault: None }
    }

    /// The length on the sheet.
    pub(super) fn length(&self) -> usize {
        self.bytes.len() + self.size.map_or(0, |_| 2)
    }

    /// Adds the bytes to a sheet's: with a size its bit in the map, and the size last.
    pub(super) fn put(&self, sheet: &mut Vec<u8>) {
        let at = sheet.len();
        sheet.extend(&self.bytes);
        if let Some(size) = self.size {
            sheet[at] |= SIZE_BIT;
            sheet.extend(size.to_le_bytes());
        }
    }

    /// Keeps a fault if it is the first.
    fn fault(mut self, fault: Option<WriteError>) -> Self {
        self.fault = self.fault.or(fault);
        self
    }

    /// Adds a name, a reference or another short number.
    fn short(mut self, number: u16) -> Self {
        self.bytes.extend(number.to_le_bytes());
        self
    }

    /// Adds a number.
    fn long(mut self, number: u32) -> Self {
        self.bytes.extend(number.to_le_bytes());
        self
    }

    /// Adds the count of a list.
    fn count(mut self, length: usize) -> Self {
        let long = (length > LONGEST_LIST).then_some(WriteError::LongList(length));
        // A count that does not fit is a fault, and the record is not added.
        self.bytes.push(u8::try_from(length).unwrap_or(u8::MAX));
        self.fault(long)
    }

    /// Adds a list.
    fn list(self, numbers: impl ExactSizeIterator<Item = u16>) -> Self {
        let record = self.count(numbers.len());
        numbers.fold(record, Record::short)
    }

    /// Adds a list of distinct names.
    fn names(self, names: impl ExactSizeIterator<Item = Name> + Clone) -> Self {
        self.list(names.clone().map(|name| name.number())).fault(repeated(names))
    }
}

impl SheetWriter {
    /// The first of these sorts that is not of this sheet.
    fn no_sort(&self, ids: impl IntoIterator<Item = SortId>) -> Option<WriteError> {
        let mut ids = ids.into_iter();
        ids.find(|id| id.index() >= self.sorts() || !id.is_of(&self.origin)).map(WriteError::ForeignSort)
    }

    /// The first of these terms that is not of this sheet.
    fn no_term(&self, ids: impl IntoIterator<Item = TermId>) -> Option<WriteError> {
        let mut ids = ids.into_iter();
        ids.find(|id| id.index() >= self.terms() || !id.is_of(&self.origin)).map(WriteError::ForeignTerm)
    }

    /// Adds a list of sorts to a record.
    fn sort_list(&self, record: Record, ids: &[SortId]) -> Record {
        record.list(ids.iter().map(|id| id.number())).fault(self.no_sort(ids.iter().copied()))
    }

    /// Adds pairs of a name and a sort to a record.
    fn pair_list(&self, record: Record, pairs: &[(Name, SortId)]) -> Record {
        let record = record.count(pairs.len());
        let record = pairs.iter().fold(record, |record, (name, sort)| record.short(name.number()).short(sort.number()));
        record.fault(self.no_sort(pairs.iter().map(|(_, sort)| *sort)))
    }

    /// Adds a list of terms to a record.
    fn term_list(&self, record: Record, ids: &[TermId]) -> Record {
        record.list(ids.iter().map(|id| id.number())).fault(self.no_term(ids.iter().copied()))
    }

    /// The tree size of a sort over its parts. One that does not fit is the greatest number, which is over the limit as well.
    pub(super) fn tree_size(&self, sort: SortRecord<'_>) -> u16 {
        let size = |part: SortId| self.sizes.get(part.index()).copied().unwrap_or(0);
        sort.parts().fold(1, |sum: u16, part| sum.saturating_add(size(part)))
    }

    /// The record of a sort, with its tree size if sizes are written.
    pub(super) fn sort_record(&self, sort: SortRecord<'_>) -> Record {
        let size = self.sized.then(|| self.tree_size(sort));
        Record { size, ..self.plain_record(sort) }
    }

    /// The record of a sort without its tree size.
    fn plain_record(&self, sort: SortRecord<'_>) -> Record {
        let plain = |kind| Record::new(1, kind);
        let parts = |kind, ids| self.sort_list(Record::new(17, kind), ids);
        let named = |kind, name: Name, ids| self.sort_list(Record::new(19, kind).short(name.number()), ids);
        match sort {
            SortRecord::Function(ids) => parts(0, ids),
            SortRecord::Atom(name, ids) => named(1, name, ids),
            SortRecord::Var(name) => Record::new(3, 2).short(name.number()),
            SortRecord::Bool => plain(3),
            SortRecord::Int => plain(4),
            SortRecord::Real => plain(5),
            SortRecord::String => plain(6),
            SortRecord::RegLan => plain(7),
            SortRecord::Array(index, element) => parts(8, &[index, element]),
            SortRecord::BitVec(width) => Record::new(5, 9).long(width).fault(too_wide(width)),
            SortRecord::ParamBitVec => plain(10),
            SortRecord::Datatype(name, ids) => named(11, name, ids),
            SortRecord::Par(names, part) => {
                let none = names.is_empty().then_some(WriteError::NoParameter);
                self.sort_list(Record::new(81, 12), &[part]).names(names.iter().copied()).fault(none)
            }
            SortRecord::Type => plain(13),
            SortRecord::Set(part) => parts(14, &[part]),
            SortRecord::Tuple(ids) => parts(15, ids),
        }
    }

    /// The record of a term.
    pub(super) fn term_record(&self, term: TermRecord<'_>) -> Record {
        match term {
            TermRecord::Integer(number) => Record::new(5, 0).long(number),
            TermRecord::Real => Record::new(1, 1),
            TermRecord::String => Record::new(1, 2),
            TermRecord::RegLan => Record::new(1, 3),
            TermRecord::BitVec(width) => Record::new(5, 4).long(width).fault(too_wide(width)),
            TermRecord::Var(name, sort) => {
                Record::new(11, 5).short(name.number()).short(sort.number()).fault(self.no_sort([sort]))
            }
            TermRecord::App(head, args) => self.term_list(Record::new(17, 6), &[&[head], args].concat()),
            TermRecord::Op(op, args) => self.term_list(Record::new(21, 7).long(u32::from(op.number())), args),
            TermRecord::Binder(binder, bindings, body) => {
                let record = Record::new(53, 8).long(u32::from(binder.number()));
                self.pair_list(self.term_list(record, &[body]), bindings)
            }
            TermRecord::Let(values, inner) => {
                let list: Vec<TermId> = values.iter().map(|(_, id)| *id).chain([inner]).collect();
                self.term_list(Record::new(81, 9), &list).list(values.iter().map(|(name, _)| name.number()))
            }
            TermRecord::Match(subject, bodies) => self.term_list(Record::new(17, 10), &[&[subject], bodies].concat()),
            TermRecord::ParamOp { op, op_args, args } => {
                let record = Record::new(85, 11).long(u32::from(op.number()));
                self.term_list(self.term_list(record, args), op_args)
            }
            TermRecord::AsOp(op, sort, args) => {
                let record =
                    Record::new(29, 12).long(u32::from(op.number())).short(sort.number()).fault(self.no_sort([sort]));
                self.term_list(record, args)
            }
        }
    }

    /// The record of a question.
    pub(super) fn question_record(&self, question: QuestionRecord<'_>) -> Record {
        match question {
            QuestionRecord::Compatible(one, two) => self.sort_list(Record::new(17, 0), &[one, two]),
            QuestionRecord::Match { pattern, target, result, names } => {
                self.sort_list(Record::new(81, 1), &[pattern, target, result]).names(names.iter().copied())
            }
            QuestionRecord::Apply { sort, map } => {
                let images = map.iter().map(|(_, image)| *image);
                let list: Vec<SortId> = [sort].into_iter().chain(images).collect();
                self.sort_list(Record::new(81, 2), &list).names(map.iter().map(|(name, _)| *name))
            }
            QuestionRecord::Continue { pattern, target, result, given, names } => {
                let record = self.sort_list(Record::new(113, 3), &[pattern, target, result]);
                self.pair_list(record, given)
                    .names(names.iter().copied())
                    .fault(no_parameter(given, names))
                    .fault(repeated(given.iter().map(|(name, _)| *name)))
            }
        }
    }
}

/// The fault of a width that is over its limit.
fn too_wide(width: u32) -> Option<WriteError> {
    (width > GREATEST_WIDTH).then_some(WriteError::Width(width))
}

/// The fault of given names of which one is no parameter. Names past the longest list are a fault already.
fn no_parameter(given: &[(Name, SortId)], names: &[Name]) -> Option<WriteError> {
    let (name, _) = given.iter().take(LONGEST_LIST).find(|(name, _)| !names.contains(name))?;
    Some(WriteError::NoSuchParameter(*name))
}

/// The fault of names of which one stands twice; those past the longest list as above.
fn repeated(names: impl Iterator<Item = Name> + Clone) -> Option<WriteError> {
    let names = names.take(LONGEST_LIST);
    let twice = |(at, name): &(usize, Name)| names.clone().take(*at).any(|other| other == *name);
    let (_, name) = names.clone().enumerate().find(twice)?;
    Some(WriteError::RepeatedName(name))
}
