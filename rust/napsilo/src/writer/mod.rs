//! The writer of sheets.

mod encode;
mod error;
mod records;

pub use error::{GREATEST_WIDTH, LONGEST_LIST, MOST_BYTES, MOST_QUESTIONS, MOST_SORTS, MOST_TERMS, WriteError};
pub use records::{QuestionRecord, SortRecord, TermRecord};

use crate::id::{Origin, QUESTIONS, SORTS, TERMS};
use crate::sort::try_fold;
use crate::{Judged, QuestionId, Refusal, Sheet, Sort, SortId, TermId, judge};
use encode::Record;
use std::collections::HashMap;

/// The bytes of the header.
const HEADER: usize = 6;

/// Builds a sheet record by record.
///
/// Sorts, terms and questions may be added in turns; each part of the sheet keeps its order. A record that the reader would refuse (1, 2,
/// 5 or 6) is not added, and the writer is left as it was. So a finished sheet is refused only for the tree size of a sort (9), or for
/// what is lent (8, 10). Tree sizes that it writes are right, so 34 does not happen.
///
/// The ids that it gives are its own: another writer and the judgement of another sheet refuse them. A copy ([`Clone`]) takes the ids that
/// were given before it was made; what is added to either afterwards is its own.
#[derive(Debug)]
pub struct SheetWriter {
    /// The records of each part.
    parts: [Part; 3],
    /// The tree size of each sort, up to the greatest number.
    sizes: Vec<u16>,
    /// Whether the tree size is written in each sort record that follows.
    sized: bool,
    /// Whose they are.
    origin: Origin,
}

/// The records of a part.
#[derive(Debug, Clone, Default)]
struct Part {
    /// How many they are.
    count: u16,
    /// They themselves.
    bytes: Vec<u8>,
    /// The number of the first record with these bytes, a written size apart; not kept for questions.
    known: HashMap<Vec<u8>, u16>,
}

impl Default for SheetWriter {
    /// A writer of a sheet without records.
    fn default() -> Self {
        SheetWriter { parts: Default::default(), sizes: Vec::new(), sized: false, origin: Origin::new() }
    }
}

impl Clone for SheetWriter {
    /// A writer with the same records, which takes the ids given so far. It gives ids of its own.
    fn clone(&self) -> Self {
        let counts = self.parts.each_ref().map(|part| part.count);
        let (parts, sizes) = (self.parts.clone(), self.sizes.clone());
        SheetWriter { parts, sizes, sized: self.sized, origin: self.origin.copied(counts) }
    }
}

impl SheetWriter {
    /// A writer of a sheet without records.
    pub fn new() -> Self {
        Self::default()
    }

    /// Says whether the tree size is written in each sort record that follows, two bytes under bit 128. A new writer writes none.
    ///
    /// The library tests a written size, and every row is as without it. Sorts that were added before stay as they are, and equal sorts
    /// are one also where one has its size and the other has not.
    pub fn write_sizes(&mut self, written: bool) {
        self.sized = written;
    }

    /// The number of sorts added.
    pub fn sorts(&self) -> usize {
        usize::from(self.parts[SORTS].count)
    }

    /// The number of terms added.
    pub fn terms(&self) -> usize {
        usize::from(self.parts[TERMS].count)
    }

    /// The number of questions added.
    pub fn questions(&self) -> usize {
        usize::from(self.parts[QUESTIONS].count)
    }

    /// The length of the sheet in bytes.
    pub fn length(&self) -> usize {
        HEADER + self.parts.iter().map(|part| part.bytes.len()).sum::<usize>()
    }

    /// The sheet as it is now. The writer can go on.
    pub fn finish(&self) -> Sheet {
        let mut sheet = Vec::with_capacity(self.length());
        for part in &self.parts {
            sheet.extend(part.count.to_le_bytes());
        }
        for part in &self.parts {
            sheet.extend(&part.bytes);
        }
        Sheet::new(sheet, self.origin.clone())
    }

    /// Judges the sheet as it is now, with the buffers that the program lends: [`judge`] of [`finish`](SheetWriter::finish).
    pub fn judge(&self) -> Result<Judged, Refusal> {
        judge(&self.finish())
    }

    /// Adds a sort, also one that is there already.
    pub fn add_sort(&mut self, sort: SortRecord<'_>) -> Result<SortId, WriteError> {
        let (record, size) = (self.sort_record(sort), self.tree_size(sort));
        let number = self.add(SORTS, record)?;
        self.sizes.push(size);
        Ok(SortId::of(&self.origin, number))
    }

    /// Adds a sort that is given as a tree, with its parts. Parts that were added before, and the sort itself, are not added again.
    pub fn sort(&mut self, sort: &Sort) -> Result<SortId, WriteError> {
        let before = (self.parts[SORTS].count, self.parts[SORTS].bytes.len());
        let added = self.add_tree(sort);
        if added.is_err() {
            let part = &mut self.parts[SORTS];
            part.count = before.0;
            part.bytes.truncate(before.1);
            part.known.retain(|_, number| *number < before.0);
            self.sizes.truncate(usize::from(before.0));
        }
        added
    }

    /// Adds a term, also one that is there already.
    pub fn add_term(&mut self, term: TermRecord<'_>) -> Result<TermId, WriteError> {
        let record = self.term_record(term);
        let number = self.add(TERMS, record)?;
        Ok(TermId::of(&self.origin, number))
    }

    /// The first term with this record, if there is one; else adds it. Equal terms get one id, as in carcara's pool, if all are added so.
    pub fn term(&mut self, term: TermRecord<'_>) -> Result<TermId, WriteError> {
        let record = self.term_record(term);
        let number = self.add_once(TERMS, record)?;
        Ok(TermId::of(&self.origin, number))
    }

    /// The sort with this number, counted from 0, if it was added.
    pub fn sort_at(&self, number: usize) -> Option<SortId> {
        let number = u16::try_from(number).ok()?;
        (number < self.parts[SORTS].count).then(|| SortId::of(&self.origin, number))
    }

    /// The term with this number, counted from 0, if it was added.
    pub fn term_at(&self, number: usize) -> Option<TermId> {
        let number = u16::try_from(number).ok()?;
        (number < self.parts[TERMS].count).then(|| TermId::of(&self.origin, number))
    }

    /// Adds a question.
    pub fn add_question(&mut self, question: QuestionRecord<'_>) -> Result<QuestionId, WriteError> {
        let record = self.question_record(question);
        let number = self.add(QUESTIONS, record)?;
        Ok(QuestionId::of(&self.origin, number))
    }

    /// The number of the first record of a part that is equal to this one, if there is one; else adds it.
    fn add_once(&mut self, part: usize, record: Record) -> Result<u16, WriteError> {
        // A record with a fault may have the bytes of another: those of an id do not tell whose it is.
        match self.parts[part].known.get(&record.bytes) {
            Some(number) if record.fault.is_none() => Ok(*number),
            _ => self.add(part, record),
        }
    }

    /// Adds a record to a part, unless the reader would refuse it; gives its number.
    fn add(&mut self, part: usize, record: Record) -> Result<u16, WriteError> {
        if self.length() + record.length() > MOST_BYTES {
            return Err(WriteError::TooLong);
        }
        let (most, over) = [
            (MOST_SORTS, WriteError::TooManySorts),
            (MOST_TERMS, WriteError::TooManyTerms),
            (MOST_QUESTIONS, WriteError::TooManyQuestions),
        ][part];
        let keeps = part != QUESTIONS;
        let part = &mut self.parts[part];
        if usize::from(part.count) >= most {
            return Err(over);
        }
        if let Some(fault) = record.fault {
            return Err(fault);
        }
        let number = part.count;
        part.count += 1;
        record.put(&mut part.bytes);
        if keeps {
            part.known.entry(record.bytes).or_insert(number);
        }
        Ok(number)
    }

    /// Adds a tree: the parts of each sort before it, from left to right.
    fn add_tree(&mut self, sort: &Sort) -> Result<SortId, WriteError> {
        try_fold(sort, |node, ids: &[SortId]| {
            let sort = tree_record(node, ids);
            let (record, size) = (self.sort_record(sort), self.tree_size(sort));
            let number = self.add_once(SORTS, record)?;
            if usize::from(number) == self.sizes.len() {
                self.sizes.push(size);
            }
            Ok(SortId::of(&self.origin, number))
        })
    }
}

/// The record of the outermost sort of a tree over the numbers of its parts.
fn tree_record<'a>(sort: &'a Sort, ids: &'a [SortId]) -> SortRecord<'a> {
    match sort {
        Sort::Function(_) => SortRecord::Function(ids),
        Sort::Atom(name, _) => SortRecord::Atom(*name, ids),
        Sort::Var(name) => SortRecord::Var(*name),
        Sort::Bool => SortRecord::Bool,
        Sort::Int => SortRecord::Int,
        Sort::Real => SortRecord::Real,
        Sort::String => SortRecord::String,
        Sort::RegLan => SortRecord::RegLan,
        Sort::Array(..) => SortRecord::Array(ids[0], ids[1]),
        Sort::BitVec(width) => SortRecord::BitVec(*width),
        Sort::ParamBitVec => SortRecord::ParamBitVec,
        Sort::Datatype { name, .. } => SortRecord::Datatype(*name, ids),
        Sort::Par(names, _) => SortRecord::Par(names, ids[0]),
        Sort::Type => SortRecord::Type,
        Sort::Set(_) => SortRecord::Set(ids[0]),
        Sort::Tuple(_) => SortRecord::Tuple(ids),
    }
}
