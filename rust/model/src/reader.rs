//! Sheets: the reader and the order of its refusals.
//!
//! A sheet's length comes first (1), then the counts (2), then the lent rows and answers (8), then the records one after the other (3 to 6,
//! and after each sort record 9, 34 and 10), then the end (7). Of a record: the map byte (3), its lowest bit (4), the kind byte (3), kind and
//! map (4); then each field by itself: all its bytes (3), its length, number or names (5), its references (6).
//!
//! A sort record may have its tree size written, under bit 128 and last among its fields; it is held to the tree and used for nothing else.

use crate::sort::{KINDS, LARGEST, LONGEST, Sort, Tree};
use crate::store::Store;

/// Why a sheet is refused. The number of a refusal is its value.
#[derive(Debug, Clone, Copy, PartialEq, Eq)]
#[repr(u8)]
pub enum Refusal {
    /// Under 6 or over 65,536 bytes.
    Length = 1,
    /// A header count over its limit.
    Counts = 2,
    /// A record runs past the end.
    Past = 3,
    /// The lowest bit of the map is missing, the kind is unknown, or the map is not the kind's.
    Map = 4,
    /// A list's length, a number or a list of names is not as it must be, or given names do not fit the parameters.
    Field = 5,
    /// A reference is not to an earlier record.
    Reference = 6,
    /// Bytes after the last record.
    Rest = 7,
    /// Too few rows or answers are lent.
    Lent = 8,
    /// A tree size over its limit.
    Tree = 9,
    /// The store can't hold the sorts.
    Store = 10,
    /// A written tree size is not the sort's.
    Written = 34,
}

/// The lengths of the lent buffers.
#[derive(Debug, Clone, Copy)]
pub struct Lent {
    /// Bytes for records.
    pub records: usize,
    /// Entries for places.
    pub places: usize,
    /// Rows.
    pub rows: usize,
    /// Answers.
    pub answers: usize,
}

/// A term record. Fields that its kind does not have are 0, Bool or empty.
#[derive(Debug, Clone)]
pub struct Term {
    /// The kind.
    pub kind: u8,
    /// The number.
    pub number: u32,
    /// The sort of a Var or AsOp.
    pub sort: Option<Tree>,
    /// The numbers of the terms in the list.
    pub list: Vec<usize>,
    /// The sorts of the bindings. Their names decide nothing.
    pub bindings: Vec<Tree>,
    /// The numbers of the index terms.
    pub indices: Vec<usize>,
}

/// A question.
#[derive(Debug, Clone)]
pub struct Question {
    /// The kind.
    pub kind: u8,
    /// The sorts in the list.
    pub list: Vec<Tree>,
    /// The given names with their sorts.
    pub given: Vec<(u16, Tree)>,
    /// The names.
    pub names: Vec<u16>,
}

/// An accepted sheet. Its sorts stand in the terms and questions that use them, and in the store.
#[derive(Debug, Clone)]
pub struct Sheet {
    /// The terms.
    pub terms: Vec<Term>,
    /// The questions.
    pub questions: Vec<Question>,
}

/// The map of each kind of sort, without the bit of the tree size.
pub const SORT_MAPS: [u8; 16] = [17, 19, 3, 1, 1, 1, 1, 1, 17, 5, 1, 19, 81, 1, 17, 17];

/// The map of each kind of term.
const TERM_MAPS: [u8; 13] = [5, 1, 1, 1, 5, 11, 17, 21, 53, 81, 17, 85, 29];

/// The map of each kind of question.
const QUESTION_MAPS: [u8; 4] = [17, 81, 81, 113];

/// The bits of a map, in the order of the fields.
pub mod field {
    /// The name.
    pub const NAME: u8 = 2;
    /// The number.
    pub const NUMBER: u8 = 4;
    /// The sort.
    pub const SORT: u8 = 8;
    /// The list.
    pub const LIST: u8 = 16;
    /// The pairs.
    pub const PAIRS: u8 = 32;
    /// The second list.
    pub const SECOND: u8 = 64;
    /// The tree size, of a sort record alone.
    pub const SIZE: u8 = 128;
}

/// What is read so far.
struct Cursor<'a> {
    sheet: &'a [u8],
    at: usize,
}

impl<'a> Cursor<'a> {
    /// The next bytes.
    fn take(&mut self, count: usize) -> Result<&'a [u8], Refusal> {
        let bytes = self.sheet.get(self.at..self.at + count).ok_or(Refusal::Past)?;
        self.at += count;
        Ok(bytes)
    }

    fn byte(&mut self) -> Result<u8, Refusal> {
        Ok(self.take(1)?[0])
    }

    fn short(&mut self) -> Result<u16, Refusal> {
        Ok(shorts(self.take(2)?)[0])
    }

    fn long(&mut self) -> Result<u32, Refusal> {
        let shorts = shorts(self.take(4)?);
        Ok(u32::from(shorts[1]) * 65_536 + u32::from(shorts[0]))
    }

    /// A list whose length is allowed. All its bytes come before its length is judged.
    fn list(&mut self, allowed: impl Fn(usize) -> bool) -> Result<Vec<u16>, Refusal> {
        let count = usize::from(self.byte()?);
        let bytes = self.take(2 * count)?;
        expect(count <= LONGEST && allowed(count), Refusal::Field)?;
        Ok(shorts(bytes))
    }

    /// A list of references under a bound.
    fn references(&mut self, allowed: impl Fn(usize) -> bool, bound: usize) -> Result<Vec<usize>, Refusal> {
        let list = self.list(allowed)?;
        list.into_iter().map(|number| reference(number, bound)).collect()
    }

    /// A list of distinct names.
    fn distinct(&mut self, allowed: impl Fn(usize) -> bool) -> Result<Vec<u16>, Refusal> {
        let names = self.list(allowed)?;
        expect(all_distinct(&names), Refusal::Field)?;
        Ok(names)
    }

    /// A list of pairs, of a name and a sort's number each; every number under a bound.
    fn pairs(&mut self, bound: usize) -> Result<Vec<(u16, usize)>, Refusal> {
        let count = usize::from(self.byte()?);
        let bytes = self.take(4 * count)?;
        expect(count <= LONGEST, Refusal::Field)?;
        shorts(bytes).chunks(2).map(|pair| Ok((pair[0], reference(pair[1], bound)?))).collect()
    }

    /// A number up to a greatest one.
    fn number(&mut self, greatest: u32) -> Result<u32, Refusal> {
        let number = self.long()?;
        expect(number <= greatest, Refusal::Field)?;
        Ok(number)
    }

    /// A record's map and kind. The map is the kind's; of the bits in `free` any may stand beside it.
    fn head(&mut self, maps: &[u8], free: u8) -> Result<(u8, u8), Refusal> {
        let map = self.byte()?;
        expect(map % 2 == 1, Refusal::Map)?;
        let kind = self.byte()?;
        expect(maps.get(usize::from(kind)) == Some(&(map & !free)), Refusal::Map)?;
        Ok((map, kind))
    }
}

/// Refuses what is not as it must be.
fn expect(stands: bool, refusal: Refusal) -> Result<(), Refusal> {
    if stands { Ok(()) } else { Err(refusal) }
}

/// Whether no name stands twice.
fn all_distinct(names: &[u16]) -> bool {
    let mut sorted = names.to_vec();
    sorted.sort_unstable();
    sorted.dedup();
    sorted.len() == names.len()
}

/// Little-endian shorts.
fn shorts(bytes: &[u8]) -> Vec<u16> {
    bytes.chunks(2).map(|pair| u16::from_le_bytes([pair[0], pair[1]])).collect()
}

/// A reference under a bound.
fn reference(number: u16, bound: usize) -> Result<usize, Refusal> {
    let number = usize::from(number);
    expect(number < bound, Refusal::Reference)?;
    Ok(number)
}

/// Reads a sheet; the store then holds its sorts.
pub fn read(sheet: &[u8], lent: &Lent) -> Result<(Sheet, Store), Refusal> {
    expect((6..=65_536).contains(&sheet.len()), Refusal::Length)?;
    let mut cursor = Cursor { sheet, at: 0 };
    let sort_count = usize::from(cursor.short()?);
    let term_count = usize::from(cursor.short()?);
    let question_count = usize::from(cursor.short()?);
    let few = sort_count <= 2_048 && term_count <= 4_096 && question_count <= 1_024;
    expect(few, Refusal::Counts)?;
    let enough = lent.rows >= 2 * term_count && lent.answers >= question_count;
    expect(enough, Refusal::Lent)?;
    let mut store = Store::new(lent.records, lent.places);
    let mut sorts: Vec<Tree> = Vec::new();
    for _ in 0..sort_count {
        let (sort, written) = sort(&mut cursor, &sorts)?;
        expect(sort.size() <= LARGEST, Refusal::Tree)?;
        expect(written.is_none_or(|size| u64::from(size) == sort.size()), Refusal::Written)?;
        store.put(&sort).ok_or(Refusal::Store)?;
        sorts.push(sort);
    }
    let mut terms = Vec::new();
    for own in 0..term_count {
        terms.push(term(&mut cursor, own, &sorts)?);
    }
    let mut questions = Vec::new();
    for _ in 0..question_count {
        questions.push(question(&mut cursor, &sorts)?);
    }
    expect(cursor.at == sheet.len(), Refusal::Rest)?;
    Ok((Sheet { terms, questions }, store))
}

/// Reads a sort record: the sort, and the tree size that is written if one is.
fn sort(cursor: &mut Cursor, sorts: &[Tree]) -> Result<(Tree, Option<u16>), Refusal> {
    let (map, kind) = cursor.head(&SORT_MAPS, field::SIZE)?;
    let (mut name, mut width, mut parts, mut names) = (0, 0, Vec::new(), Vec::new());
    if map & field::NAME != 0 {
        name = cursor.short()?;
    }
    if map & field::NUMBER != 0 {
        width = cursor.number(65_535)?;
    }
    if map & field::LIST != 0 {
        let allowed = |count| match kind {
            8 => count == 2,
            12 | 14 => count == 1,
            _ => true,
        };
        parts = cursor.references(allowed, sorts.len())?;
    }
    if map & field::SECOND != 0 {
        names = cursor.distinct(|count| count >= 1)?;
    }
    let mut written = None;
    if map & field::SIZE != 0 {
        written = Some(cursor.short()?);
    }
    let parts = parts.into_iter().map(|number| sorts[number].clone()).collect();
    Ok((Sort::new(KINDS[usize::from(kind)], name, width.into(), parts, names), written))
}

/// Reads the term record with this number.
fn term(cursor: &mut Cursor, own: usize, sorts: &[Tree]) -> Result<Term, Refusal> {
    let (map, kind) = cursor.head(&TERM_MAPS, 0)?;
    let mut term = Term { kind, number: 0, sort: None, list: Vec::new(), bindings: Vec::new(), indices: Vec::new() };
    if map & field::NAME != 0 {
        cursor.short()?;
    }
    if map & field::NUMBER != 0 {
        term.number = cursor.number(match kind {
            4 => 65_535,
            7 => 134,
            8 => 3,
            11 => 11,
            12 => 2,
            _ => u32::MAX,
        })?;
    }
    if map & field::SORT != 0 {
        let number = cursor.short()?;
        term.sort = Some(sorts[reference(number, sorts.len())?].clone());
    }
    if map & field::LIST != 0 {
        let allowed = |count| match kind {
            6 | 9 | 10 => count >= 1,
            8 => count == 1,
            _ => true,
        };
        term.list = cursor.references(allowed, own)?;
    }
    if map & field::PAIRS != 0 {
        let pairs = cursor.pairs(sorts.len())?;
        term.bindings = pairs.into_iter().map(|(_, number)| sorts[number].clone()).collect();
    }
    if map & field::SECOND != 0 {
        if kind == 9 {
            cursor.list(|count| count + 1 == term.list.len())?;
        } else {
            term.indices = cursor.references(|_| true, own)?;
        }
    }
    Ok(term)
}

/// Reads a question.
fn question(cursor: &mut Cursor, sorts: &[Tree]) -> Result<Question, Refusal> {
    let (map, kind) = cursor.head(&QUESTION_MAPS, 0)?;
    let allowed = |count| match kind {
        0 => count == 2,
        1 | 3 => count == 3,
        _ => count >= 1,
    };
    let list = cursor.references(allowed, sorts.len())?;
    let mut pairs = Vec::new();
    if map & field::PAIRS != 0 {
        pairs = cursor.pairs(sorts.len())?;
    }
    let mut names = Vec::new();
    if map & field::SECOND != 0 {
        names = cursor.distinct(|count| kind != 2 || count + 1 == list.len())?;
    }
    // A given name is a parameter, and is given once.
    let given: Vec<u16> = pairs.iter().map(|(name, _)| *name).collect();
    expect(all_distinct(&given) && given.iter().all(|name| names.contains(name)), Refusal::Field)?;
    let list = list.into_iter().map(|number| sorts[number].clone()).collect();
    let given = pairs.into_iter().map(|(name, number)| (name, sorts[number].clone())).collect();
    Ok(Question { kind, list, given, names })
}
