//! A reader for well-formed sheets.
//!
//! It tells only whether a sheet is well-formed, not what is wrong with it: refused sheets are not the oracle's business.

/// The fields of a record. Those its kind does not have are 0 or empty.
#[derive(Debug, Clone, Default)]
pub struct Record {
    /// The kind.
    pub kind: u8,
    /// The name.
    pub name: u16,
    /// The number.
    pub number: u32,
    /// The number of a sort.
    pub sort: u16,
    /// The list: numbers of sorts or terms.
    pub list: Vec<u16>,
    /// Pairs of a name and the number of a sort.
    pub pairs: Vec<(u16, u16)>,
    /// The second list: names, or numbers of terms.
    pub second: Vec<u16>,
    /// The tree size that is written in a sort record, if one is.
    pub size: Option<u16>,
}

/// The records of a sheet.
#[derive(Debug, Clone, Default)]
pub struct Sheet {
    /// The sorts.
    pub sorts: Vec<Record>,
    /// The terms.
    pub terms: Vec<Record>,
    /// The questions.
    pub questions: Vec<Record>,
}

/// Bit maps of the sort records, by kind.
const SORT_MAPS: [u8; 16] = [17, 19, 3, 1, 1, 1, 1, 1, 17, 5, 1, 19, 81, 1, 17, 17];

/// Bit maps of the term records, by kind.
const TERM_MAPS: [u8; 13] = [5, 1, 1, 1, 5, 11, 17, 21, 53, 81, 17, 85, 29];

/// Bit maps of the questions, by kind.
const QUESTION_MAPS: [u8; 4] = [17, 81, 81, 113];

/// The bit of a written tree size, which sort records alone may have.
const SIZE: u8 = 128;

/// The longest list.
pub const LONGEST: usize = 64;

/// The greatest width.
pub const WIDEST: u32 = 65_535;

/// The bytes that are not read yet.
struct Bytes<'a>(&'a [u8]);

impl Bytes<'_> {
    fn byte(&mut self) -> Option<u8> {
        let (first, rest) = self.0.split_first()?;
        self.0 = rest;
        Some(*first)
    }

    fn short(&mut self) -> Option<u16> {
        let low = self.byte()?;
        Some(u16::from_le_bytes([low, self.byte()?]))
    }

    fn long(&mut self) -> Option<u32> {
        let low = self.short()?;
        Some(u32::from(self.short()?) << 16 | u32::from(low))
    }

    fn list(&mut self) -> Option<Vec<u16>> {
        let count = usize::from(self.byte()?);
        (count <= LONGEST).then_some(())?;
        (0..count).map(|_| self.short()).collect()
    }

    fn pairs(&mut self) -> Option<Vec<(u16, u16)>> {
        let count = usize::from(self.byte()?);
        (count <= LONGEST).then_some(())?;
        (0..count).map(|_| Some((self.short()?, self.short()?))).collect()
    }

    /// A record whose bit map is its kind's; of the bits in `free` any may stand beside it.
    fn record(&mut self, maps: &[u8], free: u8) -> Option<Record> {
        let map = self.byte()?;
        let mut record = Record { kind: self.byte()?, ..Record::default() };
        (maps.get(usize::from(record.kind)) == Some(&(map & !free))).then_some(())?;
        if map & 2 != 0 {
            record.name = self.short()?;
        }
        if map & 4 != 0 {
            record.number = self.long()?;
        }
        if map & 8 != 0 {
            record.sort = self.short()?;
        }
        if map & 16 != 0 {
            record.list = self.list()?;
        }
        if map & 32 != 0 {
            record.pairs = self.pairs()?;
        }
        if map & 64 != 0 {
            record.second = self.list()?;
        }
        if map & SIZE != 0 {
            record.size = Some(self.short()?);
        }
        Some(record)
    }
}

/// Whether no name stands twice.
fn distinct(names: &[u16]) -> bool {
    names.iter().enumerate().all(|(at, name)| !names[..at].contains(name))
}

/// Whether all numbers are under a bound.
fn under(list: &[u16], bound: usize) -> bool {
    list.iter().all(|&number| usize::from(number) < bound)
}

/// Whether a sort record has the lengths, number, names and references that its kind asks for. `own` is its number.
fn sort_stands(record: &Record, own: usize) -> bool {
    let length = record.list.len();
    let lengths = match record.kind {
        8 => length == 2,
        12 => length == 1 && !record.second.is_empty() && distinct(&record.second),
        14 => length == 1,
        _ => true,
    };
    lengths && record.number <= WIDEST && under(&record.list, own)
}

/// Whether a term record has the lengths, number and references that its kind asks for. `own` is its number.
fn term_stands(record: &Record, own: usize, sorts: usize) -> bool {
    let length = record.list.len();
    let shape = match record.kind {
        4 => record.number <= WIDEST,
        6 | 10 => length >= 1,
        7 => record.number <= 134,
        8 => record.number <= 3 && length == 1,
        9 => length == record.second.len() + 1,
        11 => record.number <= 11 && under(&record.second, own),
        12 => record.number <= 2,
        _ => true,
    };
    let own_sort = !matches!(record.kind, 5 | 12) || usize::from(record.sort) < sorts;
    let pairs = record.pairs.iter().all(|&(_, sort)| usize::from(sort) < sorts);
    shape && own_sort && pairs && under(&record.list, own)
}

/// Whether a question has the lengths, names and references that its kind asks for.
fn question_stands(record: &Record, sorts: usize) -> bool {
    let lengths = match record.kind {
        0 => record.list.len() == 2,
        1 | 3 => record.list.len() == 3,
        _ => record.list.len() == record.second.len() + 1,
    };
    let (given, numbers): (Vec<u16>, Vec<u16>) = record.pairs.iter().copied().unzip();
    let names = distinct(&record.second) && distinct(&given) && given.iter().all(|name| record.second.contains(name));
    lengths && names && under(&record.list, sorts) && under(&numbers, sorts)
}

/// Reads a sheet; nothing if it is not well-formed. The tree sizes of its sorts, and what is written of them, are not judged here.
pub fn read(bytes: &[u8]) -> Option<Sheet> {
    (bytes.len() <= 65_536).then_some(())?;
    let mut bytes = Bytes(bytes);
    let counts = [bytes.short()?, bytes.short()?, bytes.short()?].map(usize::from);
    let [sorts, terms, questions] = counts;
    (sorts <= 2_048 && terms <= 4_096 && questions <= 1_024).then_some(())?;
    let mut sheet = Sheet::default();
    for own in 0..sorts {
        let record = bytes.record(&SORT_MAPS, SIZE)?;
        sort_stands(&record, own).then_some(())?;
        sheet.sorts.push(record);
    }
    for own in 0..terms {
        let record = bytes.record(&TERM_MAPS, 0)?;
        term_stands(&record, own, sorts).then_some(())?;
        sheet.terms.push(record);
    }
    for _ in 0..questions {
        let record = bytes.record(&QUESTION_MAPS, 0)?;
        question_stands(&record, sorts).then_some(())?;
        sheet.questions.push(record);
    }
    bytes.0.is_empty().then_some(sheet)
}
