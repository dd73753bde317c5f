//! The writer refuses exactly what the reader refuses with 1, 2, 5 and 6, and the tree sizes that it writes are right.

mod common;

use common::{Random, hex, n, outcome};
use napsilo::{
    Binder, GREATEST_WIDTH, LONGEST_LIST, MOST_BYTES, MOST_QUESTIONS, MOST_SORTS, MOST_TERMS, Name, Operator,
    ParamOperator, QualifiedOperator, QuestionRecord, Refusal, SheetWriter, Sort, SortId, SortRecord, TermId,
    TermRecord, WriteError,
};
use std::sync::Arc;

/// The records of a sheet, written down here once more.
#[derive(Clone, Default)]
struct Raw {
    parts: [Vec<Vec<u8>>; 3],
}

impl Raw {
    /// The sheet.
    fn sheet(&self) -> Vec<u8> {
        let counts = self.parts.iter().flat_map(|part| {
            let count = u16::try_from(part.len()).expect("a header has two bytes a count");
            count.to_le_bytes()
        });
        counts.chain(self.parts.concat().concat()).collect()
    }
}

/// A number in two bytes.
fn short(number: u16) -> Vec<u8> {
    number.to_le_bytes().to_vec()
}

/// A number in four bytes.
fn long(number: u32) -> Vec<u8> {
    number.to_le_bytes().to_vec()
}

/// A list.
fn list(numbers: &[u16]) -> Vec<u8> {
    let count = u8::try_from(numbers.len()).expect("a list has one byte for its count");
    let mut bytes = vec![count];
    bytes.extend(numbers.iter().flat_map(|number| number.to_le_bytes()));
    bytes
}

/// Pairs of a name and the number of a sort.
fn pairs(pairs: &[(u16, u16)]) -> Vec<u8> {
    let count = u8::try_from(pairs.len()).expect("pairs have one byte for their count");
    let numbers = pairs.iter().flat_map(|(name, sort)| [*name, *sort]);
    [count].into_iter().chain(numbers.flat_map(u16::to_le_bytes)).collect()
}

/// The sort of a writer with this number; past its last one that of a copy that has more.
fn sort_id(writer: &SheetWriter, number: u16) -> SortId {
    let mut copy = writer.clone();
    while copy.sorts() <= usize::from(number) {
        copy.add_sort(SortRecord::Int).expect("few records");
    }
    copy.sort_at(usize::from(number)).expect("it was added")
}

/// The term of a writer with this number; past its last one that of a copy that has more.
fn term_id(writer: &SheetWriter, number: u16) -> TermId {
    let mut copy = writer.clone();
    while copy.terms() <= usize::from(number) {
        copy.add_term(TermRecord::Real).expect("few records");
    }
    copy.term_at(usize::from(number)).expect("it was added")
}

/// The refusal that a reader gives for what the writer refuses. A reference past the last record is to the writer one of another sheet.
fn refusal_of(error: WriteError) -> Option<Refusal> {
    match error {
        WriteError::ForeignSort(_) | WriteError::ForeignTerm(_) => Some(Refusal::Reference),
        _ => error.refusal(),
    }
}

/// The tree size of a sort record by those of the sorts before it; what is not there counts 0, and what does not fit is the greatest number.
fn tree_size(record: &[u8], sizes: &[u16]) -> u16 {
    let has = |bit: u8, length: usize| if record[0] & bit != 0 { length } else { 0 };
    let list = match record[0] & 16 {
        0 => &[],
        _ => &record[2 + has(2, 2) + has(4, 4)..],
    };
    let numbers =
        list.get(1..).unwrap_or_default().chunks_exact(2).take(list.first().map_or(0, |count| (*count).into()));
    let part = |pair: &[u8]| sizes.get(usize::from(u16::from_le_bytes([pair[0], pair[1]]))).copied().unwrap_or(0);
    numbers.fold(1, |sum: u16, pair| sum.saturating_add(part(pair)))
}

/// A sort record with its tree size.
fn with_size(mut record: Vec<u8>, size: u16) -> Vec<u8> {
    record[0] |= 128;
    record.extend(size.to_le_bytes());
    record
}

/// A part of a sheet with a record to add to it.
struct Attempt {
    part: usize,
    record: Vec<u8>,
    written: Result<(), WriteError>,
}

/// Random parts of records, many of them past a limit.
struct Source {
    random: Random,
    sorts: usize,
    terms: usize,
}

impl Source {
    /// The length of a list: mostly short, now and then at the limit.
    fn length(&mut self) -> usize {
        match self.random.under(12) {
            0 => LONGEST_LIST - 2 + self.random.under(6),
            1 => self.random.under(256),
            _ => self.random.under(4),
        }
    }

    /// A reference to one of so many records, now and then past the last.
    fn reference(&mut self, count: usize) -> u16 {
        let past = self.random.once_in(60);
        let number = match past || count == 0 {
            true => count + self.random.under(2),
            false => self.random.under(count),
        };
        u16::try_from(number).expect("few records")
    }

    fn sort(&mut self) -> u16 {
        self.reference(self.sorts)
    }

    fn term(&mut self) -> u16 {
        self.reference(self.terms)
    }

    fn sort_list(&mut self) -> Vec<u16> {
        (0..self.length()).map(|_| self.sort()).collect()
    }

    fn term_list(&mut self) -> Vec<u16> {
        (0..self.length()).map(|_| self.term()).collect()
    }

    /// Names: mostly distinct.
    fn names(&mut self, length: usize) -> Vec<u16> {
        let first = self.random.under(65_000);
        let names = (first..first + length).map(|name| u16::try_from(name).expect("a name"));
        let mut names: Vec<u16> = names.collect();
        if length > 1 && self.random.once_in(4) {
            let (from, to) = (self.random.under(length), self.random.under(length));
            names[to] = names[from];
        }
        names
    }

    /// Some of these names with sorts; now and then one twice, or another name.
    fn given(&mut self, names: &[u16]) -> Vec<(u16, u16)> {
        let share = self.random.under(3);
        let mut given: Vec<u16> = names.iter().copied().filter(|_| self.random.under(2) < share).collect();
        if !given.is_empty() && self.random.once_in(4) {
            let at = self.random.under(given.len());
            given[at] = self.random.of(&[given[0], 65_535]);
        }
        given.into_iter().map(|name| (name, self.sort())).collect()
    }

    fn width(&mut self) -> u32 {
        let near = u32::try_from(self.random.under(4)).expect("small");
        let any = [near, GREATEST_WIDTH - 2 + near, u32::MAX];
        self.random.of(&any)
    }

    /// Adds a random sort to a writer and says what record it is.
    fn add_sort(&mut self, writer: &mut SheetWriter) -> Attempt {
        let before = writer.clone();
        let ids = |list: &[u16]| -> Vec<SortId> { list.iter().map(|k| sort_id(&before, *k)).collect() };
        let name = u16::try_from(self.random.under(65_536)).expect("a name");
        let several = self.sort_list();
        let (one, two) = (self.sort(), self.sort());
        let [one_id, two_id] = [one, two].map(|number| sort_id(&before, number));
        let parts = |kind: u8, list_: &[u16]| [vec![17, kind], list(list_)].concat();
        let named = |kind: u8| [vec![19, kind], short(name), list(&several)].concat();
        let several_ids = ids(&several);
        let (record, written) = match self.random.under(16) {
            0 => (parts(0, &several), writer.add_sort(SortRecord::Function(&several_ids))),
            1 => (named(1), writer.add_sort(SortRecord::Atom(n(name), &several_ids))),
            2 => ([vec![3, 2], short(name)].concat(), writer.add_sort(SortRecord::Var(n(name)))),
            3 => (vec![1, 3], writer.add_sort(SortRecord::Bool)),
            4 => (vec![1, 4], writer.add_sort(SortRecord::Int)),
            5 => (vec![1, 5], writer.add_sort(SortRecord::Real)),
            6 => (vec![1, 6], writer.add_sort(SortRecord::String)),
            7 => (vec![1, 7], writer.add_sort(SortRecord::RegLan)),
            8 => (parts(8, &[one, two]), writer.add_sort(SortRecord::Array(one_id, two_id))),
            9 => {
                let width = self.width();
                let record = [vec![5, 9], long(width)].concat();
                (record, writer.add_sort(SortRecord::BitVec(width)))
            }
            10 => (vec![1, 10], writer.add_sort(SortRecord::ParamBitVec)),
            11 => (named(11), writer.add_sort(SortRecord::Datatype(n(name), &several_ids))),
            12 => {
                let length = self.length();
                let names = self.names(length);
                let record = [vec![81, 12], list(&[one]), list(&names)].concat();
                let names: Vec<Name> = names.into_iter().map(n).collect();
                let par = SortRecord::Par(&names, one_id);
                (record, writer.add_sort(par))
            }
            13 => (vec![1, 13], writer.add_sort(SortRecord::Type)),
            14 => (parts(14, &[one]), writer.add_sort(SortRecord::Set(one_id))),
            _ => (parts(15, &several), writer.add_sort(SortRecord::Tuple(&several_ids))),
        };
        Attempt { part: 0, record, written: written.map(|_| ()) }
    }

    /// Adds a random term to a writer and says what record it is.
    fn add_term(&mut self, writer: &mut SheetWriter) -> Attempt {
        let before = writer.clone();
        let ids = |list: &[u16]| -> Vec<TermId> { list.iter().map(|k| term_id(&before, *k)).collect() };
        let name = u16::try_from(self.random.under(65_536)).expect("a name");
        let several = self.term_list();
        let several_ids = ids(&several);
        let (term, sort) = (self.term(), self.sort());
        let (own_term, own_sort) = (term_id(&before, term), sort_id(&before, sort));
        let behind = [&[term], several.as_slice()].concat();
        let (record, written) = match self.random.under(13) {
            0 => ([vec![5, 0], long(u32::MAX)].concat(), writer.add_term(TermRecord::Integer(u32::MAX))),
            1 => (vec![1, 1], writer.add_term(TermRecord::Real)),
            2 => (vec![1, 2], writer.add_term(TermRecord::String)),
            3 => (vec![1, 3], writer.add_term(TermRecord::RegLan)),
            4 => {
                let width = self.width();
                let record = [vec![5, 4], long(width)].concat();
                (record, writer.add_term(TermRecord::BitVec(width)))
            }
            5 => {
                ([vec![11, 5], short(name), short(sort)].concat(), writer.add_term(TermRecord::Var(n(name), own_sort)))
            }
            6 if behind.len() < 256 => {
                ([vec![17, 6], list(&behind)].concat(), writer.add_term(TermRecord::App(own_term, &several_ids)))
            }
            8 => {
                let op = self.random.of(Binder::ALL);
                let names = self.names(several.len());
                let bound: Vec<(u16, u16)> = names.into_iter().map(|name| (name, self.sort())).collect();
                let record = [vec![53, 8], long(u32::from(op.number())), list(&[term]), pairs(&bound)].concat();
                let bindings: Vec<_> = bound.iter().map(|(k, s)| (n(*k), sort_id(&before, *s))).collect();
                let binder = TermRecord::Binder(op, &bindings, own_term);
                (record, writer.add_term(binder))
            }
            9 if behind.len() < 256 => {
                let names = self.names(several.len());
                let all = [several.as_slice(), &[term]].concat();
                let record = [vec![81, 9], list(&all), list(&names)].concat();
                let values = names.iter().zip(&several_ids);
                let values: Vec<_> = values.map(|(k, id)| (n(*k), *id)).collect();
                (record, writer.add_term(TermRecord::Let(&values, own_term)))
            }
            10 if behind.len() < 256 => {
                ([vec![17, 10], list(&behind)].concat(), writer.add_term(TermRecord::Match(own_term, &several_ids)))
            }
            11 => {
                let op = self.random.of(ParamOperator::ALL);
                let indices = self.term_list();
                let number = long(u32::from(op.number()));
                let record = [vec![85, 11], number, list(&several), list(&indices)].concat();
                let param = TermRecord::ParamOp { op, op_args: &ids(&indices), args: &several_ids };
                (record, writer.add_term(param))
            }
            12 => {
                let op = self.random.of(QualifiedOperator::ALL);
                let number = long(u32::from(op.number()));
                let record = [vec![29, 12], number, short(sort), list(&several)].concat();
                let as_op = TermRecord::AsOp(op, own_sort, &several_ids);
                (record, writer.add_term(as_op))
            }
            _ => {
                let op = self.random.of(Operator::ALL);
                let number = long(u32::from(op.number()));
                let record = [vec![21, 7], number, list(&several)].concat();
                (record, writer.add_term(TermRecord::Op(op, &several_ids)))
            }
        };
        Attempt { part: 1, record, written: written.map(|_| ()) }
    }

    /// Adds a random question to a writer and says what record it is.
    fn add_question(&mut self, writer: &mut SheetWriter) -> Attempt {
        let before = writer.clone();
        let [one, two, three] = [self.sort(), self.sort(), self.sort()];
        let [first, second, third] = [one, two, three].map(|number| sort_id(&before, number));
        let length = self.length().min(254);
        let names = self.names(length);
        let (record, written) = match self.random.under(4) {
            0 => (
                [vec![17, 0], list(&[one, two])].concat(),
                writer.add_question(QuestionRecord::Compatible(first, second)),
            ),
            1 => {
                let record = [vec![81, 1], list(&[one, two, three]), list(&names)].concat();
                let names: Vec<Name> = names.into_iter().map(n).collect();
                let question = QuestionRecord::Match { pattern: first, target: second, result: third, names: &names };
                (record, writer.add_question(question))
            }
            2 => {
                let given = self.given(&names);
                let record = [vec![113, 3], list(&[one, two, three]), pairs(&given), list(&names)].concat();
                let given: Vec<_> = given.iter().map(|(k, s)| (n(*k), sort_id(&before, *s))).collect();
                let names: Vec<Name> = names.into_iter().map(n).collect();
                let (pattern, target, result) = (first, second, third);
                let question = QuestionRecord::Continue { pattern, target, result, given: &given, names: &names };
                (record, writer.add_question(question))
            }
            _ => {
                let images: Vec<u16> = names.iter().map(|_| self.sort()).collect();
                let all = [&[one], images.as_slice()].concat();
                let record = [vec![81, 2], list(&all), list(&names)].concat();
                let map = names.iter().zip(&images);
                let map: Vec<_> = map.map(|(k, s)| (n(*k), sort_id(&before, *s))).collect();
                let question = QuestionRecord::Apply { sort: first, map: &map };
                (record, writer.add_question(question))
            }
        };
        Attempt { part: 2, record, written: written.map(|_| ()) }
    }
}

/// Random records, each of which the writer and the reader must see in the same way, behind those that both took.
#[test]
fn the_writer_refuses_what_the_reader_refuses() {
    let mut counts = [0_usize; 35];
    for seed in 1..=60 {
        let mut source = Source { random: Random::new(seed), sorts: 0, terms: 0 };
        let (mut writer, mut raw) = (SheetWriter::new(), Raw::default());
        let mut sizes = Vec::new();
        for _ in 0..60 {
            // No sizes, sizes in all sort records, sizes in some.
            let sized = [false, true, source.random.once_in(2)][usize::try_from(seed % 3).expect("small")];
            writer.write_sizes(sized);
            let before = writer.clone();
            source.sorts = writer.sorts();
            source.terms = writer.terms();
            let attempt = match source.random.under(5) {
                0 | 1 => source.add_sort(&mut writer),
                2 | 3 => source.add_term(&mut writer),
                _ => source.add_question(&mut writer),
            };
            let mut with = raw.clone();
            let size = tree_size(&attempt.record, &sizes);
            let record = match sized && attempt.part == 0 {
                true => with_size(attempt.record, size),
                false => attempt.record,
            };
            with.parts[attempt.part].push(record);
            let sheet = with.sheet();
            let read = outcome(&sheet);
            counts[read.err().map_or(0, |refusal| refusal.number() as usize)] += 1;
            match (attempt.written, read) {
                (Ok(()), Ok(())) => {
                    assert_eq!(hex(&writer.finish()), hex(&sheet));
                    raw = with;
                    if attempt.part == 0 {
                        sizes.push(size);
                    }
                }
                // Tree sizes are the library's business; such a sort is taken back here.
                (Ok(()), Err(Refusal::TreeSize)) => writer = before,
                (Err(error), Err(refusal)) => {
                    assert_eq!(refusal_of(error), Some(refusal), "{}", hex(&sheet));
                    assert_eq!(hex(&writer.finish()), hex(&before.finish()));
                }
                (written, read) => panic!("{written:?} but {read:?}: {}", hex(&sheet)),
            }
        }
    }
    println!("by refusal, accepted first: {counts:?}");
    assert!(counts[0] > 1_000 && counts[5] > 100 && counts[6] > 100);
}

/// A writer filled up to so many bytes.
fn filled(length: usize) -> SheetWriter {
    let mut writer = SheetWriter::new();
    let int = writer.add_sort(SortRecord::Int).unwrap();
    while length - writer.length() > 140 {
        writer.add_sort(SortRecord::Tuple(&[int; 64])).unwrap();
    }
    // A tuple has an odd length, an Int an even one.
    if (length - writer.length()) % 2 == 1 {
        writer.add_sort(SortRecord::Tuple(&[])).unwrap();
    }
    while writer.length() < length {
        writer.add_sort(SortRecord::Int).unwrap();
    }
    assert_eq!(writer.length(), length);
    writer
}

#[test]
fn bytes_of_a_sheet() {
    for under in 0..4 {
        let mut writer = filled(MOST_BYTES - under);
        assert_eq!(writer.finish().len(), MOST_BYTES - under);
        assert_eq!(outcome(&writer.finish()), Ok(()));
        let fits = if under >= 2 { Ok(()) } else { Err(WriteError::TooLong) };
        let mut other = writer.clone();
        assert_eq!(other.add_term(TermRecord::Real).map(|_| ()), fits);
        // One record too long and with a fault behind: the length comes first.
        let far = TermRecord::App(term_id(&SheetWriter::new(), 9), &[]);
        assert_eq!(writer.add_term(far), Err(WriteError::TooLong));
    }
    let mut long = filled(MOST_BYTES).finish().into_bytes();
    long.push(1);
    assert_eq!(outcome(&long), Err(Refusal::Length));
    assert_eq!(WriteError::TooLong.refusal(), Some(Refusal::Length));
    assert_eq!(outcome(&SheetWriter::new().finish()), Ok(()));
}

#[test]
fn counts_of_records() {
    let mut writer = SheetWriter::new();
    for _ in 0..MOST_SORTS {
        writer.add_sort(SortRecord::Int).unwrap();
    }
    for _ in 0..MOST_TERMS {
        writer.add_term(TermRecord::Real).unwrap();
    }
    let zero = writer.sort_at(0).unwrap();
    for _ in 0..MOST_QUESTIONS {
        let question = QuestionRecord::Compatible(zero, zero);
        writer.add_question(question).unwrap();
    }
    let sheet = writer.finish();
    assert_eq!(outcome(&sheet), Ok(()));
    // A count too many comes before what the record holds.
    let wide = SortRecord::BitVec(u32::MAX);
    assert_eq!(writer.add_sort(wide), Err(WriteError::TooManySorts));
    let wide = TermRecord::BitVec(u32::MAX);
    assert_eq!(writer.add_term(wide), Err(WriteError::TooManyTerms));
    let far = QuestionRecord::Compatible(zero, sort_id(&SheetWriter::new(), 7));
    assert_eq!(writer.add_question(far), Err(WriteError::TooManyQuestions));
    assert_eq!(writer.sort(&Sort::BitVec(3)), Err(WriteError::TooManySorts));
    assert_eq!(writer.sort(&Sort::Int), Ok(zero));
    assert_eq!(writer.finish(), sheet);
    for at in [0, 2, 4] {
        let mut more = sheet.to_vec();
        more[at] += 1;
        assert_eq!(outcome(&more), Err(Refusal::Header));
    }
}

#[test]
fn lists_past_a_byte() {
    let mut writer = SheetWriter::new();
    let int = writer.add_sort(SortRecord::Int).unwrap();
    let one = writer.add_term(TermRecord::Real).unwrap();
    for length in [65, 255, 256, 257, 320] {
        let long = Err(WriteError::LongList(length));
        assert_eq!(writer.add_sort(SortRecord::Tuple(&vec![int; length])), long);
        let op = TermRecord::Op(Operator::And, &vec![one; length]);
        assert_eq!(writer.add_term(op), long.map(|_: SortId| one));
        let app = TermRecord::App(one, &vec![one; length - 1]);
        assert_eq!(writer.add_term(app), long.map(|_| one));
    }
    let full = TermRecord::App(one, &[one; 63]);
    assert!(writer.add_term(full).is_ok());
}

#[test]
fn given_names() {
    let mut writer = SheetWriter::new();
    let int = writer.add_sort(SortRecord::Int).unwrap();
    let before = writer.finish();
    let mut ask = |given: &[u16], names: &[u16]| {
        let given: Vec<_> = given.iter().map(|name| (n(*name), int)).collect();
        let names: Vec<Name> = names.iter().copied().map(n).collect();
        let (pattern, target, result) = (int, int, int);
        let question = QuestionRecord::Continue { pattern, target, result, given: &given, names: &names };
        writer.add_question(question).map(|_| ())
    };
    let all: Vec<u16> = (1..=65).collect();
    assert_eq!(ask(&[1], &[]), Err(WriteError::NoSuchParameter(n(1))));
    assert_eq!(ask(&[1, 3], &[2, 1]), Err(WriteError::NoSuchParameter(n(3))));
    assert_eq!(ask(&[1, 2, 1], &[1, 2]), Err(WriteError::RepeatedName(n(1))));
    assert_eq!(ask(&[1], &[1, 2, 2]), Err(WriteError::RepeatedName(n(2))));
    assert_eq!(ask(&all, &all), Err(WriteError::LongList(65)));
    assert_eq!(ask(&all[1..], &all), Err(WriteError::LongList(65)));
    for error in [WriteError::NoSuchParameter(n(1)), WriteError::RepeatedName(n(1))] {
        assert_eq!(error.refusal(), Some(Refusal::Value));
    }
    assert_eq!(ask(&[], &[]), Ok(()));
    assert_eq!(ask(&all[..64], &all[..64]), Ok(()));
    let sheet = writer.finish();
    assert_eq!(outcome(&sheet), Ok(()));
    assert_eq!(sheet.len() - before.len(), 11 + 11 + 64 * 6);
}

#[test]
fn trees() {
    let mut writer = SheetWriter::new();
    let leaf = Arc::new(Sort::Int);
    let pair = Arc::new(Sort::Array(leaf.clone(), leaf.clone()));
    let id = writer.sort(&pair).unwrap();
    assert_eq!((id.number(), writer.sorts()), (1, 2));
    assert_eq!(writer.sort(&pair), Ok(id));
    // A fault deep inside takes back what was added for it.
    let before = writer.finish();
    let fault = Sort::Tuple(vec![Arc::new(Sort::Real), Arc::new(Sort::Set(Arc::new(Sort::BitVec(70_000))))]);
    assert_eq!(writer.sort(&fault), Err(WriteError::Width(70_000)));
    assert_eq!(writer.finish(), before);
    let real = writer.sort(&Sort::Real).unwrap();
    assert_eq!(real.number(), 2);
    let none = Sort::Par(vec![], leaf.clone());
    assert_eq!(writer.sort(&none), Err(WriteError::NoParameter));
    let twice = Sort::Par(vec![n(1), n(2), n(1)], leaf.clone());
    assert_eq!(writer.sort(&twice), Err(WriteError::RepeatedName(n(1))));
    // A tree with shared parts is gone through once; its size is the library's business.
    let mut wide = leaf;
    for _ in 0..100 {
        wide = Arc::new(Sort::Array(wide.clone(), wide));
    }
    writer.sort(&wide).unwrap();
    assert_eq!(writer.sorts(), 3 + 99);
    assert_eq!(outcome(&writer.finish()), Err(Refusal::TreeSize));
}

#[test]
fn sizes() {
    let mut writer = SheetWriter::new();
    let int = writer.add_sort(SortRecord::Int).unwrap();
    writer.write_sizes(true);
    let pair = writer.add_sort(SortRecord::Array(int, int)).unwrap();
    // Names count nothing, and stand before the size.
    let par = writer.add_sort(SortRecord::Par(&[n(1), n(2)], pair)).unwrap();
    // A sort that is there is not added again, with its size or without.
    assert_eq!(writer.sort(&Sort::Int), Ok(int));
    writer.write_sizes(false);
    let tree = Sort::Array(Arc::new(Sort::Int), Arc::new(Sort::Int));
    assert_eq!(writer.sort(&tree), Ok(pair));
    let set = writer.add_sort(SortRecord::Set(par)).unwrap();
    writer.write_sizes(true);
    writer.add_sort(SortRecord::Tuple(&[set, set, int])).unwrap();
    let records = "0104 9108 02 0000 0000 0300 d10c 01 0100 02 0100 0200 0400 110e 01 0200 910f 03 0300 0300 0000 0c00";
    let sheet = writer.finish();
    assert_eq!(hex(&sheet), format!("050000000000{}", records.replace(' ', "")));
    assert_eq!(outcome(&sheet), Ok(()));
    // One that is not the sort's: the last one, more and less.
    for wrong in [0x0b, 0x0d, 0] {
        let mut other = sheet.to_vec();
        let at = other.len() - 2;
        other[at] = wrong;
        assert_eq!(outcome(&other), Err(Refusal::WrittenSize));
    }
    // The store has them all, each distinct sort once, so the sheet with all sizes has its bytes.
    let mut all = SheetWriter::new();
    all.write_sizes(true);
    all.sort(&tree).unwrap();
    let mut records = vec![0; all.length() - 6];
    napsilo::judge_into(&all.finish(), &mut records, &mut [0; 2], &mut [], &mut []).unwrap();
    assert_eq!(hex(&records), hex(&all.finish()[6..]));
    // A size counts for the length of a sheet.
    let mut full = filled(MOST_BYTES - 3);
    full.write_sizes(true);
    assert_eq!(full.add_sort(SortRecord::Int), Err(WriteError::TooLong));
    full.write_sizes(false);
    assert!(full.add_sort(SortRecord::Int).is_ok());
}

#[test]
fn sizes_past_the_limit() {
    // 4,095 nodes, then 8,191, and on until no number of two bytes holds the size: 9 comes before the size.
    let mut writer = SheetWriter::new();
    writer.write_sizes(true);
    let mut last = writer.add_sort(SortRecord::Int).unwrap();
    for level in 1..30 {
        last = writer.add_sort(SortRecord::Array(last, last)).unwrap();
        let size = u16::try_from((2_u32 << level) - 1).unwrap_or(u16::MAX);
        assert!(writer.finish().ends_with(&size.to_le_bytes()));
        let expected = if level < 12 { Ok(()) } else { Err(Refusal::TreeSize) };
        assert_eq!(outcome(&writer.finish()), expected);
    }
}

#[test]
fn names_run_out() {
    let mut names = napsilo::Names::new();
    assert_eq!(names.name("?"), Ok(Name::UNKNOWN));
    for number in 1..=u16::MAX {
        let string = format!("s{number}");
        assert_eq!(names.name(&string), Ok(n(number)));
    }
    assert_eq!(names.name("s77"), Ok(n(77)));
    assert_eq!(names.string(n(77)), Some("s77"));
    assert_eq!(names.name("more"), Err(WriteError::TooManyNames));
    assert_eq!(WriteError::TooManyNames.refusal(), None);
}
