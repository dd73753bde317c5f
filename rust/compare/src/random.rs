//! Random sheets: general ones, ones about parametric functions and matching, some of both with tree sizes written, broken ones, one in ten
//! about numbers, one in ten about sets and relations, and one in ten about matching.

use crate::writer::{Fields, Writer};
use crate::{continued, numbers, relations, sizes};
use model::reader::{self, Lent};

/// A source of random numbers (splitmix64).
#[derive(Debug, Clone)]
pub struct Source(u64);

impl Source {
    /// A source that a seed decides.
    pub fn new(seed: u64) -> Source {
        Source(seed)
    }

    /// The next number.
    fn next(&mut self) -> u64 {
        self.0 = self.0.wrapping_add(0x9e37_79b9_7f4a_7c15);
        let mut z = self.0;
        z = (z ^ (z >> 30)).wrapping_mul(0xbf58_476d_1ce4_e5b9);
        z = (z ^ (z >> 27)).wrapping_mul(0x94d0_49bb_1331_11eb);
        z ^ (z >> 31)
    }

    /// A number under a bound that is not 0.
    pub(crate) fn under(&mut self, bound: usize) -> usize {
        (self.next() % bound as u64) as usize
    }

    /// A number from a range, both ends included.
    fn from(&mut self, least: usize, most: usize) -> usize {
        least + self.under(most - least + 1)
    }

    /// True so many times in a hundred.
    fn chance(&mut self, percent: usize) -> bool {
        self.under(100) < percent
    }

    /// One of some values.
    fn one<T: Copy>(&mut self, values: &[T]) -> T {
        values[self.under(values.len())]
    }

    /// As many values as a range says.
    fn some<T: Copy>(&mut self, values: &[T], least: usize, most: usize) -> Vec<T> {
        if values.is_empty() {
            return Vec::new();
        }
        (0..self.from(least, most)).map(|_| self.one(values)).collect()
    }

    /// A name.
    fn name(&mut self) -> u16 {
        self.one(&[0, 1, 1, 1, 2, 2, 3, 65_535])
    }

    /// Distinct names.
    fn names(&mut self, least: usize, most: usize) -> Vec<u16> {
        let mut left = vec![0, 1, 1, 2, 2, 3, 4, 65_535];
        let mut names = Vec::new();
        for _ in 0..self.from(least, most) {
            let name = self.one(&left);
            left.retain(|other| *other != name);
            names.push(name);
        }
        names
    }
}

/// A random sheet.
pub fn sheet(source: &mut Source) -> Vec<u8> {
    let writer = match source.chance(50) {
        true => general(source),
        false => parametric(source),
    };
    let mut bytes = writer.bytes();
    if source.chance(30) {
        bytes = sizes::some(&bytes, &mut |bound| source.under(bound));
    }
    match source.under(100) {
        0..4 => bytes.truncate(source.under(bytes.len() + 1)),
        4..16 => {
            for _ in 0..source.from(1, 2) {
                let at = source.under(bytes.len());
                let other = source.under(256) as u8;
                bytes[at] = source.one(&[0, 1, 2, 3, 17, 64, 65, 128, 255, other]);
            }
        }
        16 => bytes.push(0),
        // By numbers of their own, so that the source goes on as it did before there were these kinds.
        17..27 => {
            let mut apart = source.clone();
            bytes = numbers::sheet(&mut |bound| apart.under(bound));
        }
        27..37 => {
            let mut apart = source.clone();
            bytes = relations::sheet(&mut |bound| apart.under(bound));
        }
        37..47 => {
            let mut apart = source.clone();
            bytes = continued::sheet(&mut |bound| apart.under(bound));
        }
        _ => (),
    }
    bytes
}

/// A random sheet as [`sheet`] makes them, one in eight with a wrong tree size.
pub fn sheet_or_wrong(source: &mut Source) -> Vec<u8> {
    let sheet = sheet(source);
    match source.under(8) {
        0 => sizes::wrong(&sheet, &mut |bound| source.under(bound)),
        _ => sheet,
    }
}

/// Gives `see` the terms of so many sheets, which `make` makes of random numbers, with what the model gives for them.
#[cfg(test)]
pub(crate) fn judged(
    sheets: usize,
    make: fn(&mut dyn FnMut(usize) -> usize) -> Vec<u8>,
    see: &mut dyn FnMut(&[reader::Term], &model::Judged),
) {
    let all = Lent { records: 65_536, places: 4_096, rows: 256, answers: 0 };
    let mut source = Source::new(1);
    for _ in 0..sheets {
        let sheet = make(&mut |bound| source.under(bound));
        let (read, _) = reader::read(&sheet, &all).expect("a sheet within the limits");
        see(&read.terms, &model::judge(&sheet, all.records, all.places, all.rows, all.answers));
    }
}

/// Adds random questions about the sorts of a sheet.
fn questions(source: &mut Source, writer: &mut Writer, most: usize) {
    let sorts: Vec<u16> = (0..writer.sorts.len() as u16).collect();
    if sorts.is_empty() {
        return;
    }
    for _ in 0..source.from(0, most) {
        let kind = source.under(3) as u8;
        let mut names = source.names(0, 3);
        if kind == 1 && source.chance(50) {
            // A name that no target holds, so that the premise is met more often.
            names.retain(|name| *name != 2 && *name != 0);
        }
        let length = match kind {
            0 => 2,
            1 => 3,
            _ => 1 + names.len(),
        };
        let list = source.some(&sorts, length, length);
        let second = (kind != 0).then_some(names.as_slice());
        writer.question(Fields { kind, list: Some(&list), second, ..Fields::default() });
    }
}

/// Adds a random sort over those that are there.
fn any_sort(source: &mut Source, writer: &mut Writer, simple: bool) {
    let there: Vec<u16> = (0..writer.sorts.len() as u16).collect();
    let functions: Vec<u16> =
        there.iter().copied().filter(|&number| writer.sorts[usize::from(number)][1] == 0).collect();
    let kind = match simple || there.is_empty() {
        true => source.one(&[2, 2, 3, 4, 5, 6, 7, 9, 9, 10, 13]),
        false => source.one(&[0, 0, 0, 0, 1, 8, 8, 11, 12, 12, 14, 14, 15, 15]),
    };
    let one = [match kind == 12 && !functions.is_empty() && source.chance(80) {
        true => source.one(&functions),
        false => there.last().map_or(0, |_| source.one(&there)),
    }];
    let list = match kind {
        0 => source.some(&there, 0, 4),
        8 => source.some(&there, 2, 2),
        12 | 14 => one.to_vec(),
        _ => source.some(&there, 0, 3),
    };
    let names = source.names(1, 3);
    let width = source.one(&[0, 1, 8, 8, 8, 9, 65_535]);
    writer.sort(Fields {
        kind,
        name: matches!(kind, 1 | 2 | 11).then(|| source.name()),
        number: (kind == 9).then_some(width),
        list: matches!(kind, 0 | 1 | 8 | 11 | 12 | 14 | 15).then_some(&list),
        second: (kind == 12).then_some(&names),
        ..Fields::default()
    });
}

/// Adds a random term over those that are there.
fn any_term(source: &mut Source, writer: &mut Writer, simple: bool) {
    let there: Vec<u16> = (0..writer.terms.len() as u16).collect();
    let sorts: Vec<u16> = (0..writer.sorts.len() as u16).collect();
    let mut kind = match simple || there.is_empty() {
        true => source.one(&[0, 0, 1, 2, 3, 4, 5, 5, 5, 5, 5]),
        false => source.one(&[6, 6, 6, 6, 7, 7, 7, 7, 7, 7, 8, 8, 9, 10, 11, 11, 11, 12]),
    };
    if sorts.is_empty() && matches!(kind, 5 | 12) {
        kind = 0;
    }
    let (least, most) = match kind {
        6 => (1, 4),
        8 => (1, 1),
        9 | 10 => (1, 3),
        11 | 12 if source.chance(70) => (1, 1),
        _ => (0, 3),
    };
    let mut list = source.some(&there, least, most);
    if kind == 7 && source.chance(50) && !list.is_empty() {
        // Equal arguments fit a rank more often.
        list = vec![list[0]; list.len()];
    }
    if matches!(kind, 7 | 9) && source.chance(1) {
        list = source.some(&there, 60, 64);
    }
    let greatest = match kind {
        7 => 134,
        8 => 3,
        11 => 11,
        _ => 2,
    };
    let value = match kind {
        0 => source.one(&[0, 1, 2, 3, 7, 8, 65_528, 65_535, 65_536, u32::MAX]),
        4 => source.one(&[0, 1, 8, 8, 65_535]),
        12 if source.chance(70) => 0,
        _ => source.from(0, greatest) as u32,
    };
    let own = sorts.last().map(|_| source.one(&sorts));
    let longest = if source.chance(2) { 64 } else { 2 };
    let bound = source.some(&sorts, 0, longest);
    let pairs: Vec<(u16, u16)> = bound.into_iter().map(|sort| (source.name(), sort)).collect();
    let second = match kind {
        9 => (1..list.len()).map(|_| source.name()).collect(),
        _ => source.some(&there, 0, 2),
    };
    writer.term(Fields {
        kind,
        name: (kind == 5).then(|| source.name()),
        number: matches!(kind, 0 | 4 | 7 | 8 | 11 | 12).then_some(value),
        sort: own.filter(|_| matches!(kind, 5 | 12)),
        list: matches!(kind, 6..=12).then_some(&list),
        pairs: (kind == 8).then_some(&pairs),
        second: matches!(kind, 9 | 11).then_some(&second),
    });
}

/// A sheet of everything.
fn general(source: &mut Source) -> Writer {
    let mut writer = Writer::default();
    for number in 0..source.from(0, 16) {
        let simple = number < 3 || source.chance(30);
        any_sort(source, &mut writer, simple);
    }
    for number in 0..source.from(0, 24) {
        let simple = number < 4 || source.chance(30);
        any_term(source, &mut writer, simple);
    }
    questions(source, &mut writer, 6);
    writer
}

/// A sheet of parametric functions at arguments that often fit.
fn parametric(source: &mut Source) -> Writer {
    let mut writer = Writer::default();
    let w = &mut writer;
    let mut values = vec![w.variable(1), w.variable(2), w.plain(4), w.plain(3), w.vector(8), w.plain(10)];
    for _ in 0..source.from(1, 6) {
        let list = source.some(&values, 1, 3);
        let sort = match source.under(6) {
            0 => w.parts(14, &list[..1]),
            1 => w.parts(8, &[list[0], *list.last().unwrap_or(&0)]),
            2 => w.parts(15, &list),
            3 => w.parts(0, &list),
            4 => w.par(list[0], &source.names(1, 2)),
            _ => {
                let kind = source.one(&[1, 11]);
                w.sort(Fields { kind, name: Some(5), list: Some(&list), ..Fields::default() })
            }
        };
        values.push(sort);
    }
    if source.chance(20) {
        let mut deep = source.one(&values[..3]);
        for _ in 0..source.from(4, 11) {
            deep = w.parts(8, &[deep, deep]);
        }
        values.extend([deep, deep]);
    }
    let mut heads = Vec::new();
    for _ in 0..source.from(1, 4) {
        let mut list = source.some(&values, 1, 4);
        for entry in &mut list {
            if source.chance(40) {
                *entry = source.one(&values[..2]);
            }
        }
        let function = w.parts(0, &list);
        let names = source.one(&[[1, 2], [2, 1], [1, 3], [2, 3]]);
        let names = &names[..source.from(1, 2)];
        heads.push(if source.chance(80) { w.par(function, names) } else { function });
    }
    let head_terms: Vec<u16> = heads.iter().map(|&sort| w.var(sort)).collect();
    let mut arguments: Vec<u16> = values.iter().map(|&sort| w.var(sort)).collect();
    for _ in 0..source.from(3, 24) {
        let mut list = source.some(&arguments, 1, 3);
        if source.chance(30) {
            list = vec![list[0]; list.len()];
        }
        let head = match source.chance(90) {
            true => source.one(&head_terms),
            false => source.one(&arguments),
        };
        let entries = [&[head], list.as_slice()].concat();
        let term = w.term(Fields { kind: 6, list: Some(&entries), ..Fields::default() });
        if source.chance(40) {
            arguments.push(term);
        }
    }
    questions(source, &mut writer, 8);
    writer
}

/// Random lengths of the four lent buffers (bytes of records, places, rows, answers): mostly enough for the sheet's sorts, and often not
/// enough for all its answers.
pub fn lent(source: &mut Source, sheet: &[u8]) -> [usize; 4] {
    let all = Lent { records: 65_536, places: 4_096, rows: 8_192, answers: 1_024 };
    let Ok((read, store)) = reader::read(sheet, &all) else {
        // A sheet that is refused whatever is lent: enough rows and answers, so that the refusal is the sheet's own.
        let count = |at: usize| sheet.get(at).map_or(0, |low| usize::from(*low));
        let [records, places] = [400, 40].map(|most| source.from(most / 2, most));
        return [records, places, 2 * count(2), count(4)];
    };
    let judged = model::judge(sheet, all.records, all.places, all.rows, all.answers);
    // A store ends in a size, whose high byte is mostly 0.
    let bytes = judged.records.iter().rposition(|byte| *byte != 0).map_or(0, |last| last + 2);
    let sorts = judged.places.iter().rposition(|place| *place != 0).map_or(1, |last| last + 1);
    let room = |source: &mut Source, least: usize, needed: usize| match source.under(20) {
        0 => source.from(0, least),
        1..12 => source.from(least, needed.max(least)),
        12..16 => needed + source.from(0, 3),
        _ => needed + source.from(0, 40),
    };
    let enough = |source: &mut Source, needed: usize| match source.chance(98) {
        true => needed + source.one(&[0, 0, 1, 3]),
        false => source.from(0, needed),
    };
    [
        room(source, store.records().len(), bytes),
        room(source, store.places().len(), sorts),
        enough(source, 2 * read.terms.len()),
        enough(source, read.questions.len()),
    ]
}
