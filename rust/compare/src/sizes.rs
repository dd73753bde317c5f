//! Writes tree sizes into the sort records of a sheet: mostly right ones, now and then a wrong one, one cut short, or one where none may stand;
//! and takes them out again.
//!
//! Nothing is asked but the sheet's own bytes, by their bit maps; a sheet whose records are not all there stays as it is.

use model::sort::LARGEST;

/// The bit of a record's map for the tree size.
const SIZE: u8 = 128;

/// A record of a sheet: where it starts, where its fields but for a written size end, where the next record starts, and the references of
/// its list.
struct Record {
    start: usize,
    end: usize,
    behind: usize,
    list: Vec<u16>,
}

/// The record that starts here, by its map; nothing if it is not all there.
fn record(sheet: &[u8], start: usize) -> Option<Record> {
    let short = |at: usize| Some(u16::from_le_bytes([*sheet.get(at)?, *sheet.get(at + 1)?]));
    let map = *sheet.get(start)?;
    (map & 1 == 1).then_some(())?;
    let mut at = start + 2;
    let mut list = Vec::new();
    for (bit, length) in [(2, 2), (4, 4), (8, 2)] {
        if map & bit != 0 {
            at += length;
        }
    }
    for (bit, length) in [(16, 2), (32, 4), (64, 2)] {
        if map & bit != 0 {
            let count = usize::from(*sheet.get(at)?);
            if bit == 16 {
                list = (0..count).map(|entry| short(at + 1 + 2 * entry)).collect::<Option<_>>()?;
            }
            at += 1 + count * length;
        }
    }
    let behind = at + if map & SIZE != 0 { 2 } else { 0 };
    (behind <= sheet.len()).then_some(Record { start, end: at, behind, list })
}

/// The records of a sheet, and how many of them are sorts; nothing if they are not all there.
fn records(sheet: &[u8]) -> Option<(Vec<Record>, usize)> {
    let count = |at: usize| Some(usize::from(u16::from_le_bytes([*sheet.get(at)?, *sheet.get(at + 1)?])));
    let counts = [count(0)?, count(2)?, count(4)?];
    let mut records: Vec<Record> = Vec::new();
    for _ in 0..counts.iter().sum() {
        let start = records.last().map_or(6, |last| last.behind);
        records.push(record(sheet, start)?);
    }
    Some((records, counts[0]))
}

/// The tree size of each sort by its record; 0 counts for a part that is not there, and what does not fit is the greatest number.
fn tree_sizes(sorts: &[Record]) -> Vec<u16> {
    let mut sizes: Vec<u16> = Vec::new();
    for sort in sorts {
        let part = |number: &u16| sizes.get(usize::from(*number)).copied().unwrap_or(0);
        sizes.push(sort.list.iter().fold(1, |sum: u16, number| sum.saturating_add(part(number))));
    }
    sizes
}

/// A copy of a sheet with the tree size in each sort record; the sheet itself if its records are not all there.
pub fn all(sheet: &[u8]) -> Vec<u8> {
    written(sheet, |_, size| Some(size))
}

/// A copy of a sheet without tree sizes in its sort records; the sheet itself if its records are not all there.
pub fn none(sheet: &[u8]) -> Vec<u8> {
    written(sheet, |_, _| None)
}

/// A copy of a sheet in which the sort records have the sizes that a function gives by their number and their tree size, and no others.
fn written(sheet: &[u8], mut choose: impl FnMut(usize, u16) -> Option<u16>) -> Vec<u8> {
    let Some((records, sorts)) = records(sheet) else {
        return sheet.to_vec();
    };
    let mut copy = sheet[..6].to_vec();
    for (at, (record, size)) in records.iter().zip(tree_sizes(&records[..sorts])).enumerate() {
        let start = copy.len();
        copy.extend(&sheet[record.start..record.end]);
        copy[start] &= !SIZE;
        if let Some(size) = choose(at, size) {
            copy[start] |= SIZE;
            copy.extend(size.to_le_bytes());
        }
    }
    let behind = records[..sorts].last().map_or(6, |last| last.behind);
    copy.extend(&sheet[behind..]);
    copy
}

/// A copy of a sheet with some tree sizes. `under` gives a random number under one that is not 0.
///
/// Half of the copies have them in all sort records, a third in some. Of the others half have one that is wrong (34), and half one that is cut
/// short (3) or one in a term record or a question (4), where there is such a record.
pub fn some(sheet: &[u8], under: &mut impl FnMut(usize) -> usize) -> Vec<u8> {
    let Some((records, sorts)) = records(sheet) else {
        return sheet.to_vec();
    };
    match under(12) {
        0..6 => all(sheet),
        6..10 => {
            let share = 1 + under(3);
            written(sheet, |_, size| (under(4) < share).then_some(size))
        }
        10 if sorts > 0 => {
            let (share, at) = (under(5), under(sorts));
            wrong_at(sheet, share, at, under)
        }
        _ if sorts > 0 && under(2) == 0 => {
            // The sheet ends in the size of a sort record, or right before it.
            let last = under(sorts);
            let end = records[last].end;
            let mut copy = sheet[..end].to_vec();
            copy[records[last].start] |= SIZE;
            copy.extend(&[1, 0][..under(2)]);
            copy
        }
        _ if sorts < records.len() => {
            let of = &records[sorts + under(records.len() - sorts)];
            let mut copy = sheet[..of.end].to_vec();
            copy[of.start] |= SIZE;
            copy.extend([1, 0]);
            copy.extend(&sheet[of.behind..]);
            copy
        }
        _ => all(sheet),
    }
}

/// A copy of a sheet with one wrong tree size, the other sort records having theirs or not; the sheet itself if its records are not all there
/// or none is a sort. `under` gives a random number under one that is not 0. Where a sort is over the limit, the first one of these has the wrong
/// size in half of the copies, which then is not told (9).
pub fn wrong(sheet: &[u8], under: &mut impl FnMut(usize) -> usize) -> Vec<u8> {
    let Some((records, sorts @ 1..)) = records(sheet) else {
        return sheet.to_vec();
    };
    let over = tree_sizes(&records[..sorts]).iter().position(|size| u64::from(*size) > LARGEST);
    let (share, any) = (under(5), under(sorts));
    let at = over.filter(|_| under(2) == 0).unwrap_or(any);
    wrong_at(sheet, share, at, under)
}

/// A copy of a sheet with a wrong tree size in the sort record with this number, and so many quarters of the others with theirs.
fn wrong_at(sheet: &[u8], quarters: usize, wrong: usize, under: &mut impl FnMut(usize) -> usize) -> Vec<u8> {
    written(sheet, |at, size| match at == wrong {
        true => Some(other(size, under)),
        false => (under(4) < quarters).then_some(size),
    })
}

/// Another size than this one: one more or less, a byte turned, none, or any.
fn other(size: u16, under: &mut impl FnMut(usize) -> usize) -> u16 {
    let any = u16::try_from(under(65_536)).expect("two bytes");
    let tried = [size.wrapping_add(1), size.wrapping_sub(1), size.swap_bytes(), 0, size ^ 256, any][under(6)];
    if tried == size { size.wrapping_add(1) } else { tried }
}

#[cfg(test)]
mod tests {
    use super::*;

    /// Int, an array of it, a Par of two names over that, a real constant, and whether the first sort is compatible with itself.
    const SHEET: [u8; 34] =
        [3, 0, 1, 0, 1, 0, 1, 4, 17, 8, 2, 0, 0, 0, 0, 81, 12, 1, 1, 0, 2, 1, 0, 2, 0, 1, 1, 17, 0, 2, 0, 0, 0, 0];

    #[test]
    fn all_sizes() {
        let sorts: [&[u8]; 3] =
            [&[129, 4, 1, 0], &[145, 8, 2, 0, 0, 0, 0, 3, 0], &[209, 12, 1, 1, 0, 2, 1, 0, 2, 0, 4, 0]];
        let expected = [&SHEET[..6], &sorts.concat(), &SHEET[25..]].concat();
        assert_eq!(all(&SHEET), expected);
        // Sizes are written once; a sheet whose records are not all there stays as it is.
        assert_eq!(all(&expected), expected);
        assert_eq!(none(&expected), SHEET);
        assert_eq!(none(&SHEET), SHEET);
        assert_eq!(all(&SHEET[..30]), SHEET[..30]);
    }

    /// Random numbers under a bound.
    fn numbers() -> impl FnMut(usize) -> usize {
        let mut state = 1_u64;
        move |bound| {
            state = state.wrapping_mul(6_364_136_223_846_793_005).wrapping_add(1_442_695_040_888_963_407);
            (state >> 33) as usize % bound
        }
    }

    #[test]
    fn what_some_sizes_give() {
        let mut under = numbers();
        let mut met = [0; 35];
        for _ in 0..2_000 {
            let copy = some(&SHEET, &mut under);
            let number = model::judge(&copy, 64, 8, 2, 1).number;
            // What is accepted gives what it gave before.
            assert!(number != 0 || model::printout(&copy) == model::printout(&SHEET));
            met[usize::from(number)] += 1;
        }
        assert!(met[0] > 1_000 && [3, 4, 34].iter().all(|number| met[*number] > 20), "{met:?}");
        assert_eq!(met[0] + met[3] + met[4] + met[34], 2_000);
    }
    #[test]
    fn what_a_wrong_size_gives() {
        let mut under = numbers();
        // Int, and arrays of the one before twice: the twelfth is of 8,191 nodes.
        let doubled: Vec<u8> = (0..14).flat_map(|part| [17, 8, 2, part, 0, part, 0]).collect();
        let sheet = [&[15, 0, 0, 0, 0, 0, 1, 4], doubled.as_slice()].concat();
        let mut over = 0;
        for _ in 0..400 {
            assert_eq!(model::judge(&wrong(&SHEET, &mut under), 64, 8, 2, 1).number, 34);
            let copy = wrong(&sheet, &mut under);
            let number = model::judge(&copy, 200, 16, 0, 0).number;
            assert!([9, 34].contains(&number));
            over += usize::from(number == 9);
            assert_eq!(none(&copy), sheet);
        }
        assert!((201..300).contains(&over), "{over}");
        // A sheet without sorts has no place for one.
        assert_eq!(wrong(&[0; 6], &mut under), [0; 6]);
    }
}
