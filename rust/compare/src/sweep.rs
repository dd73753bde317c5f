//! Sheets with every operator at every choice of arguments from a list of sorts, and sheets at the limits.

use crate::numbers::MIXING;
use crate::relations::SETS;
use crate::writer::{Fields, Writer};
use model::operator::Operator;
use model::sort::Kind;

/// The terms that arguments and indices are chosen from, on a sheet that holds nothing else yet.
struct Base {
    writer: Writer,
    /// Sorts: all.
    sorts: Vec<u16>,
    /// Variables, one of each sort.
    arguments: Vec<u16>,
    /// The first few variables.
    few: Vec<u16>,
    /// Integer constants and others.
    indices: Vec<u16>,
}

/// The base.
fn base() -> Base {
    let mut writer = Writer::default();
    let w = &mut writer;
    let plain = [3, 4, 5, 6, 7].map(|kind| w.plain(kind));
    let (boolean, int, real) = (plain[0], plain[1], plain[2]);
    let eight = w.vector(8);
    let array = w.parts(8, &[int, real]);
    let mut sorts = [plain.as_slice(), &[eight, array]].concat();
    let nine = w.vector(9);
    let unknown = w.plain(10);
    let none = w.vector(0);
    let n1 = w.variable(1);
    let unit = w.parts(15, &[]);
    let pair = w.parts(15, &[int, real]);
    let relations = [unit, pair, int].map(|part| w.parts(14, &[part]));
    let function = w.parts(0, &[int, boolean]);
    let par = w.par(function, &[1]);
    let atom = w.sort(Fields { kind: 1, name: Some(5), list: Some(&[int]), ..Fields::default() });
    let datatype = w.sort(Fields { kind: 11, name: Some(5), list: Some(&[]), ..Fields::default() });
    let sort_of_sorts = w.plain(13);
    sorts.extend([nine, unknown, none, n1, pair]);
    sorts.extend(relations);
    sorts.extend([function, par, atom, datatype, sort_of_sorts]);
    let arguments: Vec<u16> = sorts.iter().map(|&sort| w.var(sort)).collect();
    let few = arguments[..7].to_vec();
    let numbers = [0, 1, 3, 7, 8, 9, 65_527, 65_528, 65_535, 65_536, u32::MAX];
    let mut indices: Vec<u16> = numbers.iter().map(|&number| w.integer(number)).collect();
    indices.push(w.term(Fields { kind: 1, ..Fields::default() }));
    indices.extend([arguments[1], arguments[7]]);
    Base { writer, sorts, arguments, few, indices }
}

/// All lists of this length with entries from a list.
fn lists(entries: &[u16], length: usize) -> Vec<Vec<u16>> {
    (0..length).fold(vec![Vec::new()], |lists, _| {
        lists.iter().flat_map(|list| entries.iter().map(move |entry| [list.as_slice(), &[*entry]].concat())).collect()
    })
}

/// All lists of up to this length.
fn up_to(entries: &[u16], length: usize) -> Vec<Vec<u16>> {
    (0..=length).flat_map(|length| lists(entries, length)).collect()
}

/// A sheet of relations: tuples of several lengths, among them some whose product or join passes the longest list.
fn relations() -> Vec<u8> {
    let mut w = Writer::default();
    let columns = [3, 4, 5, 6, 7].map(|kind| w.plain(kind));
    let mut terms = Vec::new();
    for (start, length) in [0, 1, 2, 3, 5, 32, 33, 63, 64].into_iter().enumerate() {
        let list: Vec<u16> = (start..start + length).map(|at| columns[at % 5]).collect();
        let tuple = w.parts(15, &list);
        let relation = w.parts(14, &[tuple]);
        terms.extend([w.var(tuple), w.var(relation)]);
    }
    // The last of the operators on sets are those on relations; one sheet has room for twelve of them or so.
    'full: for number in (118..=134).rev() {
        for list in up_to(&terms, 2) {
            if w.terms.len() == 4_096 {
                break 'full;
            }
            w.term(Fields { kind: 7, number: Some(number), list: Some(&list), ..Fields::default() });
        }
    }
    w.bytes()
}

/// A sheet of Int and Real beside each other: in long lists of the operators that take both, and below every operator of logic and arithmetic.
fn numbers() -> Vec<u8> {
    let mut w = Writer::default();
    let [bool, int, real] = [Kind::Bool, Kind::Int, Kind::Real].map(|kind| w.plain(kind as u8));
    let n1 = w.variable(1);
    let function = w.parts(Kind::Function as u8, &[int, real]);
    let par = w.par(function, &[1]);
    let values = [int, real, bool, n1, par].map(|sort| w.var(sort));
    let [int, real, bool, _, par] = values;
    let mut add = |operator: u32, list: &[u16]| {
        w.term(Fields { kind: 7, number: Some(operator), list: Some(list), ..Fields::default() })
    };
    for operator in MIXING.map(|operator| operator as u32) {
        for list in [lists(&values, 3), lists(&values[..3], 4), lists(&values[..2], 5)].concat() {
            add(operator, &list);
        }
        // The longest list, all of one sort but for its first, a middle or its last argument.
        for (most, other) in [(int, real), (real, int), (int, bool), (real, par)] {
            for place in [0, 31, 63] {
                let mut list = [most; 64];
                list[place] = other;
                add(operator, &list);
            }
        }
    }
    let sums = [(Operator::Add, [int, real]), (Operator::RealDiv, [int, int]), (Operator::LessThan, [real, int])];
    let sums = sums.map(|(operator, list)| add(operator as u32, &list));
    let below = [&values[..3], &sums].concat();
    for operator in Operator::True as u32..=Operator::IsInt as u32 {
        for list in up_to(&below, 2) {
            add(operator, &list);
        }
    }
    for list in lists(&below, 3) {
        add(Operator::Ite as u32, &list);
    }
    w.bytes()
}

/// A sheet of the operators on sets and relations at up to two arguments: elements, a Par, sets, sets of sets, tuples, relations of up to three
/// columns.
fn sets() -> Vec<u8> {
    let mut w = Writer::default();
    let [bool, int] = [Kind::Bool, Kind::Int].map(|kind| w.plain(kind as u8));
    let n1 = w.variable(1);
    let function = w.parts(Kind::Function as u8, &[n1, bool]);
    let par = w.par(function, &[1]);
    let tuples = [vec![], vec![int], vec![int, int], vec![int, bool], vec![bool, n1, bool]];
    let tuples = tuples.map(|columns| w.parts(Kind::Tuple as u8, &columns));
    let elements = [int, n1].into_iter().chain(tuples).collect::<Vec<u16>>();
    let sets: Vec<u16> = elements.iter().map(|element| w.parts(Kind::Set as u8, &[*element])).collect();
    let set_of_sets = w.parts(Kind::Set as u8, &sets[..1]);
    let sorts = [[int, n1, par, tuples[1], function].as_slice(), &sets, &[set_of_sets]].concat();
    let values: Vec<u16> = sorts.iter().map(|sort| w.var(*sort)).collect();
    for operator in SETS {
        for list in up_to(&values, 2) {
            w.term(Fields { kind: 7, number: Some(operator as u32), list: Some(&list), ..Fields::default() });
        }
    }
    for number in 1..=2 {
        for sort in 0..u16::try_from(w.sorts.len()).expect("few") {
            for list in up_to(&values[..2], 1) {
                w.term(Fields {
                    kind: 12,
                    number: Some(number),
                    sort: Some(sort),
                    list: Some(&list),
                    ..Fields::default()
                });
            }
        }
    }
    w.bytes()
}

/// A sheet of sets and relations in long lists and at the limits: many elements put into a set, long tuples, relations that are as wide as they may
/// be or have trees of the greatest size.
fn wide_sets() -> Vec<u8> {
    let mut w = Writer::default();
    let [bool, int] = [Kind::Bool, Kind::Int].map(|kind| w.plain(kind as u8));
    let n1 = w.variable(1);
    let function = w.parts(Kind::Function as u8, &[n1, bool]);
    let par = w.par(function, &[1]);
    let set = w.parts(Kind::Set as u8, &[int]);
    let mut tree = int;
    for _ in 0..10 {
        tree = w.parts(Kind::Array as u8, &[tree, tree]);
    }
    // Relations by their columns: of Int, and of trees of 2,047.
    let mut relation = |columns: &[u16]| {
        let tuple = w.parts(Kind::Tuple as u8, columns);
        w.parts(Kind::Set as u8, &[tuple])
    };
    let wide = [0, 1, 2, 31, 32, 33, 34, 62, 63, 64].map(|count| relation(&vec![int; count]));
    let great = [vec![tree], vec![int, tree], vec![tree, int], vec![tree, tree]].map(|columns| relation(&columns));
    let relations: Vec<u16> = wide.into_iter().chain(great).map(|sort| w.var(sort)).collect();
    let values = [int, set, bool, par].map(|sort| w.var(sort));
    for operator in [Operator::SetInsert, Operator::Tuple] {
        for list in lists(&values, 3).into_iter().chain(long_lists(values)) {
            w.term(Fields { kind: 7, number: Some(operator as u32), list: Some(&list), ..Fields::default() });
        }
    }
    for operator in SETS {
        let most = if operator >= Operator::RelTranspose { 2 } else { 1 };
        for list in up_to(&relations, most) {
            w.term(Fields { kind: 7, number: Some(operator as u32), list: Some(&list), ..Fields::default() });
        }
    }
    w.bytes()
}

/// The longest list of an Int and last of a set, and the same with another of these first, in the middle, or at one of the last two places.
fn long_lists(values: [u16; 4]) -> Vec<Vec<u16>> {
    let [int, set, ..] = values;
    let most = [[int; 63].as_slice(), &[set]].concat();
    let mut all = vec![most.clone()];
    for place in [0, 31, 62, 63] {
        for other in values {
            let mut list = most.clone();
            list[place] = other;
            all.push(list);
        }
    }
    all
}

/// A sheet at the limits of trees, lists and widths.
fn limits() -> Vec<u8> {
    let mut w = Writer::default();
    let int = w.plain(4);
    let mut trees = vec![int];
    for _ in 0..11 {
        let last = trees[trees.len() - 1];
        trees.push(w.parts(8, &[last, last]));
    }
    // Of 4,096 nodes; the last Array has 4,095.
    let greatest = w.parts(14, &[trees[11]]);
    trees.push(greatest);
    let n1 = w.variable(1);
    let results = [w.parts(14, &[n1]), w.parts(8, &[n1, n1]), w.parts(15, &[n1, int])];
    let functions = results.map(|result| w.parts(0, &[n1, result]));
    let heads = functions.map(|function| w.par(function, &[1]));
    let curried = w.parts(0, &[n1, n1, results[0]]);
    let curried = w.par(curried, &[1]);
    let wide = [0, 1, 2, 32_767, 32_768, 65_534, 65_535].map(|width| w.vector(width));
    let long = w.parts(0, &[int; 64]);
    let values: Vec<u16> = [0, 1, 9, 10, 11, 12].iter().map(|&at| w.var(trees[at])).collect();
    for list in up_to(&values, 2) {
        for number in [123, 129, 9, 115] {
            w.term(Fields { kind: 7, number: Some(number), list: Some(&list), ..Fields::default() });
        }
    }
    for head in [heads.as_slice(), &[curried]].concat() {
        let head = w.var(head);
        for list in up_to(&values, 2) {
            let entries = [&[head], list.as_slice()].concat();
            w.term(Fields { kind: 6, list: Some(&entries), ..Fields::default() });
        }
    }
    for (at, &body) in values.iter().enumerate() {
        for count in [0, 1, 2, 62, 63, 64] {
            let pairs = vec![(1, trees[at]); count];
            w.term(Fields { kind: 8, number: Some(3), list: Some(&[body]), pairs: Some(&pairs), ..Fields::default() });
        }
    }
    let long = w.var(long);
    for count in [0, 1, 61, 62, 63] {
        let entries = [vec![long], vec![values[0]; count]].concat();
        w.term(Fields { kind: 6, list: Some(&entries), ..Fields::default() });
    }
    let vectors = wide.map(|sort| w.var(sort));
    for list in up_to(&vectors, 3) {
        w.term(Fields { kind: 7, number: Some(90), list: Some(&list), ..Fields::default() });
    }
    for &tree in &trees {
        for &result in &results {
            w.question(Fields { kind: 2, list: Some(&[result, tree]), second: Some(&[1]), ..Fields::default() });
            let list = [n1, tree, result];
            w.question(Fields { kind: 1, list: Some(&list), second: Some(&[1]), ..Fields::default() });
        }
        for &other in &trees {
            w.question(Fields { kind: 0, list: Some(&[tree, other]), ..Fields::default() });
        }
    }
    w.bytes()
}

/// A sheet of questions to match: each of some patterns at each of some targets, with each of some sorts given for neither, either or both of
/// its parameters.
fn continued() -> Vec<u8> {
    let mut w = Writer::default();
    let [bool, int] = [Kind::Bool, Kind::Int].map(|kind| w.plain(kind as u8));
    let [n1, n2] = [1, 2].map(|name| w.variable(name));
    let [pair, other] = [[n1, n2], [int, bool]].map(|list| w.parts(Kind::Array as u8, &list));
    let set = w.parts(Kind::Set as u8, &[n1]);
    let function = w.parts(Kind::Function as u8, &[n1, n2]);
    let result = w.par(function, &[1, 2]);
    let unknown = w.plain(Kind::ParamBitVec as u8);
    let none: Vec<(u16, u16)> = Vec::new();
    let of_first = [int, bool, n1, n2, set, result, unknown].map(|sort| vec![(1, sort)]);
    let of_second = [int, bool, n1].map(|sort| vec![(2, sort)]);
    let of_both = [[int, int], [int, bool], [bool, int], [n2, int]].map(|[one, two]| vec![(2, two), (1, one)]);
    let given: Vec<_> = [none].into_iter().chain(of_first).chain(of_second).chain(of_both).collect();
    for pattern in [int, n1, pair, set, n2] {
        for target in [int, bool, other, n2, pair] {
            for names in [[1].as_slice(), &[1, 2]] {
                let stand = given.iter().filter(|pairs| pairs.iter().all(|(name, _)| names.contains(name)));
                for pairs in stand {
                    let list = [pattern, target, result];
                    let (list, pairs, second) = (Some(list.as_slice()), Some(pairs.as_slice()), Some(names));
                    w.question(Fields { kind: 3, list, pairs, second, ..Fields::default() });
                }
            }
        }
    }
    w.bytes()
}

/// Gives a function all sheets of the sweep, one after the other.
pub fn sheets(give: &mut dyn FnMut(&[u8])) {
    give(&relations());
    give(&limits());
    give(&numbers());
    give(&sets());
    give(&wide_sets());
    let base = base();
    let mut writer = base.writer.clone();
    let start = writer.terms.len();
    let mut add = |fields: Fields| {
        if writer.terms.len() == 4_096 || writer.len() + fields.record().len() > 65_536 {
            give(&writer.bytes());
            writer.terms.truncate(start);
        }
        writer.term(fields);
    };
    let two = up_to(&base.arguments, 2);
    let three = lists(&base.few, 3);
    for number in 0..=134 {
        for list in two.iter().chain(&three) {
            add(Fields { kind: 7, number: Some(number), list: Some(list), ..Fields::default() });
        }
    }
    let indices = up_to(&base.indices, 2);
    let one = up_to(&base.arguments, 1);
    for number in 0..=11 {
        for second in &indices {
            for list in &one {
                let (number, list, second) = (Some(number), Some(list.as_slice()), Some(second.as_slice()));
                add(Fields { kind: 11, number, list, second, ..Fields::default() });
            }
        }
        let (list, second) = (&base.few[..2], &base.indices[1..2]);
        add(Fields { kind: 11, number: Some(number), list: Some(list), second: Some(second), ..Fields::default() });
    }
    for number in 0..=2 {
        for &sort in &base.sorts {
            for list in &one {
                let (number, sort) = (Some(number), Some(sort));
                add(Fields { kind: 12, number, sort, list: Some(list), ..Fields::default() });
            }
        }
    }
    for number in 0..=3 {
        for sorts in up_to(&base.sorts, 2) {
            let pairs: Vec<(u16, u16)> = sorts.iter().map(|&sort| (1, sort)).collect();
            for body in &base.arguments {
                let (number, list) = (Some(number), [*body]);
                add(Fields { kind: 8, number, list: Some(&list), pairs: Some(&pairs), ..Fields::default() });
            }
        }
    }
    for list in &two[1..] {
        let names = vec![1; list.len() - 1];
        add(Fields { kind: 6, list: Some(list), ..Fields::default() });
        add(Fields { kind: 9, list: Some(list), second: Some(&names), ..Fields::default() });
        add(Fields { kind: 10, list: Some(list), ..Fields::default() });
    }
    give(&writer.bytes());
    give(&continued());
}
