//! Other sheets: small ones, deep and wide sorts, questions, and what is worst for the library.

use crate::families::{FAMILIES, Make};
use napsilo::{Binder, Name, Operator, QuestionRecord, SortId, SortRecord, TermId, TermRecord};

/// The seed of these sheets.
const SEED: u64 = 5;

/// The parameter of the parametric heads.
const PARAMETER: Name = Name::new(1);

/// Sheets of eight terms, of all families in turn.
pub fn small(count: u64) -> Vec<Vec<u8>> {
    let families = FAMILIES.iter().cycle();
    (0..count).zip(families).map(|(seed, (_, family))| family(8, seed)).collect()
}

/// Adds small sorts of several kinds: leaves, arrays and tuples of them, and Pars over these.
fn small_sorts(make: &mut Make) -> Vec<SortId> {
    let leaves: Vec<SortId> = (1..=6).map(|width| make.sort(SortRecord::BitVec(width))).collect();
    let mut all = leaves.clone();
    for leaf in leaves {
        let array = make.sort(SortRecord::Array(leaf, all[0]));
        let tuple = make.sort(SortRecord::Tuple(&[leaf, array]));
        all.extend([array, tuple, make.sort(SortRecord::Par(&[PARAMETER, Name::new(2)], tuple))]);
    }
    all
}

/// Sorts alone: tuples of 64 small sorts, whose sizes the library sums for each.
pub fn wide_sorts() -> Vec<u8> {
    let mut make = Make::new(0, SEED);
    let small = small_sorts(&mut make);
    for _ in 0..480 {
        let parts: Vec<SortId> = (0..64).map(|_| *make.random.of(&small)).collect();
        make.sort(SortRecord::Tuple(&parts));
    }
    make.sheet.finish().into_bytes()
}

/// Lambdas of 63 bindings, of which each has a function sort of 64 parts that is new in the store.
pub fn wide_lambdas() -> Vec<u8> {
    let mut make = Make::new(0, SEED);
    let sorts: Vec<SortId> = (1..=16).map(|width| make.sort(SortRecord::BitVec(width))).collect();
    let body = make.var(sorts[0]);
    for _ in 0..240 {
        let bindings: Vec<(Name, SortId)> = (1..64).map(|name| (Name::new(name), *make.random.of(&sorts))).collect();
        make.term(TermRecord::Binder(Binder::Lambda, &bindings, body));
    }
    make.sheet.finish().into_bytes()
}

/// A chain of singletons: the sort of the last term is nested so deeply.
pub fn deep(levels: usize) -> Vec<u8> {
    let mut make = Make::new(levels + 1, SEED);
    let int = make.sort(SortRecord::Int);
    let mut last = make.var(int);
    for _ in 0..levels {
        last = make.term(TermRecord::Op(Operator::SetSingleton, &[last]));
    }
    make.sheet.finish().into_bytes()
}

/// Applications with the longest lists: a head and 63 arguments.
pub fn wide() -> Vec<u8> {
    let mut make = Make::new(0, SEED);
    let int = make.sort(SortRecord::Int);
    let function = make.sort(SortRecord::Function(&[int; 64]));
    let head = make.var(function);
    let mut terms: Vec<TermId> = (0..64).map(|_| make.var(int)).collect();
    for _ in 0..480 {
        let arguments: Vec<TermId> = (0..63).map(|_| *make.random.of(&terms)).collect();
        terms.push(make.term(TermRecord::App(head, &arguments)));
    }
    make.sheet.finish().into_bytes()
}

/// Small leaves of 16 sorts, a variable of each.
fn of_widths(make: &mut Make) -> Vec<(SortId, TermId)> {
    let sorts: Vec<SortId> = (1..=16).map(|width| make.sort(SortRecord::BitVec(width))).collect();
    sorts.into_iter().map(|sort| (sort, make.var(sort))).collect()
}

/// Tuples of 64 arguments, of which each has a sort of 64 parts that is new in the store.
pub fn wide_tuples() -> Vec<u8> {
    let mut make = Make::new(0, SEED);
    let leaves = of_widths(&mut make);
    for _ in 0..240 {
        let arguments: Vec<TermId> = (0..64).map(|_| make.random.of(&leaves).1).collect();
        make.term(TermRecord::Op(Operator::Tuple, &arguments));
    }
    make.sheet.finish().into_bytes()
}

/// Sets that get 63 elements each.
pub fn wide_inserts() -> Vec<u8> {
    let mut make = Make::new(0, SEED);
    let int = make.sort(SortRecord::Int);
    let set = make.sort(SortRecord::Set(int));
    let elements: Vec<TermId> = (0..64).map(|_| make.var(int)).collect();
    let mut last = make.var(set);
    for _ in 0..480 {
        let mut arguments: Vec<TermId> = (0..63).map(|_| *make.random.of(&elements)).collect();
        arguments.push(last);
        last = make.term(TermRecord::Op(Operator::SetInsert, &arguments));
    }
    make.sheet.finish().into_bytes()
}

/// So many tuples of so many arguments, all Int but the last, which is Int and Real in turn: each of them has the operator and the first
/// argument of the one before it, and another sort, so that what was found last is never what is found next.
pub fn tuples_in_turn(count: usize, arguments: usize) -> Vec<u8> {
    let mut make = Make::new(0, SEED);
    let sorts = [SortRecord::Int, SortRecord::Real].map(|sort| make.sort(sort));
    let last = sorts.map(|sort| make.var(sort));
    for i in 0..count {
        let mut list = vec![last[0]; arguments];
        list[arguments - 1] = last[i % 2];
        make.term(TermRecord::Op(Operator::Tuple, &list));
    }
    make.sheet.finish().into_bytes()
}

/// So many variables of relations with so many columns each, of which the first and the last have one sort, and no two are alike.
fn relations(make: &mut Make, count: usize, columns: usize) -> Vec<TermId> {
    let leaves = of_widths(make);
    let mut relations = Vec::new();
    for _ in 0..count {
        let mut sorts: Vec<SortId> = (0..columns).map(|_| make.random.of(&leaves).0).collect();
        (sorts[0], sorts[columns - 1]) = (leaves[0].0, leaves[0].0);
        let tuple = make.sort(SortRecord::Tuple(&sorts));
        let relation = make.sort(SortRecord::Set(tuple));
        relations.push(make.var(relation));
    }
    relations
}

/// An operator on relations at each two of 20 relations with so many columns, whose answer has 64, new in the store.
pub fn wide_pairs(operator: Operator, columns: usize) -> Vec<u8> {
    let mut make = Make::new(0, SEED);
    let relations = relations(&mut make, 20, columns);
    for left in &relations {
        for right in &relations {
            make.term(TermRecord::Op(operator, &[*left, *right]));
        }
    }
    make.sheet.finish().into_bytes()
}

/// Relations of 64 columns turned round, each of which gives a sort that is new in the store.
pub fn wide_transposes() -> Vec<u8> {
    let mut make = Make::new(0, SEED);
    for relation in relations(&mut make, 200, 64) {
        make.term(TermRecord::Op(Operator::RelTranspose, &[relation]));
    }
    make.sheet.finish().into_bytes()
}

/// The same two relations of 33 columns joined 4,000 times: the answer's 64 columns are in the store.
pub fn joined_again() -> Vec<u8> {
    let mut make = Make::new(0, SEED);
    let relations = relations(&mut make, 2, 33);
    for _ in 0..4_000 {
        make.term(TermRecord::Op(Operator::RelJoin, &relations));
    }
    make.sheet.finish().into_bytes()
}

/// A tree of arrays of this height over a leaf.
fn arrays(make: &mut Make, leaf: SortId, height: usize) -> SortId {
    (0..height).fold(leaf, |part, _| make.sort(SortRecord::Array(part, part)))
}

/// What is asked.
#[derive(Debug, Clone, Copy, PartialEq, Eq)]
pub enum Asked {
    /// Compatibility.
    Compatible,
    /// Matching.
    Match,
    /// Substitution.
    Apply,
    /// Matching with sorts given for the first so many names.
    Continue(usize),
    /// The same with another sort given for both, so that there is no assignment.
    Refused,
}

/// 1,024 questions of a kind about trees of 95 nodes over two names and what they become by some images.
pub fn questions(asked: Asked) -> Vec<u8> {
    let mut make = Make::new(0, SEED);
    let names = [PARAMETER, Name::new(2)];
    let variables = names.map(|name| make.sort(SortRecord::Var(name)));
    let images: Vec<SortId> = (1..=4).map(|width| make.sort(SortRecord::BitVec(width))).collect();
    // A tree has its own mark, and is of arrays over the first and over the second leaf.
    let tree = |make: &mut Make, mark: u16, leaves: [SortId; 2]| {
        let parts = leaves.map(|leaf| arrays(make, leaf, 4));
        let marked = make.sort(SortRecord::Atom(Name::new(mark), &[parts[0], parts[1], parts[0]]));
        make.sort(SortRecord::Set(marked))
    };
    let mut patterns = Vec::new();
    for mark in 10..18 {
        let pattern = tree(&mut make, mark, variables);
        let mut targets = Vec::new();
        for one in &images {
            for two in &images[..2] {
                targets.push((tree(&mut make, mark, [*one, *two]), [*one, *two]));
            }
        }
        patterns.push((pattern, targets));
    }
    for _ in 0..1_024 {
        let (pattern, targets) = make.random.of(&patterns).clone();
        let (target, found) = *make.random.of(&targets);
        let (result, _) = make.random.of(&patterns).clone();
        let map = names.map(|name| (name, *make.random.of(&images)));
        let given = [(names[0], found[0]), (names[1], found[1])];
        let other = names.map(|name| (name, target));
        let question = match asked {
            Asked::Compatible => QuestionRecord::Compatible(pattern, target),
            Asked::Match => QuestionRecord::Match { pattern, target, result, names: &names },
            Asked::Apply => QuestionRecord::Apply { sort: pattern, map: &map },
            Asked::Continue(count) => {
                QuestionRecord::Continue { pattern, target, result, given: &given[..count], names: &names }
            }
            Asked::Refused => QuestionRecord::Continue { pattern, target, result, given: &other, names: &names },
        };
        make.sheet.add_question(question).expect("a question within the limits");
    }
    make.sheet.finish().into_bytes()
}

/// 150 questions to match a tuple of 64 parameters with one of 64 sorts, in which the first so many are given, and to replace in it.
pub fn many_given(count: usize) -> Vec<u8> {
    let mut make = Make::new(0, SEED);
    let names: Vec<Name> = (1..=64).map(Name::new).collect();
    let variables: Vec<SortId> = names.iter().map(|name| make.sort(SortRecord::Var(*name))).collect();
    let pattern = make.sort(SortRecord::Tuple(&variables));
    let leaves: Vec<SortId> = (1..=16).map(|width| make.sort(SortRecord::BitVec(width))).collect();
    let mut targets = Vec::new();
    for _ in 0..16 {
        let images: Vec<SortId> = names.iter().map(|_| *make.random.of(&leaves)).collect();
        targets.push((make.sort(SortRecord::Tuple(&images)), images));
    }
    for _ in 0..150 {
        let (target, images) = make.random.of(&targets).clone();
        let given: Vec<(Name, SortId)> = names.iter().copied().zip(images).take(count).collect();
        let question = QuestionRecord::Continue { pattern, target, result: pattern, given: &given, names: &names };
        make.sheet.add_question(question).expect("a question within the limits");
    }
    make.sheet.finish().into_bytes()
}

/// 140 questions in which 64 sorts are given for parameters that the pattern lacks, each of 4,096 nodes, nearly all of them in a part that all share.
pub fn great_given() -> Vec<u8> {
    let (mut make, variable, int) = begun();
    let names: Vec<Name> = (1..=64).map(Name::new).collect();
    let other = make.sort(SortRecord::Var(Name::new(200)));
    // The part below is the last one at every level: 63 levels of 64 nodes, and one of 61.
    let mut great = other;
    for leaves in [vec![63; 63], vec![60]].concat() {
        let mut parts = vec![other; leaves];
        parts.push(great);
        great = make.sort(SortRecord::Tuple(&parts));
    }
    let mut given = Vec::new();
    for (name, width) in names.iter().zip(1..) {
        let width = make.sort(SortRecord::BitVec(width));
        given.push((*name, make.sort(SortRecord::Array(width, great))));
    }
    for _ in 0..140 {
        let question =
            QuestionRecord::Continue { pattern: int, target: int, result: variable, given: &given, names: &names };
        make.sheet.add_question(question).expect("a question within the limits");
    }
    make.sheet.finish().into_bytes()
}

/// A tuple of some trees of 63 nodes over a leaf: 1 and 63 times so many nodes.
fn bundle(make: &mut Make, leaf: SortId, count: usize) -> SortId {
    let part = arrays(make, leaf, 5);
    make.sort(SortRecord::Tuple(&vec![part; count]))
}

/// 2,000 variables of a sort, each an argument of a parametric head whose parameter and result sorts are given.
fn applied(make: Make, parameter: SortId, result: SortId, argument: SortId) -> Vec<u8> {
    applied_to(2_000, make, parameter, result, argument)
}

/// The same with so many variables.
fn applied_to(count: usize, mut make: Make, parameter: SortId, result: SortId, argument: SortId) -> Vec<u8> {
    let function = make.sort(SortRecord::Function(&[parameter, result]));
    let sort = make.sort(SortRecord::Par(&[PARAMETER], function));
    let head = make.var(sort);
    for _ in 0..count {
        let argument = make.var(argument);
        make.term(TermRecord::App(head, &[argument]));
    }
    make.sheet.finish().into_bytes()
}

/// A sheet without a record, its parameter and Int.
fn begun() -> (Make, SortId, SortId) {
    let mut make = Make::new(0, SEED);
    let variable = make.sort(SortRecord::Var(PARAMETER));
    let int = make.sort(SortRecord::Int);
    (make, variable, int)
}

/// Parametric heads that match a tree of 4,033 nodes.
pub fn great_match() -> Vec<u8> {
    let (mut make, variable, int) = begun();
    let [pattern, target] = [variable, int].map(|leaf| bundle(&mut make, leaf, 64));
    let bool = make.sort(SortRecord::Bool);
    applied(make, pattern, bool, target)
}

/// Parametric heads whose result is a tree of 4,033 nodes over the parameter.
pub fn great_result() -> Vec<u8> {
    let (mut make, variable, int) = begun();
    let result = bundle(&mut make, variable, 64);
    applied(make, variable, result, int)
}

/// Parametric heads that match a tree of 2,017 nodes and give it.
pub fn great_both() -> Vec<u8> {
    let (mut make, variable, int) = begun();
    let [pattern, target] = [variable, int].map(|leaf| bundle(&mut make, leaf, 32));
    applied(make, pattern, pattern, target)
}

/// Parametric heads that match a tree of 1,953 nodes, no part of which stands twice but the parameter, and give it.
pub fn great_distinct() -> Vec<u8> {
    let (mut make, variable, int) = begun();
    let [pattern, target] = [variable, int].map(|leaf| {
        let tuples: Vec<SortId> = (0..32)
            .map(|row| {
                let atoms: Vec<SortId> = (0..30)
                    .map(|column| make.sort(SortRecord::Atom(Name::new(100 + 30 * row + column), &[leaf])))
                    .collect();
                make.sort(SortRecord::Tuple(&atoms))
            })
            .collect();
        make.sort(SortRecord::Tuple(&tuples))
    });
    applied(make, pattern, pattern, target)
}

/// Parametric heads that match a chain of 1,000 sets and give it.
pub fn great_chain() -> Vec<u8> {
    let (mut make, variable, int) = begun();
    let [pattern, target] =
        [variable, int].map(|leaf| (0..1_000).fold(leaf, |part, _| make.sort(SortRecord::Set(part))));
    applied(make, pattern, pattern, target)
}

/// 2,000 applications of four parametric heads to 500 arguments, no two alike, that match a chain of 500 sets and give it over what
/// the argument has below.
pub fn great_unlike() -> Vec<u8> {
    const LEVELS: usize = 500;
    let (mut make, variable, int) = begun();
    let chains: Vec<SortId> = (0..2 * LEVELS)
        .scan(int, |part, _| {
            *part = make.sort(SortRecord::Set(*part));
            Some(*part)
        })
        .collect();
    let pattern = (0..LEVELS).fold(variable, |part, _| make.sort(SortRecord::Set(part)));
    let function = make.sort(SortRecord::Function(&[pattern, pattern]));
    let names = [PARAMETER, Name::new(2), Name::new(3), Name::new(4)];
    let heads: Vec<TermId> = (1..=names.len())
        .map(|count| {
            let sort = make.sort(SortRecord::Par(&names[..count], function));
            make.var(sort)
        })
        .collect();
    let arguments: Vec<TermId> = chains[LEVELS..].iter().map(|sort| make.var(*sort)).collect();
    for head in heads {
        for argument in &arguments {
            make.term(TermRecord::App(head, &[*argument]));
        }
    }
    make.sheet.finish().into_bytes()
}

/// The bucket of the store's index in which a record stands: the low half of its hash decides.
fn bucket(record: &[u8]) -> u32 {
    let last = record.last().map_or(0, |byte| u32::from(*byte));
    let low = record.chunks_exact(2).fold(last, |low, pair| {
        let number = u32::from(u16::from_le_bytes([pair[0], pair[1]]));
        low.wrapping_add(number).wrapping_mul(1_640_531_527).rotate_left(17)
    });
    low % 1_024
}

/// The record of a declared sort over one other.
fn atom(name: u16, part: u16) -> [u8; 7] {
    let ([low, high], [part_low, part_high]) = (name.to_le_bytes(), part.to_le_bytes());
    [19, 1, low, high, 1, part_low, part_high]
}

/// Adds declared sorts over one that is there, all in a bucket, until there are so many sorts; `but` has this record already.
fn crowd(make: &mut Make, wanted: u32, but: Option<(u16, u16)>, sorts: usize) {
    let mut meeting = (0..64_u16)
        .flat_map(|part| (1..=u16::MAX).map(move |name| (name, part)))
        .filter(|found| bucket(&atom(found.0, found.1)) == wanted && Some(*found) != but);
    while make.sheet.sorts() < sorts {
        let (name, part) = meeting.next().expect("there are 4,096");
        let part = make.sheet.sort_at(usize::from(part)).expect("one of the first sorts");
        make.sort(SortRecord::Atom(Name::new(name), &[part]));
    }
}

/// Terms of sort Bool, before which so many other sorts stand in the bucket of Bool.
pub fn collisions(sorts: usize, terms: usize) -> Vec<u8> {
    let mut make = Make::new(terms, SEED);
    let bool = make.sort(SortRecord::Bool);
    crowd(&mut make, bucket(&[1, 3]), None, sorts + 1);
    let mut said = vec![make.var(bool)];
    while make.sheet.terms() < terms {
        let arguments = [*make.random.of(&said), *make.random.of(&said)];
        let operator = *make.random.of(&[Operator::And, Operator::Or, Operator::Xor, Operator::Implies]);
        said.push(make.term(TermRecord::Op(operator, &arguments)));
    }
    make.sheet.finish().into_bytes()
}

/// So many parametric heads' applications whose result is a tree of 4,033 nodes, 1,984 of them a sort before which 2,000 others stand in its
/// bucket.
pub fn great_collisions(count: usize) -> Vec<u8> {
    const MARK: u16 = 7;
    let mut make = Make::new(0, SEED);
    let int = make.sort(SortRecord::Int);
    make.sort(SortRecord::Atom(Name::new(MARK), &[int]));
    crowd(&mut make, bucket(&atom(MARK, int.number())), Some((MARK, int.number())), 2_002);
    let variable = make.sort(SortRecord::Var(PARAMETER));
    let marked = make.sort(SortRecord::Atom(Name::new(MARK), &[variable]));
    let tuple = make.sort(SortRecord::Tuple(&[marked; 31]));
    let result = make.sort(SortRecord::Tuple(&[tuple; 64]));
    applied_to(count, make, variable, result, int)
}
