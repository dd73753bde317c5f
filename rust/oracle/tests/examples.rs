//! The specification's examples K1 to K12 as far as they are the Rust's, the order of the operators, and what panics leave behind.

use oracle::ask::over_unsorted;
use oracle::ast::lists::{BINDERS, INDEXED, OPERATORS, QUALIFIED};
use oracle::ast::{Binder, Operator, ParamOperator, Pool, QualifiedOperator, Sort};
use oracle::text;
use rapidhash::{HashMapExt, RapidHashMap};

/// Little-endian bytes of shorts.
fn shorts(numbers: &[u16]) -> Vec<u8> {
    numbers.iter().flat_map(|n| n.to_le_bytes()).collect()
}

/// A list field.
fn list(numbers: &[u16]) -> Vec<u8> {
    let mut bytes = vec![u8::try_from(numbers.len()).expect("a short list")];
    bytes.extend(shorts(numbers));
    bytes
}

/// A sort without fields.
fn plain(kind: u8) -> Vec<u8> {
    vec![1, kind]
}

/// A sort of parts.
fn parts(kind: u8, numbers: &[u16]) -> Vec<u8> {
    [vec![17, kind], list(numbers)].concat()
}

/// A sort variable.
fn variable(name: u16) -> Vec<u8> {
    [vec![3, 2], shorts(&[name])].concat()
}

/// A parametric sort.
fn par(part: u16, names: &[u16]) -> Vec<u8> {
    [vec![81, 12], list(&[part]), list(names)].concat()
}

/// A term that is a variable n9 of this sort.
fn var(sort: u16) -> Vec<u8> {
    [vec![11, 5], shorts(&[9, sort])].concat()
}

/// A term that is a constant with a number.
fn constant(kind: u8, number: u32) -> Vec<u8> {
    [vec![5, kind], number.to_le_bytes().to_vec()].concat()
}

/// A term with an operator.
fn op(number: u32, arguments: &[u16]) -> Vec<u8> {
    [vec![21, 7], number.to_le_bytes().to_vec(), list(arguments)].concat()
}

/// A term that applies its first entry to the others.
fn app(entries: &[u16]) -> Vec<u8> {
    [vec![17, 6], list(entries)].concat()
}

/// The lines for a sheet of these records.
fn lines(sorts: &[Vec<u8>], terms: &[Vec<u8>], questions: &[Vec<u8>]) -> Vec<String> {
    let counts = [sorts, terms, questions].map(|part| u16::try_from(part.len()).expect("few records"));
    let sheet = [shorts(&counts), sorts.concat(), terms.concat(), questions.concat()].concat();
    oracle::on_stack(|| oracle::lines(&sheet)).expect("a well-formed sheet")
}

#[test]
fn numbers_count_in_the_order_of_the_enums() {
    assert_eq!((OPERATORS.len(), BINDERS.len(), QUALIFIED.len()), (135, 4, 3));
    assert_eq!(INDEXED[12..], [ParamOperator::Tester, ParamOperator::TupleSelect]);
    for (number, operator) in [
        (0, Operator::True),
        (24, Operator::Pow2),
        (41, Operator::Arccot),
        (54, Operator::IndexOfRe),
        (78, Operator::ReFromAutomaton),
        (90, Operator::BvConcat),
        (112, Operator::BvConst),
        (134, Operator::RelProduct),
    ] {
        assert_eq!(OPERATORS[number], operator);
    }
    assert_eq!(BINDERS[3], Binder::Lambda);
    assert_eq!(QUALIFIED[2], QualifiedOperator::SetUniverse);
}

#[test]
fn k1_to_k5() {
    let k1 = [0x01, 0, 0x02, 0, 0x01, 0, 0x01, 0x04, 0x05, 0, 0x07, 0, 0, 0];
    let k1 = [k1.as_slice(), &[0x15, 0x07, 0x0a, 0, 0, 0, 0x02, 0, 0, 0, 0], &[0x11, 0, 0x02, 0, 0, 0, 0]].concat();
    assert_eq!(oracle::lines(&k1).unwrap(), ["T0 Int", "T1 Int", "Q0 yes"]);
    let terms = [op(83, &[]), op(90, &[]), constant(4, 8), constant(0, 7), op(83, &[2, 3]), op(115, &[])];
    let expected = ["T0 (_ BitVec ?)", "T1 (_ BitVec 0)", "T2 (_ BitVec 8)", "T3 Int", "T4 (_ BitVec 8)", "T5 '?"];
    assert_eq!(lines(&[], &terms, &[]), expected);
}

#[test]
fn k6_to_k9() {
    let sorts = [
        plain(4),
        plain(5),
        plain(3),
        parts(0, &[0, 1, 2]),
        variable(1),
        variable(2),
        parts(14, &[4]),
        parts(0, &[4, 4, 6]),
        par(7, &[1]),
        parts(0, &[4, 5]),
        par(9, &[1, 2]),
    ];
    let terms = [
        constant(0, 7),
        vec![1, 1],
        var(3),
        app(&[2, 0]),
        app(&[2, 0, 0, 0]),
        app(&[2, 0, 0, 0, 0]),
        var(8),
        app(&[6, 0, 1]),
        var(10),
        app(&[8, 0]),
    ];
    let lines = lines(&sorts, &terms, &[]);
    assert_eq!(lines[3..6], ["T3 (-> Real Bool)", "T4 (->)", "T5 !21"]);
    assert_eq!(lines[6..8], ["T6 (par (n1) (-> 'n1 'n1 (Set 'n1)))", "T7 !21"]);
    assert_eq!(lines[8..], ["T8 (par (n1 n2) (-> 'n1 'n2))", "T9 'n2"]);
}

#[test]
fn k10_to_k12() {
    let sorts = [
        plain(4),
        plain(5),
        parts(15, &[]),
        parts(14, &[2]),
        parts(15, &[0, 1]),
        parts(14, &[4]),
        variable(1),
        variable(2),
        parts(0, &[6, 7]),
        par(8, &[1, 2]),
    ];
    let terms = [var(3), var(5), op(133, &[0, 1]), constant(4, 65_535), constant(4, 1), op(90, &[3, 4])];
    let question = [vec![81, 2], list(&[9, 0]), list(&[1])].concat();
    let lines = lines(&sorts, &terms, &[question]);
    assert_eq!(lines[2], "T2 (Set (Tuple Real))");
    assert_eq!(lines[5..], ["T5 !22", "Q0 (par (n2) (-> Int 'n2))"]);
}

/// What carcara's match says from a map that has n1 already, within the premise of question 3 and outside it.
#[test]
fn matching_goes_on_from_a_map() {
    let (n1, n2) = ("n1".to_owned(), Sort::Var("n2".to_owned()));
    let mut pool = Pool::new();
    let mut fits = |given: Sort, target: Sort| {
        let mut map = RapidHashMap::new();
        map.insert(n1.clone(), pool.add_sort(given));
        Sort::Var(n1.clone()).match_with(std::slice::from_ref(&n1), &pool.add_sort(target), &mut map)
    };
    assert!(fits(Sort::Int, Sort::Int) && !fits(Sort::Bool, Sort::Int));
    assert!(fits(n2.clone(), n2.clone()) && !fits(n2, Sort::Int));
    // Outside the premise: a width that is not known is taken for any. On a sheet that is 28.
    assert!(fits(Sort::ParamBitVec, Sort::BitVec(8)) && !fits(Sort::BitVec(9), Sort::BitVec(8)));
    // The given name is replaced in the result, whether the pattern has it or not.
    let sorts = [plain(4), plain(3), variable(1), par(2, &[1, 2])];
    let ask = |list_: [u16; 3]| [vec![113, 3], list(&list_), vec![1], shorts(&[1, 1]), list(&[1])].concat();
    let questions = [ask([0, 0, 2]), ask([0, 0, 3]), ask([2, 0, 2]), ask([2, 1, 2]), ask([2, 2, 2])];
    assert_eq!(lines(&sorts, &[], &questions), ["Q0 Bool", "Q1 (par (n2) Bool)", "Q2 !29", "Q3 Bool", "Q4 !28"]);
}

#[test]
fn a_panic_refuses_its_own_row_and_those_above() {
    let terms = [op(42, &[]), op(42, &[]), op(2, &[0]), op(16, &[2]), op(0, &[])];
    assert_eq!(lines(&[], &terms, &[]), ["T0 !21", "T1 !21", "T2 !20", "T3 !20", "T4 Bool"]);
}

#[test]
fn an_argument_without_a_sort() {
    assert_eq!(text::row(&over_unsorted(Operator::Not)), "Bool");
    assert_eq!(text::row(&over_unsorted(Operator::Abs)), "!21");
}
