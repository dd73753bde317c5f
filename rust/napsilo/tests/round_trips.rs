//! Sorts through the sheet, the library and back; their text; deep sorts, from a thread with a small stack.

mod common;

use common::{Random, n};
use napsilo::{
    Binder, Cause, LINE_BUFFER, Name, Names, Operator, ParamOperator, QualifiedOperator, QuestionRecord, Refusal,
    SheetWriter, Sort, SortRecord, TermRecord, WriteError, judge, print,
};
use std::collections::HashSet;
use std::sync::Arc;

/// A sort of each kind, with its text.
fn one_of_each() -> Vec<(Sort, &'static str)> {
    let int = Arc::new(Sort::Int);
    let var = Arc::new(Sort::Var(n(5)));
    let both = vec![int.clone(), var.clone()];
    vec![
        (Sort::Function(both.clone()), "(-> Int 'n5)"),
        (Sort::Function(vec![]), "(->)"),
        (Sort::Atom(n(5), vec![]), "n5"),
        (Sort::Atom(n(65_535), both.clone()), "(n65535 Int 'n5)"),
        (Sort::Atom(n(0), vec![int.clone()]), "(? Int)"),
        (Sort::Var(n(5)), "'n5"),
        (Sort::Var(n(0)), "'?"),
        (Sort::Bool, "Bool"),
        (Sort::Int, "Int"),
        (Sort::Real, "Real"),
        (Sort::String, "String"),
        (Sort::RegLan, "RegLan"),
        (Sort::Array(int.clone(), var.clone()), "(Array Int 'n5)"),
        (Sort::BitVec(0), "(_ BitVec 0)"),
        (Sort::BitVec(65_535), "(_ BitVec 65535)"),
        (Sort::ParamBitVec, "(_ BitVec ?)"),
        (Sort::Datatype { name: n(5), args: vec![] }, "[n5]"),
        (Sort::Datatype { name: n(10), args: both.clone() }, "[n10 Int 'n5]"),
        (Sort::Par(vec![n(1)], var.clone()), "(par (n1) 'n5)"),
        (Sort::Par(vec![n(0), n(2)], int.clone()), "(par (? n2) Int)"),
        (Sort::Type, "Type"),
        (Sort::Set(int), "(Set Int)"),
        (Sort::Tuple(vec![]), "(Tuple)"),
        (Sort::Tuple(both), "(Tuple Int 'n5)"),
    ]
}

/// A random sort of at most this depth.
fn random_sort(random: &mut Random, depth: usize) -> Sort {
    let name = n(u16::try_from(random.under(4)).unwrap());
    if depth == 0 || random.once_in(4) {
        let leaves = [Sort::Bool, Sort::Int, Sort::Real, Sort::String];
        return match random.under(8) {
            0 => Sort::Var(name),
            1 => Sort::BitVec(u32::try_from(random.under(9)).unwrap()),
            2 => Sort::ParamBitVec,
            3 => Sort::Type,
            4 => Sort::RegLan,
            at => leaves[at % 4].clone(),
        };
    }
    let mut part = || Arc::new(random_sort(random, depth - 1));
    let parts = [part(), part(), part()];
    let (one, two) = (part(), part());
    let some = parts[random.under(4).min(2)..].to_vec();
    match random.under(7) {
        0 => Sort::Function(some),
        1 => Sort::Atom(name, some),
        2 => Sort::Array(one, two),
        3 => Sort::Datatype { name, args: some },
        4 => Sort::Par(vec![name, n(9)], one),
        5 => Sort::Set(one),
        _ => Sort::Tuple(some),
    }
}

#[test]
fn every_kind_and_its_text() {
    let sorts = one_of_each();
    let kinds: HashSet<u8> = sorts.iter().map(|(sort, _)| sort.kind()).collect();
    assert_eq!(kinds.len(), 16);
    let mut sheet = SheetWriter::new();
    let mut terms = Vec::new();
    for (sort, text) in &sorts {
        assert_eq!(sort.to_string(), *text);
        assert_eq!(format!("{sort:?}"), *text);
        let id = sheet.sort(sort).unwrap();
        terms.push(sheet.add_term(TermRecord::Var(n(1), id)).unwrap());
    }
    let judged = judge(&sheet.finish()).unwrap();
    for (term, (sort, _)) in terms.into_iter().zip(&sorts) {
        assert_eq!(judged.inferred(term).unwrap().as_deref(), Ok(sort));
    }
    // Each is equal to itself alone.
    for (at, (one, _)) in sorts.iter().enumerate() {
        for (to, (two, _)) in sorts.iter().enumerate() {
            assert_eq!(one == two, at == to);
        }
    }
}

/// Whether a sort stands outside the premise of matching, whatever the parameters are.
fn outside(sort: &Sort) -> bool {
    matches!(sort, Sort::Par(..) | Sort::ParamBitVec) || sort.parts().any(|part| outside(part))
}

/// Sorts that are given as trees come back as they were, as rows and as answers.
#[test]
fn random_trees() {
    let mut random = Random::new(11);
    for _ in 0..100 {
        let sorts: Vec<Sort> = (0..8).map(|_| random_sort(&mut random, 4)).collect();
        let mut sheet = SheetWriter::new();
        let mut asked = Vec::new();
        // A name that none of them has.
        let own = n(8);
        let var = sheet.add_sort(SortRecord::Var(own)).unwrap();
        for sort in &sorts {
            let id = sheet.sort(sort).unwrap();
            let term = sheet.add_term(TermRecord::Var(n(1), id)).unwrap();
            let same = QuestionRecord::Apply { sort: id, map: &[] };
            let same = sheet.add_question(same).unwrap();
            let twice = QuestionRecord::Compatible(id, id);
            let twice = sheet.add_question(twice).unwrap();
            let given = &[(own, id)];
            let given = QuestionRecord::Continue { pattern: var, target: id, result: var, given, names: &[own] };
            asked.push((sort, term, same, twice, sheet.add_question(given).unwrap()));
        }
        let judged = judge(&sheet.finish()).unwrap();
        for (sort, term, same, twice, given) in asked {
            assert_eq!(judged.inferred(term).unwrap().as_deref(), Ok(sort));
            let answer = |question| judged.answer(question).unwrap().sort().unwrap().as_deref();
            assert_eq!(answer(same), Ok(sort));
            assert_eq!(judged.answer(twice).unwrap().yes_or_no(), Some(true));
            assert_eq!(answer(given), if outside(sort) { Err(&Cause::Barred) } else { Ok(sort) });
        }
        let distinct: HashSet<&Sort> = judged.store().iter().map(Arc::as_ref).collect();
        assert_eq!(distinct.len(), judged.store().len());
        for sort in judged.store() {
            assert!(sort.tree_size() >= 1 && sort.tree_size() <= 4_096);
        }
    }
}

/// The deepest sorts of a sheet and of an answer to a question.
#[test]
fn deep_sorts() {
    let mut sort = Sort::Var(n(1));
    for _ in 0..2_047 {
        sort = Sort::Set(Arc::new(sort));
    }
    assert_eq!(sort.tree_size(), 2_048);
    let mut sheet = SheetWriter::new();
    let deep = sheet.sort(&sort).unwrap();
    assert_eq!(sheet.sorts(), 2_048);
    let question = QuestionRecord::Apply { sort: deep, map: &[(n(1), deep)] };
    let applied = sheet.add_question(question).unwrap();
    let question = QuestionRecord::Compatible(deep, deep);
    let compatible = sheet.add_question(question).unwrap();
    let question = QuestionRecord::Match { pattern: deep, target: deep, result: deep, names: &[n(2)] };
    let matched = sheet.add_question(question).unwrap();
    let given = &[(n(2), deep)];
    let question = QuestionRecord::Continue { pattern: deep, target: deep, result: deep, given, names: &[n(2)] };
    let continued = sheet.add_question(question).unwrap();
    let term = sheet.add_term(TermRecord::Var(n(1), deep)).unwrap();
    let judged = judge(&sheet.finish()).unwrap();
    assert_eq!(judged.checked(term).unwrap().as_deref(), Ok(&sort));
    assert_eq!(judged.answer(compatible).unwrap().yes_or_no(), Some(true));
    for question in [matched, continued] {
        let answer = judged.answer(question).unwrap().sort().unwrap();
        assert_eq!(answer.as_deref(), Ok(&sort));
    }
    let answer = judged.answer(applied).unwrap().sort().unwrap().clone().unwrap();
    drop(judged);
    assert_eq!(answer.tree_size(), 4_095);
    assert_eq!(answer.to_string().len(), 4_094 * "(Set )".len() + 3);
    assert_ne!(*answer, sort);
    // One sort more than a sheet has.
    let mut other = SheetWriter::new();
    assert_eq!(other.sort(&answer), Err(WriteError::TooManySorts));
    assert_eq!(other.sorts(), 0);
}

/// The deepest sorts that the library goes through: a parametric head that is itself an answer, over 4,000 levels deep.
#[test]
fn deep_heads() {
    let (one, two) = (n(1), n(2));
    let var = |name| Arc::new(Sort::Var(name));
    let mut step = var(one);
    for _ in 0..40 {
        step = Arc::new(Sort::Set(step));
    }
    // deeper : (par (n1) (-> 'n1 (Set .. 'n1 ..)))
    // keep : (par (n1) (-> 'n1 (par (n2) (-> 'n2 'n1))))
    let deeper = Sort::Par(vec![one], Arc::new(Sort::Function(vec![var(one), step])));
    let inner = Sort::Par(vec![two], Arc::new(Sort::Function(vec![var(two), var(one)])));
    let keep = Sort::Par(vec![one], Arc::new(Sort::Function(vec![var(one), Arc::new(inner)])));
    let mut sheet = SheetWriter::new();
    let mut add = |sort: &Sort| {
        let sort = sheet.sort(sort).unwrap();
        sheet.add_term(TermRecord::Var(n(9), sort)).unwrap()
    };
    let (deeper, keep, mut term) = (add(&deeper), add(&keep), add(&Sort::Var(two)));
    let seven = sheet.add_term(TermRecord::Integer(7)).unwrap();
    for _ in 0..100 {
        term = sheet.add_term(TermRecord::App(deeper, &[term])).unwrap();
    }
    let head = sheet.add_term(TermRecord::App(keep, &[term])).unwrap();
    let last = sheet.add_term(TermRecord::App(head, &[seven])).unwrap();
    let judged = judge(&sheet.finish()).unwrap();
    assert_eq!(judged.checked(term).unwrap().as_ref().unwrap().tree_size(), 4_001);
    assert_eq!(judged.inferred(head).unwrap().as_ref().unwrap().tree_size(), 4_004);
    // The answer's 4,001 sorts do not fit beside those that are there.
    assert_eq!(*judged.inferred(last).unwrap(), Err(Cause::Full));
}

#[test]
fn a_tree_too_large() {
    let mut sheet = SheetWriter::new();
    let mut sort = sheet.add_sort(SortRecord::Int).unwrap();
    for _ in 0..11 {
        sort = sheet.add_sort(SortRecord::Array(sort, sort)).unwrap();
    }
    // 2^12 - 1 is the size now.
    assert!(judge(&sheet.finish()).is_ok());
    let one = sheet.add_sort(SortRecord::Set(sort)).unwrap();
    assert!(judge(&sheet.finish()).is_ok());
    sheet.add_sort(SortRecord::Set(one)).unwrap();
    assert_eq!(judge(&sheet.finish()), Err(Refusal::TreeSize));
}

#[test]
fn numbers_of_the_operators() {
    assert_eq!(Operator::ALL.len(), 135);
    assert_eq!(ParamOperator::ALL.len(), 12);
    assert_eq!(QualifiedOperator::ALL.len(), 3);
    assert_eq!(Binder::ALL.len(), 4);
    for (number, operator) in Operator::ALL.iter().enumerate() {
        assert_eq!(usize::from(operator.number()), number);
        assert_eq!(Operator::from_number(u32::try_from(number).unwrap()), Some(*operator));
    }
    assert_eq!(Operator::from_number(135), None);
    for (number, operator) in [
        (24, Operator::Pow2),
        (41, Operator::Arccot),
        (54, Operator::IndexOfRe),
        (78, Operator::ReFromAutomaton),
        (83, Operator::BvAdd),
        (90, Operator::BvConcat),
        (110, Operator::BvPBbTerm),
        (115, Operator::RareList),
        (134, Operator::RelProduct),
    ] {
        assert_eq!(operator.number(), number);
    }
    assert_eq!(Operator::Implies.to_string(), "=>");
    assert_eq!(ParamOperator::ReLoop.number(), 11);
    assert_eq!(QualifiedOperator::SetUniverse.number(), 2);
    assert_eq!(Binder::Lambda.number(), 3);
}

/// A term of each kind that the writer can add gets the sort that is expected of it.
#[test]
fn every_kind_of_term() {
    let mut sheet = SheetWriter::new();
    let int = sheet.add_sort(SortRecord::Int).unwrap();
    let bool = sheet.add_sort(SortRecord::Bool).unwrap();
    let vector = sheet.add_sort(SortRecord::BitVec(8)).unwrap();
    let array = sheet.add_sort(SortRecord::Array(int, bool)).unwrap();
    let predicate = sheet.add_sort(SortRecord::Function(&[int, bool])).unwrap();
    let set = sheet.add_sort(SortRecord::Set(int)).unwrap();
    let mut lines: Vec<&str> = Vec::new();
    let mut add = |term: TermRecord<'_>, line: &'static str| {
        lines.push(line);
        sheet.add_term(term).unwrap()
    };
    let three = add(TermRecord::Integer(3), "Int Int");
    add(TermRecord::Real, "Real Real");
    add(TermRecord::String, "String String");
    add(TermRecord::RegLan, "RegLan RegLan");
    add(TermRecord::BitVec(8), "(_ BitVec 8) (_ BitVec 8)");
    let v = add(TermRecord::Var(n(1), vector), "(_ BitVec 8) (_ BitVec 8)");
    let p = add(TermRecord::Var(n(2), predicate), "(-> Int Bool) (-> Int Bool)");
    let holds = add(TermRecord::App(p, &[three]), "Bool Bool");
    add(TermRecord::Op(Operator::Not, &[holds]), "Bool Bool");
    add(TermRecord::Binder(Binder::Forall, &[(n(3), int)], holds), "Bool Bool");
    add(
        TermRecord::Binder(Binder::Lambda, &[(n(3), int), (n(3), bool)], v),
        "(-> Int Bool (_ BitVec 8)) (-> Int Bool (_ BitVec 8))",
    );
    add(TermRecord::Let(&[(n(3), v)], holds), "Bool Bool");
    add(TermRecord::Match(v, &[three, three]), "Int !24");
    add(
        TermRecord::ParamOp { op: ParamOperator::ZeroExtend, op_args: &[three], args: &[v] },
        "(_ BitVec 11) (_ BitVec 11)",
    );
    add(TermRecord::AsOp(QualifiedOperator::Const, array, &[holds]), "(Array Int Bool) (Array Int Bool)");
    add(TermRecord::AsOp(QualifiedOperator::SetEmpty, set, &[]), "(Set Int) (Set Int)");
    let expected: String = lines.iter().enumerate().map(|(k, line)| format!("T{k} {line}\n")).collect();
    assert_eq!(print(&sheet.finish()), expected);
}

/// A printout that is longer than the longest buffer, so in several pieces: each term's sort is a set of the one before.
#[test]
fn a_long_printout() {
    let mut sheet = SheetWriter::new();
    let mut sort = Arc::new(Sort::Int);
    let mut expected = String::new();
    for k in 0..900 {
        let id = sheet.sort(&sort).unwrap();
        sheet.add_term(TermRecord::Var(n(1), id)).unwrap();
        expected.push_str(&format!("T{k} {sort} {sort}\n"));
        sort = Arc::new(Sort::Set(sort));
    }
    assert!(expected.len() > LINE_BUFFER);
    assert!(print(&sheet.finish()) == expected);
}

#[test]
fn names_in_text() {
    let mut names = Names::new();
    let session = Arc::new(Sort::Atom(names.name("Session").unwrap(), vec![]));
    let sort = Sort::Function(vec![session, Arc::new(Sort::Var(Name::UNKNOWN)), Arc::new(Sort::Bool)]);
    assert_eq!(sort.with_names(&names).to_string(), "(-> Session '? Bool)");
    let other = Sort::Atom(n(9), vec![]);
    assert_eq!(other.with_names(&names).to_string(), "n9");
}

/// A string that could be taken for something else stands in bars: no two sorts of a table are written alike.
#[test]
fn names_that_look_like_something_else() {
    let mut names = Names::new();
    let mut text = |string: &str| {
        let sort = Sort::Atom(names.name(string).unwrap(), vec![]);
        sort.with_names(&names).to_string()
    };
    for plain in ["Session", "n", "nonce", "n1x", "T", "@p_1", "x!1", "<-", "Maß", "bool", "a.b"] {
        assert_eq!(text(plain), plain);
    }
    for taken in
        ["Bool", "Int", "Type", "Array", "and", "=>", "bvadd", "extract", "const", "forall", "let", "_", "true"]
    {
        assert_eq!(text(taken), format!("|{taken}|"));
    }
    for taken in ["", "two words", "(Set Int)", "'n1", "7", "8x", "n1", "T5", "!26", "<Real>", "[n1]", "Int)"] {
        assert_eq!(text(taken), format!("|{taken}|"));
    }
    assert_eq!(text("a|b\\c"), "|a\\|b\\\\c|");
    assert_eq!(text("|a|"), "|\\|a\\||");
    assert_eq!(text("a\n\x1b[31m"), "|a\\n\\u{1b}[31m|");
    assert_eq!(text("?"), "?");
    // The first name of a table is n1 without it too.
    let mut names = Names::new();
    let sort = Sort::Atom(names.name("n1").unwrap(), vec![]);
    assert_eq!(sort.with_names(&names).to_string(), "n1");
}

#[test]
fn numbers_of_refusals() {
    for (number, refusal) in (1..=10).chain([34]).zip(Refusal::ALL) {
        assert_eq!(refusal.number(), number);
        assert_eq!(Refusal::from_number(number), Some(*refusal));
    }
    for (number, cause) in (20..=29).zip(Cause::ALL) {
        assert_eq!(cause.number(), number);
        assert_eq!(Cause::from_number(number), Some(*cause));
    }
    assert_eq!((Refusal::ALL.len(), Cause::ALL.len()), (11, 10));
    assert_eq!((Refusal::from_number(11), Refusal::from_number(33)), (None, None));
    assert_eq!(Cause::from_number(19), None);
    assert_eq!(Cause::NoRank.to_string(), "24: the operator has no rank");
    let written = "34: a tree size that is written in a sort record is not the sort's";
    assert_eq!(Refusal::WrittenSize.to_string(), written);
}
