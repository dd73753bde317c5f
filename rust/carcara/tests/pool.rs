//! Terms of carcara's pool: the inferred row of each is what `Pool::sort` gives; what a sheet cannot say is told.

use beside::make;
use beside::random::Random;
use napsilo::{Cause, Refusal, judge};
use napsilo_batch::{Refused, Row};
use napsilo_carcara::{Proof, Reason, Untaken};
use oracle::ast::custom_operator::CustomOperator;
use oracle::ast::{
    Binder, BindingList, Constant, MatchCase, MatchPattern, Operator, ParamOperator, Pool, QualifiedOperator, Rc, Sort,
    Term,
};
use rug::Integer;

/// Takes the terms of a sheet through carcara's pool; how many were compared, and how many of them have a checked sort.
fn compare(sheet: &[u8]) -> [usize; 2] {
    let Some(mut built) = oracle::sheet::read(sheet).and_then(|read| oracle::ask::build(&read)) else {
        return [0; 2];
    };
    let judged = judge(sheet).expect("the oracle takes the sheet");
    let mut proof = Proof::new();
    for term in built.terms.iter().flatten() {
        proof.take(term).expect("a sheet can say it");
    }
    let rows = proof.judge();
    let mut counts = [0; 2];
    for ((term, row), (_, checked)) in built.terms.iter().zip(&built.rows).zip(judged.rows()) {
        let Some(term) = term else { continue };
        let inferred = rows.inferred(term).expect("the pool gives a sort");
        let own = rows.sort_in(&mut built.pool, inferred);
        assert_eq!(own, built.pool.sort(term), "{}", oracle::text::row(row));
        assert_eq!(rows.text(inferred).to_string(), oracle::text::row(row));
        match (rows.checked(term), checked) {
            (Ok(sort), Ok(expected)) => {
                assert_eq!(rows.text(sort).to_string(), expected.to_string());
                counts[1] += 1;
            }
            (Err(Reason::Refused(Refused::Row(cause))), Err(expected)) => {
                assert_eq!(cause, *expected);
                let source = rows.source(term, Row::Checked).and_then(|source| rows.checked(&source).err());
                let Some(Reason::Refused(source)) = source else { panic!("the source is refused") };
                let why = rows.explain(term, Row::Checked).expect("it is refused");
                assert!(why.ends_with(&format!("(!{})", source.number())), "{why}");
            }
            (own, expected) => panic!("{own:?}, on the sheet {expected:?}"),
        }
        counts[0] += 1;
    }
    counts
}

#[test]
fn inferred_rows_are_the_pools() {
    let mut counts = [0; 2];
    oracle::on_stack(|| {
        let (mut random, mut source) = (Random::new(17), compare::random::Source::new(17));
        for at in 0..3_000 {
            let sheet = match at % 10 {
                0 => make::large(&mut random),
                1 => make::repeated(&mut random),
                2..6 => make::sheet(&mut random),
                _ => compare::random::sheet(&mut source),
            };
            let [terms, checked] = compare(&sheet);
            counts = [counts[0] + terms, counts[1] + checked];
        }
    });
    println!("{} terms, {} with a checked sort", counts[0], counts[1]);
    assert!(counts[0] > 50_000 && counts[1] > 25_000);
}

/// A pool with a variable of each of these sorts.
fn vars<const COUNT: usize>(pool: &mut Pool, sorts: [Sort; COUNT]) -> [Rc<Term>; COUNT] {
    let mut number = 0;
    sorts.map(|sort| {
        number += 1;
        let sort = pool.add_sort(sort);
        pool.add(Term::Var(format!("x{number}"), sort))
    })
}

/// An integer constant.
fn integer(pool: &mut Pool, value: Integer) -> Rc<Term> {
    pool.add(Term::Const(Constant::Integer(value)))
}

#[test]
fn what_a_sheet_cannot_say() {
    let mut pool = Pool::new();
    let int = pool.add_sort(Sort::Int);
    let [p, pair] = vars(&mut pool, [Sort::Bool, Sort::Tuple(vec![int.clone(), int])]);
    let zero = integer(&mut pool, Integer::from(0));
    let custom = pool.add(Term::Op(Operator::Custom(CustomOperator), vec![p.clone()]));
    let (op, args) = (ParamOperator::Tester, vec![p.clone()]);
    let tester = pool.add(Term::ParamOp { op, op_args: vec![p.clone()], args });
    let (op, args) = (ParamOperator::TupleSelect, vec![pair.clone()]);
    let select = pool.add(Term::ParamOp { op, op_args: vec![zero.clone()], args });
    let above = pool.add(Term::Op(Operator::And, vec![p.clone(), tester.clone()]));
    let let_above = pool.add(Term::Let(BindingList(vec![("y".to_owned(), select.clone())]), p.clone()));
    let both = pool.add(Term::Op(Operator::Custom(CustomOperator), vec![select.clone()]));
    let fine = pool.add(Term::Op(Operator::Not, vec![p.clone()]));
    let mut proof = Proof::new();
    for (term, expected) in [
        (&custom, Untaken::Custom("custom".to_owned())),
        (&tester, Untaken::Tester),
        (&select, Untaken::TupleSelect),
        (&above, Untaken::Below),
        (&let_above, Untaken::Below),
        (&both, Untaken::Custom("custom".to_owned())),
    ] {
        assert_eq!(proof.take(term), Err(expected.clone()));
        assert_eq!(proof.take(term), Err(expected));
    }
    proof.take(&fine).expect("a sheet can say it");
    let rows = proof.judge();
    for row in [Row::Inferred, Row::Checked] {
        assert_eq!(rows.row(&tester, row), Err(Reason::Untaken(Untaken::Tester)));
        assert_eq!(rows.row(&above, row), Err(Reason::Untaken(Untaken::Below)));
        assert_eq!(rows.source(&above, row), Some(tester.clone()));
        assert_eq!(rows.source(&let_above, row), Some(select.clone()));
        assert_eq!(rows.source(&both, row), Some(select.clone()));
        assert_eq!(rows.source(&fine, row), None);
        assert_eq!(rows.explain(&above, row), Some("not judged: a tester of a datatype".to_owned()));
        assert_eq!(rows.explain(&both, row), Some("not judged: a selection from a tuple".to_owned()));
        assert_eq!(rows.explain(&fine, row), None);
        assert_eq!(rows.text(rows.row(&fine, row).expect("Bool")).to_string(), "Bool");
        assert_eq!(rows.text(rows.row(&pair, row).expect("a sort")).to_string(), "(Tuple Int Int)");
    }
}

#[test]
fn integers_of_any_size() {
    let mut pool = Pool::new();
    let [vector] = vars(&mut pool, [Sort::BitVec(8)]);
    let great = integer(&mut pool, Integer::from(u32::MAX) * &2);
    let below_zero = integer(&mut pool, -Integer::from(5));
    let five = integer(&mut pool, Integer::from(5));
    let sum = pool.add(Term::Op(Operator::Add, vec![great.clone(), below_zero.clone(), five.clone()]));
    let extend = |pool: &mut Pool, index: &Rc<Term>| {
        let (op, args) = (ParamOperator::ZeroExtend, vec![vector.clone()]);
        pool.add(Term::ParamOp { op, op_args: vec![index.clone()], args })
    };
    let [small, large] = [&five, &great].map(|index| extend(&mut pool, index));
    let mut proof = Proof::new();
    for term in [&sum, &small, &large] {
        proof.take(term).expect("taken");
    }
    let rows = proof.judge();
    assert_eq!(rows.text(rows.checked(&sum).expect("Int")).to_string(), "Int");
    assert_eq!(rows.text(rows.checked(&small).expect("a vector")).to_string(), "(_ BitVec 13)");
    assert_eq!(rows.checked(&large), Err(Reason::Refused(Refused::Sheet(Refusal::Value))));
}

/// A term of each kind, its rows beside those that the specification gives.
#[test]
fn every_kind_of_term() {
    let mut pool = Pool::new();
    let [int, bool] = [Sort::Int, Sort::Bool].map(|sort| pool.add_sort(sort));
    let [x, p] = vars(&mut pool, [Sort::Int, Sort::Bool]);
    let array = pool.add_sort(Sort::Array(int.clone(), bool.clone()));
    let function = pool.add_sort(Sort::Function(vec![int.clone(), bool.clone()]));
    let f = pool.add(Term::Var("f".to_owned(), function));
    let name = || "y".to_owned();
    let case = MatchCase { pattern: MatchPattern::Wildcard, body: x.clone() };
    let bits = Constant::BitVec(Integer::from(3), 4);
    let terms = [
        (Term::Const(bits), "(_ BitVec 4)", Ok("(_ BitVec 4)")),
        (Term::App(f.clone(), vec![x.clone()]), "Bool", Ok("Bool")),
        (Term::App(f.clone(), vec![p.clone()]), "Bool", Err(Cause::Misfit)),
        (Term::Op(Operator::Ite, vec![p.clone(), x.clone(), x.clone()]), "Int", Ok("Int")),
        (
            Term::Binder(Binder::Lambda, BindingList(vec![(name(), int.clone())]), p.clone()),
            "(-> Int Bool)",
            Ok("(-> Int Bool)"),
        ),
        (Term::Binder(Binder::Choice, BindingList(vec![(name(), int.clone())]), p.clone()), "Int", Ok("Int")),
        (Term::Let(BindingList(vec![(name(), x.clone())]), p.clone()), "Bool", Ok("Bool")),
        (Term::Match(p.clone(), vec![case]), "Int", Err(Cause::NoRank)),
        (Term::AsOp(QualifiedOperator::Const, array, vec![p.clone()]), "(Array Int Bool)", Ok("(Array Int Bool)")),
    ];
    for (term, inferred, checked) in terms {
        let term = pool.add(term);
        let mut proof = Proof::new();
        proof.take(&term).expect("taken");
        let rows = proof.judge();
        assert_eq!(rows.text(rows.inferred(&term).expect("a sort")).to_string(), inferred);
        let own = rows.checked(&term).map(|sort| rows.text(sort).to_string());
        assert_eq!(own, checked.map(str::to_owned).map_err(|cause| Reason::Refused(Refused::Row(cause))));
    }
}

#[test]
fn shared_sorts() {
    // 61 sorts whose tree is far too large for any walk; it is taken and given back in as many steps.
    let mut pool = Pool::new();
    let mut sort = pool.add_sort(Sort::Int);
    for _ in 0..60 {
        sort = pool.add_sort(Sort::Array(sort.clone(), sort.clone()));
    }
    let mut proof = Proof::new();
    let own = proof.take_sort(&sort);
    let rows = proof.judge();
    assert!(rows.sort_in(&mut pool, own) == sort);
}

#[test]
fn deep_terms() {
    // Neither taking nor judging goes down by recursion; only the end of the terms does, and that is carcara's.
    let mut pool = Pool::new();
    let [p] = vars(&mut pool, [Sort::Bool]);
    let mut deep = p.clone();
    for _ in 0..200_000 {
        deep = pool.add(Term::Op(Operator::Not, vec![deep]));
    }
    let mut proof = Proof::new();
    proof.take(&deep).expect("taken");
    let rows = proof.judge();
    assert_eq!(rows.text(rows.checked(&deep).expect("Bool")).to_string(), "Bool");
    assert_eq!(rows.source(&deep, Row::Checked), None);
    std::mem::forget((pool, proof, deep));
}
