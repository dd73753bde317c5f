//! Explanations in words of what is wrong with terms over sets, tuples and relations. What is expected is read off the ranks of the specification.

mod common;

use common::explained::{Made, array, function, op};
use napsilo::{Operator, QualifiedOperator, Sort, TermRecord};
use std::sync::Arc;

/// 25 and 26 of sets: what asks for a set, and for the same set.
#[test]
fn arguments_that_are_sets() {
    let mut made = Made::default();
    let set = |sort: Sort| Sort::Set(Arc::new(sort));
    let i = made.var("i", &Sort::Int);
    let [ints, bools] = [("ints", Sort::Int), ("bools", Sort::Bool)].map(|(name, sort)| made.var(name, &set(sort)));
    for operator in [Operator::SetUnion, Operator::SetInter, Operator::SetMinus, Operator::SetSubset] {
        let text = "argument 2, bools, has sort (Set Bool), expected (Set Int) (!26)";
        made.says(op(operator, &[ints, bools]), &format!("({operator} ints bools): {text}"));
        // Two of one sort are not enough.
        let text = "argument 1, i, has sort Int, expected a set (!26)";
        made.says(op(operator, &[i, i]), &format!("({operator} i i): {text}"));
        let text = "found 3, expected 2 arguments (!25)";
        made.says(op(operator, &[ints, ints, ints]), &format!("({operator} ints ints ints): {text}"));
    }
    let one = [Operator::SetIsEmpty, Operator::SetIsSingleton, Operator::SetCard, Operator::SetComplement];
    for operator in one {
        let text = format!("({operator} i): argument 1, i, has sort Int, expected a set (!26)");
        made.says(op(operator, &[i]), &text);
        made.says(op(operator, &[]), &format!("{operator}: found 0, expected 1 argument (!25)"));
    }
}

/// 25 and 26 of what goes into a set: what asks for an element, and for the set of it.
#[test]
fn elements_of_sets() {
    let mut made = Made::default();
    let set = |sort: Sort| Sort::Set(Arc::new(sort));
    let [i, b] = [("i", Sort::Int), ("b", Sort::Bool)].map(|(name, sort)| made.var(name, &sort));
    let [ints, bools] = [("ints", Sort::Int), ("bools", Sort::Bool)].map(|(name, sort)| made.var(name, &set(sort)));
    let name = made.names.name("X").unwrap();
    let p = made.var("p", &Sort::Par(vec![name], Arc::new(function(&[Sort::Var(name), Sort::Bool]))));
    let par = "has sort (par (X) (-> 'X Bool)), expected";
    for operator in [Operator::SetMember, Operator::SetInsert] {
        let text = "argument 2, bools, has sort (Set Bool), expected (Set Int) (!26)";
        made.says(op(operator, &[i, bools]), &format!("({operator} i bools): {text}"));
        let text = format!("({operator} p ints): argument 1, p, {par} a sort that is not parametric (!26)");
        made.says(op(operator, &[p, ints]), &text);
    }
    made.says(op(Operator::SetMember, &[ints]), "(set.member ints): found 1, expected 2 arguments (!25)");
    made.says(op(Operator::SetInsert, &[ints]), "(set.insert ints): found 1, expected at least 2 arguments (!25)");
    let text = "(set.insert i b ints): argument 2, b, has sort Bool, expected Int (!26)";
    made.says(op(Operator::SetInsert, &[i, b, ints]), text);
    let text = "(set.insert i i i): argument 3, i, has sort Int, expected (Set Int) (!26)";
    made.says(op(Operator::SetInsert, &[i, i, i]), text);
    let text = format!("(set.singleton p): argument 1, p, {par} a sort that is not parametric (!26)");
    made.says(op(Operator::SetSingleton, &[p]), &text);
    made.says(op(Operator::SetSingleton, &[i, i]), "(set.singleton i i): found 2, expected 1 argument (!25)");
}

/// 26 of tuples and relations: what asks for tuples, for some entry, for entries that meet, for pairs of one sort.
#[test]
fn arguments_that_are_relations() {
    let mut made = Made::default();
    let relation = |entries: &[Sort]| Sort::Set(Arc::new(Sort::Tuple(entries.iter().cloned().map(Arc::new).collect())));
    let [i, ints] =
        [("i", Sort::Int), ("ints", Sort::Set(Arc::new(Sort::Int)))].map(|(name, sort)| made.var(name, &sort));
    let unit = made.var("unit", &relation(&[]));
    let shops = made.var("shops", &relation(&[Sort::Int, Sort::Bool]));
    let loops = made.var("loops", &relation(&[Sort::Int, Sort::Int]));
    let name = made.names.name("X").unwrap();
    let p = made.var("p", &Sort::Par(vec![name], Arc::new(function(&[Sort::Var(name), Sort::Bool]))));
    let text =
        "(tuple i p i): argument 2, p, has sort (par (X) (-> 'X Bool)), expected a sort that is not parametric (!26)";
    made.says(op(Operator::Tuple, &[i, p, i]), text);
    made.says(op(Operator::Tuple, &[]), "tuple: found 0, expected at least 1 argument (!25)");
    made.says(op(Operator::TupleUnit, &[i]), "(tuple.unit i): found 1, expected 0 arguments (!25)");
    let text = "(rel.transpose ints): argument 1, ints, has sort (Set Int), expected a set of tuples (!26)";
    made.says(op(Operator::RelTranspose, &[ints]), text);
    let text = "(rel.tclosure shops): argument 1, shops, has sort (Set (Tuple Int Bool)), expected a set of pairs of one sort (!26)";
    made.says(op(Operator::RelTclosure, &[shops]), text);
    let text = "(rel.product unit i): argument 2, i, has sort Int, expected a set of tuples (!26)";
    made.says(op(Operator::RelProduct, &[unit, i]), text);
    let text = "argument 1, unit, has sort (Set (Tuple)), expected a set of tuples with at least 1 entry (!26)";
    made.says(op(Operator::RelJoin, &[unit, shops]), &format!("(rel.join unit shops): {text}"));
    let expected = "expected a set of tuples whose first entry has sort Bool (!26)";
    for (second, sort) in [(unit, "(Set (Tuple))"), (loops, "(Set (Tuple Int Int))"), (i, "Int")] {
        let shown = made.sheet.judge().unwrap().term_text(second, Some(&made.names)).unwrap();
        let text = format!("(rel.join shops {shown}): argument 2, {shown}, has sort {sort}, {expected}");
        made.says(op(Operator::RelJoin, &[shops, second]), &text);
    }
    let meets = made.term(op(Operator::RelJoin, &[loops, shops]));
    assert_eq!(made.sheet.judge().unwrap().explain(meets), Ok(None));
}

/// 25 and 26 of the empty set and the set of all.
#[test]
fn constants_of_sets() {
    let mut made = Made::default();
    let i = made.var("i", &Sort::Int);
    let int = made.sheet.sort(&Sort::Int).unwrap();
    for (op, symbol) in [(QualifiedOperator::SetEmpty, "set.empty"), (QualifiedOperator::SetUniverse, "set.universe")] {
        let text = format!("(as {symbol} Int): its sort is Int, expected a set (!26)");
        made.says(TermRecord::AsOp(op, int, &[]), &text);
        let text = format!("((as {symbol} Int) i): found 1, expected 0 arguments (!25)");
        made.says(TermRecord::AsOp(op, int, &[i]), &text);
    }
}

/// 22 of sets, tuples and relations.
#[test]
fn limits_of_sets() {
    let mut made = Made::default();
    // Relations of 40 and of 25 columns: their product has 65, what is left of their join 63. A set of a tree of 4,096.
    let row =
        |columns: usize| Sort::Set(Arc::new(Sort::Tuple(std::iter::repeat_n(Arc::new(Sort::Int), columns).collect())));
    let [wide, narrow] = [("wide", 40), ("narrow", 25)].map(|(name, columns)| made.var(name, &row(columns)));
    let text = "(rel.product wide narrow): the answer would have a list of 65, expected at most 64 (!22)";
    made.says(op(Operator::RelProduct, &[wide, narrow]), text);
    let join = made.term(op(Operator::RelJoin, &[wide, narrow]));
    assert_eq!(made.sheet.judge().unwrap().explain(join), Ok(None));
    let text = "(rel.join wide wide): the answer would have a list of 78, expected at most 64 (!22)";
    made.says(op(Operator::RelJoin, &[wide, wide]), text);
    let greatest =
        made.var("greatest", &Sort::Set(Arc::new((0..11).fold(Sort::Int, |sort, _| array(sort.clone(), sort)))));
    for operator in [Operator::SetSingleton, Operator::Tuple] {
        let text =
            format!("({operator} greatest): the answer would have a tree of 4097 nodes, expected at most 4096 (!22)");
        made.says(op(operator, &[greatest]), &text);
    }
}
