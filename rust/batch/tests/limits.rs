//! What no sheet can hold is told of the one term concerned; and where one sheet has no room, several have.

#[path = "common/start.rs"]
mod start;

use napsilo::{
    Binder, Cause, Operator, ParamOperator, QualifiedOperator, Refusal, SheetWriter, SortRecord, TermRecord, judge,
};
use napsilo_batch::{Batch, BatchSort, BatchTerm, Refused, Row, SortNode, TermNode, Verdict};
use start::{Start, start};

const BELOW: Verdict = Err(Refused::Row(Cause::Below));
const VALUE: Verdict = Err(Refused::Sheet(Refusal::Value));
const TREE: Verdict = Err(Refused::Sheet(Refusal::TreeSize));

/// Asserts both rows of terms.
fn assert_rows(batch: &mut Batch, expected: &[(BatchTerm, [Verdict; 2])]) {
    for (at, (term, rows)) in expected.iter().enumerate() {
        let verdicts = batch.judge();
        assert_eq!([verdicts.inferred(*term), verdicts.checked(*term)], *rows, "number {at}");
    }
}

#[test]
fn lists_of_arguments() {
    let Start { mut batch, int, bool, x, p } = start();
    let operator = |batch: &mut Batch, count| batch.term(TermNode::Op(Operator::And, &vec![p; count]));
    let [long, longer] = [64, 65].map(|count| operator(&mut batch, count));
    let above = batch.term(TermNode::Op(Operator::Not, &[longer]));
    let sort = batch.sort(&SortNode::Function(vec![int; 64]));
    let f = batch.name("f");
    let head = batch.term(TermNode::Var(f, sort));
    let application = |batch: &mut Batch, count| batch.term(TermNode::App(head, &vec![x; count]));
    let [applied, over] = [63, 64].map(|count| application(&mut batch, count));
    let matching = |batch: &mut Batch, count| batch.term(TermNode::Match(p, &vec![x; count]));
    let [matched, matched_over] = [63, 64].map(|count| matching(&mut batch, count));
    let op = QualifiedOperator::Const;
    let qualified = |batch: &mut Batch, count| batch.term(TermNode::AsOp(op, int, &vec![x; count]));
    let [qualifies, qualifies_over] = [64, 65].map(|count| qualified(&mut batch, count));
    let expected = [
        (long, [Ok(bool); 2]),
        (longer, [VALUE; 2]),
        (above, [BELOW; 2]),
        (applied, [Ok(int); 2]),
        (over, [VALUE; 2]),
        (matched, [Ok(int), Err(Refused::Row(Cause::NoRank))]),
        (matched_over, [VALUE; 2]),
        (qualifies, [Ok(int), Err(Refused::Row(Cause::Count))]),
        (qualifies_over, [VALUE; 2]),
    ];
    assert_rows(&mut batch, &expected);
    assert_eq!(batch.judge().source(above, Row::Checked), Some(longer));
}

#[test]
fn lists_of_bindings_and_indices() {
    let Start { mut batch, int, bool, x, p } = start();
    let name = batch.name("y");
    let binder = |batch: &mut Batch, count| batch.term(TermNode::Binder(Binder::Forall, &vec![(name, int); count], p));
    let [bound, bound_over] = [64, 65].map(|count| binder(&mut batch, count));
    let letting = |batch: &mut Batch, count| batch.term(TermNode::Let(&vec![(name, x); count], p));
    let [lets, lets_over] = [63, 64].map(|count| letting(&mut batch, count));
    let bits = batch.term(TermNode::BitVec(8));
    let op = ParamOperator::RotateLeft;
    let indexed = |batch: &mut Batch, indices, count| {
        batch.term(TermNode::ParamOp { op, op_args: &vec![x; indices], args: &vec![bits; count] })
    };
    let [fits, indices_over, arguments_over] =
        [(64, 64), (65, 1), (1, 65)].map(|(indices, count)| indexed(&mut batch, indices, count));
    let vector = batch.sort(&SortNode::BitVec(8));
    let expected = [
        (bound, [Ok(bool); 2]),
        (bound_over, [VALUE; 2]),
        (lets, [Ok(bool); 2]),
        (lets_over, [VALUE; 2]),
        (fits, [Ok(vector), Err(Refused::Row(Cause::Count))]),
        (indices_over, [VALUE; 2]),
        (arguments_over, [VALUE; 2]),
    ];
    assert_rows(&mut batch, &expected);
}

/// A sort, and a variable of it.
fn of_sort(batch: &mut Batch, node: SortNode) -> (BatchSort, BatchTerm) {
    let (name, sort) = (batch.name("y"), batch.sort(&node));
    (sort, batch.term(TermNode::Var(name, sort)))
}

#[test]
fn sorts() {
    let Start { mut batch, int, bool, .. } = start();
    let name = batch.name("y");
    let (wide, of_wide) = of_sort(&mut batch, SortNode::BitVec(65_535));
    let refused = [
        SortNode::BitVec(65_536),
        SortNode::BitVec(1 << 40 | 8),
        SortNode::Tuple(vec![int; 65]),
        SortNode::Par(vec![], bool),
        SortNode::Par(vec![name, name], bool),
    ];
    let mut expected = vec![(of_wide, [Ok(wide); 2])];
    expected.extend(refused.map(|node| (of_sort(&mut batch, node).1, [VALUE; 2])));
    let [vector, vector_over] = [65_535, 65_536].map(|width| batch.term(TermNode::BitVec(width)));
    expected.extend([(vector, [Ok(wide); 2]), (vector_over, [VALUE; 2])]);
    assert_rows(&mut batch, &expected);
}

#[test]
fn tree_sizes() {
    let Start { mut batch, int, bool, p, .. } = start();
    // 4,095 nodes, then 8,191.
    let mut tree = int;
    for _ in 0..11 {
        tree = batch.sort(&SortNode::Array(tree, tree));
    }
    let (large, of_large) = of_sort(&mut batch, SortNode::Set(tree));
    let (larger, of_larger) = of_sort(&mut batch, SortNode::Array(tree, tree));
    let (_, of_part) = of_sort(&mut batch, SortNode::Set(larger));
    let name = batch.name("y");
    let bound = batch.term(TermNode::Binder(Binder::Forall, &[(name, larger)], p));
    let qualified = batch.term(TermNode::AsOp(QualifiedOperator::SetEmpty, larger, &[]));
    let above = batch.term(TermNode::Op(Operator::Equals, &[of_larger, of_larger]));
    let fine = batch.term(TermNode::Op(Operator::Equals, &[of_large, of_large]));
    // The answer is over the limit, not the sheet.
    let answer = batch.term(TermNode::Op(Operator::SetSingleton, &[of_large]));
    let expected = [
        (of_large, [Ok(large); 2]),
        (of_larger, [TREE; 2]),
        (of_part, [TREE; 2]),
        (bound, [TREE; 2]),
        (qualified, [TREE; 2]),
        (above, [BELOW; 2]),
        (fine, [Ok(bool); 2]),
        (answer, [Err(Refused::Row(Cause::Limit)); 2]),
    ];
    assert_rows(&mut batch, &expected);
}

#[test]
fn integers_that_no_sheet_can_say() {
    let Start { mut batch, int, p, .. } = start();
    let large = batch.term(TermNode::LargeInteger);
    let five = batch.term(TermNode::Integer(5));
    let bits = batch.term(TermNode::BitVec(8));
    let sum = batch.term(TermNode::Op(Operator::Add, &[large, five]));
    let wrong = batch.term(TermNode::Op(Operator::And, &[large, p]));
    let op = ParamOperator::ZeroExtend;
    let index = batch.term(TermNode::ParamOp { op, op_args: &[large], args: &[bits] });
    let argument = batch.term(TermNode::ParamOp { op: ParamOperator::IntToBv, op_args: &[five], args: &[large] });
    let constant = batch.term(TermNode::Op(Operator::BvConst, &[five, large]));
    let vector = batch.sort(&SortNode::BitVec(5));
    let bool = batch.sort(&SortNode::Bool);
    let expected = [
        (large, [Ok(int); 2]),
        (sum, [Ok(int); 2]),
        (wrong, [Ok(bool), Err(Refused::Row(Cause::Misfit))]),
        (index, [VALUE; 2]),
        (argument, [Ok(vector); 2]),
        (constant, [VALUE; 2]),
    ];
    assert_rows(&mut batch, &expected);
}

/// Sets in sets have more sorts than a sheet holds, though the tree is small: no variable can have such a sort, and the terms are put again
/// from where one can.
#[test]
fn more_sorts_than_a_sheet_holds() {
    let Start { mut batch, int, x, .. } = start();
    let mut chain = vec![(x, int)];
    for _ in 1..4_096 {
        let (term, sort) = *chain.last().expect("not empty");
        chain.push((batch.term(TermNode::Op(Operator::SetSingleton, &[term])), batch.sort(&SortNode::Set(sort))));
    }
    let [last_but_one, last] = [4_094, 4_095].map(|at| chain[at].0);
    let over = batch.term(TermNode::Op(Operator::SetSingleton, &[last]));
    let card = batch.term(TermNode::Op(Operator::SetCard, &[last]));
    let verdicts = batch.judge();
    for (term, sort) in chain {
        assert_eq!(verdicts.inferred(term), Ok(sort));
    }
    assert_eq!(verdicts.inferred(over), Err(Refused::Row(Cause::Limit)));
    assert_eq!(verdicts.inferred(card), Ok(int));
    // A variable of such a sort is on no sheet.
    let name = batch.name("y");
    let sort = batch.judge().inferred(last).expect("a sort");
    let var = batch.term(TermNode::Var(name, sort));
    assert_rows(&mut batch, &[(var, [Err(Refused::Sheet(Refusal::Header)); 2])]);
    // The store holds 4,096 sorts: Bool is one too many beside those of the last, and fits beside those of the last but one.
    let bool = batch.sort(&SortNode::Bool);
    for (member, expected) in [(last, Err(Refused::Row(Cause::Full))), (last_but_one, Ok(bool))] {
        let term = batch.term(TermNode::Op(Operator::SetMember, &[member, member]));
        assert_eq!(batch.judge().inferred(term), expected);
    }
}

/// A head whose result is this long a chain of Pars with 64 names each, of which each takes 136 bytes in the store.
fn great_head(batch: &mut Batch, length: usize) -> BatchTerm {
    let names: Vec<_> = (0..64).map(|number| batch.name(&format!("a{number}"))).collect();
    let b = batch.name("b");
    let parameter = batch.sort(&SortNode::Var(b));
    let mut result = parameter;
    for _ in 0..length {
        result = batch.sort(&SortNode::Par(names.clone(), result));
    }
    let function = batch.sort(&SortNode::Function(vec![parameter, result]));
    let sort = batch.sort(&SortNode::Par(vec![b], function));
    let name = batch.name("f");
    batch.term(TermNode::Var(name, sort))
}

/// The same on one sheet, at Int and at Bool.
fn great_sheet(length: usize) -> [Result<usize, Cause>; 2] {
    let name = napsilo::Name::new;
    let names: Vec<_> = (100..164).map(name).collect();
    let mut sheet = SheetWriter::new();
    let parameter = sheet.add_sort(SortRecord::Var(name(1))).expect("fits");
    let mut result = parameter;
    for _ in 0..length {
        result = sheet.add_sort(SortRecord::Par(&names, result)).expect("fits");
    }
    let function = sheet.add_sort(SortRecord::Function(&[parameter, result])).expect("fits");
    let par = sheet.add_sort(SortRecord::Par(&[name(1)], function)).expect("fits");
    let head = sheet.add_term(TermRecord::Var(name(2), par)).expect("fits");
    let sorts = [SortRecord::Int, SortRecord::Bool].map(|sort| sheet.add_sort(sort).expect("fits"));
    let terms = sorts.map(|sort| {
        let argument = sheet.add_term(TermRecord::Var(name(3), sort)).expect("fits");
        sheet.add_term(TermRecord::App(head, &[argument])).expect("fits")
    });
    let judged = judge(&sheet.finish()).expect("accepted");
    terms.map(|term| {
        judged
            .inferred(term)
            .expect("a term of the sheet")
            .as_ref()
            .map(|sort| sort.tree_size())
            .map_err(|cause| *cause)
    })
}

#[test]
fn room() {
    // Two answers, for which one sheet has no room together.
    assert_eq!(great_sheet(200), [Ok(201), Err(Cause::Full)]);
    let Start { mut batch, x, p, .. } = start();
    let head = great_head(&mut batch, 200);
    let terms = [x, p].map(|argument| batch.term(TermNode::App(head, &[argument])));
    let above = terms.map(|term| batch.term(TermNode::Op(Operator::SetSingleton, &[term])));
    let verdicts = batch.judge();
    for (term, leaf) in terms.into_iter().zip(["Int", "Bool"]) {
        let text = verdicts.batch().text(verdicts.inferred(term).expect("a sort")).to_string();
        assert!(text.ends_with(&format!("{leaf}{}", ")".repeat(200))), "{text}");
        assert_eq!(text.matches("par").count(), 200);
    }
    assert!(above.iter().all(|term| verdicts.inferred(*term).is_ok()));
    // A term for which no sheet has room, alone or not.
    assert_eq!(great_sheet(450), [Err(Cause::Full); 2]);
    let full = great_head(&mut batch, 450);
    let [one, other] = [x, p].map(|argument| batch.term(TermNode::App(full, &[argument])));
    let above = batch.term(TermNode::Op(Operator::Tuple, &[one, other]));
    let fine = batch.term(TermNode::Op(Operator::Not, &[p]));
    let verdicts = batch.judge();
    assert_eq!(verdicts.inferred(one), Err(Refused::Row(Cause::Full)));
    assert_eq!(verdicts.inferred(other), Err(Refused::Row(Cause::Full)));
    assert_eq!(verdicts.inferred(above), BELOW);
    assert!(verdicts.inferred(fine).is_ok());
}

#[test]
fn sorts_that_a_sheet_holds_and_its_store_does_not() {
    // Chains of Pars with 64 names: 134 bytes each on the sheet, 136 in the store. Two of 243 fit one sheet, whose store cannot hold them.
    let Start { mut batch, int, bool, .. } = start();
    let names: Vec<_> = (0..64).map(|number| batch.name(&format!("a{number}"))).collect();
    let mut chain = |leaf: BatchSort, length: usize| {
        (0..length).fold(leaf, |part, _| batch.sort(&SortNode::Par(names.clone(), part)))
    };
    let chains = [chain(int, 243), chain(bool, 243)];
    let longer = chain(int, 487);
    let name = batch.name("y");
    let [one, two, over] = [chains[0], chains[1], longer].map(|sort| batch.term(TermNode::Var(name, sort)));
    let barred = Err(Refused::Row(Cause::Barred));
    assert_rows(&mut batch, &[(one, [Ok(chains[0]), barred]), (two, [Ok(chains[1]), barred])]);
    // Alone on a sheet it is refused as that sheet is.
    assert_rows(&mut batch, &[(over, [Err(Refused::Sheet(Refusal::Store)); 2])]);
}

#[test]
fn many_new_sorts() {
    // Each term has a sort of its own; the store of one sheet holds 4,096.
    let Start { mut batch, x, .. } = start();
    let terms: Vec<BatchTerm> = (1..=20_000_u32)
        .map(|width| {
            let index = batch.term(TermNode::Integer(width));
            batch.term(TermNode::ParamOp { op: ParamOperator::IntToBv, op_args: &[index], args: &[x] })
        })
        .collect();
    let verdicts = batch.judge();
    for (term, width) in terms.into_iter().zip(1_u64..) {
        for row in [Row::Inferred, Row::Checked] {
            let sort = verdicts.verdict(term, row).expect("a sort");
            assert_eq!(verdicts.batch().sort_node(sort), SortNode::BitVec(width));
        }
    }
}

#[test]
fn a_scope_that_no_sheet_can_show() {
    // A variable with another sort than is bound, below more terms than a sheet holds: what the row is once scopes are looked at cannot be
    // asked, so it is not said.
    let Start { mut batch, int, bool, .. } = start();
    let names = ["x", "y"].map(|string| batch.name(string));
    let y_bool = batch.term(TermNode::Var(names[1], bool));
    let x_bool = batch.term(TermNode::Var(names[0], bool));
    let mut deep = [x_bool, y_bool];
    for _ in 0..5_000 {
        deep = deep.map(|term| batch.term(TermNode::Op(Operator::Not, &[term])));
    }
    let [shown, hidden] = [1, 0].map(|at| batch.term(TermNode::Binder(Binder::Forall, &[(names[0], int)], deep[at])));
    let verdicts = batch.judge();
    assert_eq!(verdicts.checked(shown), Ok(bool));
    assert_eq!(verdicts.inferred(hidden), Ok(bool));
    assert_eq!(verdicts.checked(hidden), Err(Refused::Sheet(Refusal::Header)));
}

#[test]
fn a_name_that_is_bound_again() {
    // The variable with another sort is bound by an inner quantifier, so it is not free under the outer one; however deep it lies.
    let Start { mut batch, int, bool, .. } = start();
    let name = batch.name("x");
    let var = batch.term(TermNode::Var(name, bool));
    let mut deep = batch.term(TermNode::Binder(Binder::Exists, &[(name, bool)], var));
    for _ in 0..5_000 {
        deep = batch.term(TermNode::Op(Operator::Not, &[deep]));
    }
    let outer = batch.term(TermNode::Binder(Binder::Forall, &[(name, int)], deep));
    // The value of a Let is outside its scope.
    let value = batch.term(TermNode::Let(&[(name, var)], deep));
    let free = batch.term(TermNode::Binder(Binder::Forall, &[(name, int)], value));
    let verdicts = batch.judge();
    assert_eq!(verdicts.checked(outer), Ok(bool));
    assert_eq!(verdicts.checked(value), Ok(bool));
    // Here it is free, and near.
    assert_eq!(verdicts.checked(free), Ok(bool));
}

#[test]
#[should_panic(expected = "it belongs to another batch")]
fn terms_of_another_batch() {
    let Start { x, .. } = start();
    start().batch.term(TermNode::Op(Operator::Abs, &[x]));
}

#[test]
fn terms_come_later_too() {
    let Start { mut batch, int, x, .. } = start();
    let abs = batch.term(TermNode::Op(Operator::Abs, &[x]));
    assert_eq!(batch.judge().checked(abs), Ok(int));
    let sheets = batch.sheets();
    assert_eq!(batch.term(TermNode::Op(Operator::Abs, &[x])), abs);
    assert_eq!(batch.judge().checked(abs), Ok(int));
    assert_eq!(batch.sheets(), sheets);
    let not = batch.term(TermNode::Op(Operator::Not, &[abs]));
    let above = batch.term(TermNode::Op(Operator::Not, &[not]));
    let verdicts = batch.judge();
    assert_eq!(verdicts.checked(not), Err(Refused::Row(Cause::Misfit)));
    assert_eq!(verdicts.checked(above), BELOW);
    assert_eq!(verdicts.source(above, Row::Checked), Some(not));
    assert_eq!(verdicts.source(above, Row::Inferred), None);
    assert_eq!(batch.sheets(), sheets + 1);
}
