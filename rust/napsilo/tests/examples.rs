//! The specification's examples K1 to K12, built by the writer.

mod common;

use common::{bytes, hex, n};
use napsilo::{
    Cause, ForeignId, Operator, QuestionRecord, SheetWriter, SortId, SortRecord, TermId, TermRecord, judge, print,
};

/// What most examples start with: three sorts, an integer constant and a real one.
struct Start {
    sheet: SheetWriter,
    int: SortId,
    real: SortId,
    bool: SortId,
    seven: TermId,
    half: TermId,
}

/// A writer with Int, Real, Bool as its sorts 0 to 2, an integer and a real as its terms 0 and 1.
fn start() -> Start {
    let mut sheet = SheetWriter::new();
    let [int, real, bool] =
        [SortRecord::Int, SortRecord::Real, SortRecord::Bool].map(|sort| sheet.add_sort(sort).unwrap());
    let [seven, half] = [TermRecord::Integer(7), TermRecord::Real].map(|term| sheet.add_term(term).unwrap());
    Start { sheet, int, real, bool, seven, half }
}

/// The two columns of a term's line.
fn rows(sheet: &SheetWriter, term: TermId) -> (String, String) {
    let judged = sheet.judge().unwrap();
    let text = |row: &napsilo::Row| match row {
        Ok(sort) => sort.to_string(),
        Err(cause) => format!("!{}", cause.number()),
    };
    let rows = (text(judged.inferred(term).unwrap()), text(judged.checked(term).unwrap()));
    let line = format!("T{} {} {}\n", term.number(), rows.0, rows.1);
    assert!(print(&sheet.finish()).contains(&line));
    rows
}

/// Asserts the two columns of a term that is added last.
fn assert_rows(mut sheet: SheetWriter, term: TermRecord<'_>, inferred: &str, checked: &str) {
    let term = sheet.add_term(term).unwrap();
    assert_eq!(rows(&sheet, term), (inferred.to_owned(), checked.to_owned()));
}

#[test]
fn k1() {
    let mut sheet = SheetWriter::new();
    let int = sheet.add_sort(SortRecord::Int).unwrap();
    let seven = sheet.add_term(TermRecord::Integer(7)).unwrap();
    let sum = TermRecord::Op(Operator::Add, &[seven, seven]);
    sheet.add_term(sum).unwrap();
    let question = QuestionRecord::Compatible(int, int);
    let question = sheet.add_question(question).unwrap();
    let expected = bytes("010002000100 0104 050007000000 15070A0000000200000000 11000200000000");
    assert_eq!(hex(&sheet.finish()), hex(&expected));
    assert_eq!(print(&expected), "T0 Int Int\nT1 Int Int\nQ0 yes\n");
    let judged = judge(&expected).unwrap();
    // These bytes are no writer's sheet, so their judgement has ids of its own.
    assert_eq!(judged.answer(question), Err(ForeignId));
    let own = judged.question(0).unwrap();
    assert_eq!(judged.answer(own).unwrap().yes_or_no(), Some(true));
    assert_eq!(sheet.judge().unwrap().answer(question).unwrap().yes_or_no(), Some(true));
    assert_eq!(judged.store().len(), 1);
}

#[test]
fn k2_k3_k5() {
    let op = |op| TermRecord::Op(op, &[]);
    assert_rows(start().sheet, op(Operator::BvAdd), "(_ BitVec ?)", "!25");
    assert_rows(start().sheet, op(Operator::BvConcat), "(_ BitVec 0)", "!25");
    assert_rows(start().sheet, op(Operator::RareList), "'?", "!24");
}

#[test]
fn k4() {
    let Start { mut sheet, seven, .. } = start();
    let vector = sheet.add_term(TermRecord::BitVec(8)).unwrap();
    let sum = TermRecord::Op(Operator::BvAdd, &[vector, seven]);
    assert_rows(sheet, sum, "(_ BitVec 8)", "!26");
}

#[test]
fn whole_numbers_beside_decimals() {
    let Start { mut sheet, seven, half, .. } = start();
    let two = sheet.add_term(TermRecord::Integer(2)).unwrap();
    let at = |op, args: &[TermId], sort| assert_rows(sheet.clone(), TermRecord::Op(op, args), sort, sort);
    for sum in [Operator::Add, Operator::Sub, Operator::Mult] {
        at(sum, &[seven, two], "Int");
        at(sum, &[half, half], "Real");
        for mixed in [vec![seven, half], vec![half, seven], vec![seven, two, half], vec![seven, half, two, half]] {
            at(sum, &mixed, "Real");
        }
    }
    at(Operator::Sub, &[seven], "Int");
    at(Operator::Sub, &[half], "Real");
    for quotient in [vec![seven, two], vec![half, two], vec![seven, half], vec![seven, two, half]] {
        at(Operator::RealDiv, &quotient, "Real");
    }
    for order in [Operator::LessThan, Operator::GreaterThan, Operator::LessEq, Operator::GreaterEq] {
        for mixed in [vec![seven, half], vec![half, two], vec![seven, two, half], vec![half, seven, half]] {
            at(order, &mixed, "Bool");
        }
    }
    // What the request does not name asks for one sort as before.
    let mixed = [seven, half];
    for (op, inferred) in [(Operator::Equals, "Bool"), (Operator::Distinct, "Bool"), (Operator::IntDiv, "Int")] {
        assert_rows(sheet.clone(), TermRecord::Op(op, &mixed), inferred, "!26");
    }
    assert_rows(sheet.clone(), TermRecord::Op(Operator::RealDiv, &[seven]), "Real", "!25");
    let sum = sheet.add_term(TermRecord::Op(Operator::Add, &mixed)).unwrap();
    assert_eq!(sheet.judge().unwrap().explain(sum), Ok(None));
}

#[test]
fn k6_k7() {
    let Start { mut sheet, int, real, bool, seven, .. } = start();
    let sort = SortRecord::Function(&[int, real, bool]);
    let sort = sheet.add_sort(sort).unwrap();
    let head = sheet.add_term(TermRecord::Var(n(1), sort)).unwrap();
    let at = |args: &[TermId], inferred, checked| {
        assert_rows(sheet.clone(), TermRecord::App(head, args), inferred, checked);
    };
    at(&[seven], "(-> Real Bool)", "(-> Real Bool)");
    at(&[seven; 3], "(->)", "!25");
    at(&[seven; 4], "!21", "!25");
}

#[test]
fn k8() {
    let Start { mut sheet, seven, half, .. } = start();
    let var = sheet.add_sort(SortRecord::Var(n(1))).unwrap();
    let set = sheet.add_sort(SortRecord::Set(var)).unwrap();
    let sort = SortRecord::Function(&[var, var, set]);
    let sort = sheet.add_sort(sort).unwrap();
    let sort = sheet.add_sort(SortRecord::Par(&[n(1)], sort)).unwrap();
    let head = sheet.add_term(TermRecord::Var(n(1), sort)).unwrap();
    let text = "(par (n1) (-> 'n1 'n1 (Set 'n1)))".to_owned();
    assert_eq!(rows(&sheet, head), (text.clone(), text));
    let app = TermRecord::App(head, &[seven, half]);
    assert_rows(sheet, app, "!21", "!26");
}

#[test]
fn k9_k11() {
    let Start { mut sheet, int, seven, .. } = start();
    let one = sheet.add_sort(SortRecord::Var(n(1))).unwrap();
    let two = sheet.add_sort(SortRecord::Var(n(2))).unwrap();
    let sort = sheet.add_sort(SortRecord::Function(&[one, two])).unwrap();
    let sort = SortRecord::Par(&[n(1), n(2)], sort);
    let sort = sheet.add_sort(sort).unwrap();
    let head = sheet.add_term(TermRecord::Var(n(1), sort)).unwrap();
    let question = QuestionRecord::Apply { sort, map: &[(n(1), int)] };
    let question = sheet.add_question(question).unwrap();
    let judged = sheet.judge().unwrap();
    let answer = judged.answer(question).unwrap().sort().unwrap().as_ref().unwrap();
    assert_eq!(answer.to_string(), "(par (n2) (-> Int 'n2))");
    assert!(print(&sheet.finish()).ends_with("\nQ0 (par (n2) (-> Int 'n2))\n"));
    assert_rows(sheet, TermRecord::App(head, &[seven]), "'n2", "!27");
}

#[test]
fn k10() {
    let Start { mut sheet, int, real, .. } = start();
    let unit = sheet.add_sort(SortRecord::Tuple(&[])).unwrap();
    let units = sheet.add_sort(SortRecord::Set(unit)).unwrap();
    let pair = sheet.add_sort(SortRecord::Tuple(&[int, real])).unwrap();
    let pairs = sheet.add_sort(SortRecord::Set(pair)).unwrap();
    let left = sheet.add_term(TermRecord::Var(n(1), units)).unwrap();
    let right = sheet.add_term(TermRecord::Var(n(2), pairs)).unwrap();
    let join = TermRecord::Op(Operator::RelJoin, &[left, right]);
    assert_rows(sheet, join, "(Set (Tuple Real))", "!26");
}

#[test]
fn k12() {
    let Start { mut sheet, .. } = start();
    let wide = sheet.add_term(TermRecord::BitVec(65_535)).unwrap();
    let bit = sheet.add_term(TermRecord::BitVec(1)).unwrap();
    let joined = TermRecord::Op(Operator::BvConcat, &[wide, bit]);
    let joined = sheet.add_term(joined).unwrap();
    let judged = sheet.judge().unwrap();
    assert_eq!(*judged.inferred(joined).unwrap(), Err(Cause::Limit));
    assert_eq!(*judged.checked(joined).unwrap(), Err(Cause::Limit));
    assert_eq!(rows(&sheet, joined), ("!22".to_owned(), "!22".to_owned()));
}

#[test]
fn questions() {
    let Start { mut sheet, int, real, bool, .. } = start();
    let var = sheet.add_sort(SortRecord::Var(n(1))).unwrap();
    let set = sheet.add_sort(SortRecord::Set(var)).unwrap();
    let ints = sheet.add_sort(SortRecord::Set(int)).unwrap();
    let array = sheet.add_sort(SortRecord::Array(var, bool)).unwrap();
    let names = &[n(1)];
    let mut ask = |pattern, target| {
        let question = QuestionRecord::Match { pattern, target, result: array, names };
        sheet.add_question(question).unwrap()
    };
    let fits = ask(set, ints);
    let none = ask(ints, set);
    let unfit = ask(set, int);
    let no = sheet.add_question(QuestionRecord::Compatible(int, real)).unwrap();
    let judged = sheet.judge().unwrap();
    let answer = judged.answer(fits).unwrap().sort().unwrap().as_ref().unwrap();
    assert_eq!(answer.to_string(), "(Array Int Bool)");
    assert_eq!(judged.answer(none).unwrap().sort(), Some(&Err(Cause::Barred)));
    assert_eq!(judged.answer(unfit).unwrap().sort(), Some(&Err(Cause::NoAssignment)));
    assert_eq!(judged.answer(no).unwrap().yes_or_no(), Some(false));
    let lines = "Q0 (Array Int Bool)\nQ1 !28\nQ2 !29\nQ3 no\n";
    assert!(print(&sheet.finish()).ends_with(lines));
}

/// A match that keeps what is given for some names.
#[test]
fn questions_that_continue() {
    let Start { mut sheet, int, real, bool, .. } = start();
    let [one, two] = [1, 2].map(|name| sheet.add_sort(SortRecord::Var(n(name))).unwrap());
    let pattern = sheet.add_sort(SortRecord::Array(one, bool)).unwrap();
    let target = sheet.add_sort(SortRecord::Array(int, bool)).unwrap();
    let pair = sheet.add_sort(SortRecord::Tuple(&[one, two])).unwrap();
    let result = sheet.add_sort(SortRecord::Par(&[n(1), n(2), n(3)], pair)).unwrap();
    let mut ask = |given| {
        let question = QuestionRecord::Continue { pattern, target, result, given, names: &[n(2), n(1)] };
        sheet.add_question(question).unwrap()
    };
    // Nothing is given; what the match would find; a name that the pattern lacks; another sort; a parameter; a sort with one.
    let given: [&[_]; 6] =
        [&[], &[(n(1), int)], &[(n(2), real)], &[(n(2), real), (n(1), bool)], &[(n(1), two)], &[(n(2), pattern)]];
    let asked = given.map(&mut ask);
    let judged = sheet.judge().unwrap();
    let answer = |question| judged.answer(question).unwrap().sort().unwrap().as_ref().map(|sort| sort.to_string());
    for question in &asked[..2] {
        assert_eq!(answer(*question), Ok("(par (n2 n3) (Tuple Int 'n2))".to_owned()));
    }
    assert_eq!(answer(asked[2]), Ok("(par (n3) (Tuple Int Real))".to_owned()));
    assert_eq!(answer(asked[3]), Err(&Cause::NoAssignment));
    assert_eq!((answer(asked[4]), answer(asked[5])), (Err(&Cause::Barred), Err(&Cause::Barred)));
    assert!(print(&sheet.finish()).ends_with("\nQ3 !29\nQ4 !28\nQ5 !28\n"));
}

/// The rule that takes a session for its account; the same sheet as the program's example.
#[test]
fn session_for_account() {
    let sheet = bytes(
        "050008000000 1301010000 1301020000 0103 11000200000100 11000201000200
         0b0503000000 0b0504000300 0b0505000400 11060201000000 11060202000300 11060202000000
         1507030000000204000500 1507070000000200000300",
    );
    let expected = "T0 n1 n1\nT1 (-> n1 n2) (-> n1 n2)\nT2 (-> n2 Bool) (-> n2 Bool)\nT3 n2 n2\n\
                    T4 Bool Bool\nT5 Bool !26\nT6 Bool !20\nT7 Bool !26\n";
    assert_eq!(print(&sheet), expected);
}

/// The rule that adds whole steps to the decimal power of a prism; the same sheet as the example.
#[test]
fn steps_added_to_a_power() {
    let mut sheet = SheetWriter::new();
    let [real, int, bool] =
        [SortRecord::Real, SortRecord::Int, SortRecord::Bool].map(|sort| sheet.add_sort(sort).unwrap());
    let mut add = |term: TermRecord<'_>| sheet.add_term(term).unwrap();
    let [power, steps, limit, allowed] =
        [(1, real), (2, int), (3, real), (4, bool)].map(|(name, sort)| add(TermRecord::Var(n(name), sort)));
    let sum = add(TermRecord::Op(Operator::Add, &[power, steps]));
    let within = add(TermRecord::Op(Operator::LessEq, &[sum, limit]));
    let rule = add(TermRecord::Op(Operator::Implies, &[within, allowed]));
    let four = add(TermRecord::Integer(4));
    let quarter = add(TermRecord::Op(Operator::RealDiv, &[steps, four]));
    let less = add(TermRecord::Op(Operator::LessThan, &[steps, limit]));
    let equal = add(TermRecord::Op(Operator::Equals, &[power, steps]));
    assert_eq!(hex(&sheet.finish()), hex(&recorded::read("examples/prism.sheet")));
    let both = |term: TermId| rows(&sheet, term);
    let same = |text: &str| (text.to_owned(), text.to_owned());
    assert_eq!([sum, quarter].map(both), [same("Real"), same("Real")]);
    assert_eq!([within, rule, less].map(both), [same("Bool"), same("Bool"), same("Bool")]);
    assert_eq!(both(equal), ("Bool".to_owned(), "!26".to_owned()));
}

/// The rule on shops that share branches, and a join whose touching columns do not agree; the same sheet as the example.
#[test]
fn branches_of_shops() {
    let mut sheet = SheetWriter::new();
    let mut sort = |record: SortRecord<'_>| sheet.add_sort(record).unwrap();
    let [shop, branch] = [1, 2].map(|name| sort(SortRecord::Atom(n(name), &[])));
    let shops = sort(SortRecord::Set(shop));
    let pair = sort(SortRecord::Tuple(&[shop, branch]));
    let relation = sort(SortRecord::Set(pair));
    let mut var = |name, sort| sheet.add_term(TermRecord::Var(n(name), sort)).unwrap();
    let [here, there] = [3, 4].map(|name| var(name, shop));
    let open = var(5, shops);
    let [runs, leases] = [6, 7].map(|name| var(name, relation));
    let mut add = |operator, list: &[TermId]| sheet.add_term(TermRecord::Op(operator, list)).unwrap();
    let there_open = add(Operator::SetMember, &[there, open]);
    let has = add(Operator::SetUnion, &[runs, leases]);
    let back = add(Operator::RelTranspose, &[has]);
    let share = add(Operator::RelJoin, &[has, back]);
    let linked = add(Operator::RelTclosure, &[share]);
    let both = add(Operator::Tuple, &[here, there]);
    let are_linked = add(Operator::SetMember, &[both, linked]);
    let rule = add(Operator::Implies, &[are_linked, there_open]);
    let product = add(Operator::RelProduct, &[runs, leases]);
    let apart = add(Operator::RelJoin, &[has, has]);
    let above = add(Operator::SetMember, &[both, apart]);
    assert_eq!(hex(&sheet.finish()), hex(&recorded::read("examples/branches.sheet")));
    let agrees = |terms: &[TermId], text: &str| {
        for term in terms {
            assert_eq!(rows(&sheet, *term), (text.to_owned(), text.to_owned()));
        }
    };
    agrees(&[there_open, are_linked, rule], "Bool");
    agrees(&[has], "(Set (Tuple n1 n2))");
    agrees(&[back], "(Set (Tuple n2 n1))");
    agrees(&[share, linked], "(Set (Tuple n1 n1))");
    agrees(&[both], "(Tuple n1 n1)");
    agrees(&[product], "(Set (Tuple n1 n2 n1 n2))");
    assert_eq!(rows(&sheet, apart), ("(Set (Tuple n1 n2))".to_owned(), "!26".to_owned()));
    assert_eq!(rows(&sheet, above), ("Bool".to_owned(), "!20".to_owned()));
}
