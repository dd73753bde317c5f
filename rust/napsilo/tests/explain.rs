//! Explanations in words. What is expected is read off the ranks of the specification and off carcara's cases.

mod common;

use common::explained::{Made, array, function, indexed, op};
use napsilo::{
    Argument, Binder, Cause, Column, Expected, Explanation, ForeignId, Found, Lent, Operator, ParamOperator,
    QualifiedOperator, Role, SheetWriter, Sort, TermId, TermRecord, judge_with,
};
use std::sync::Arc;

/// The rule that takes a session for its account: the fields, the text, and the way down from the rule.
#[test]
fn session_for_account() {
    let mut made = Made::default();
    let session = Sort::Atom(made.names.name("Session").unwrap(), vec![]);
    let account = Sort::Atom(made.names.name("Account").unwrap(), vec![]);
    let current = made.var("current", &session);
    let locked = made.var("locked", &function(&[account.clone(), Sort::Bool]));
    let holder = made.var("holder", &account);
    let right = made.term(TermRecord::App(locked, &[holder]));
    let wrong = made.term(TermRecord::App(locked, &[current]));
    let rule = made.term(TermRecord::Op(Operator::Implies, &[right, wrong]));
    let all = made.term(TermRecord::Op(Operator::And, &[right, rule, wrong]));
    let judged = made.sheet.judge().unwrap();
    assert_eq!(judged.explain(right), Ok(None));
    assert_eq!(judged.explain_inferred(all), Ok(None));
    for asked in [wrong, rule, all] {
        let explanation = judged.explain(asked).unwrap().unwrap();
        assert_eq!((explanation.asked, explanation.term, explanation.column), (asked, wrong, Column::Checked));
        assert_eq!(explanation.cause, Cause::Misfit);
        let argument = Argument { role: Role::Argument, position: 1, term: Some(current) };
        assert_eq!(explanation.argument, Some(argument));
        assert_eq!(explanation.found, Some(Found::Sort(Arc::new(session.clone()))));
        assert_eq!(explanation.expected, Some(Expected::Sort(Arc::new(account.clone()))));
    }
    let text = |term: TermId| judged.explain(term).unwrap().unwrap().with_names(&made.names).to_string();
    let reason = "T4 (locked current): argument 1, current, has sort Session, expected Account (!26)";
    assert_eq!(text(wrong), reason);
    assert_eq!(text(all), format!("T6 holds {reason}"));
    let plain = judged.explain(wrong).unwrap().unwrap().to_string();
    assert_eq!(plain, "T4 (n4 n3): argument 1, n3, has sort n1, expected n2 (!26)");
    let lines = made.sheet.judge().unwrap().with_names(&made.names).to_string();
    assert!(lines.starts_with("T0 Session Session\nT1 (-> Account Bool) (-> Account Bool)\n"));
    assert!(lines.ends_with("T4 Bool !26\nT5 Bool !20\nT6 Bool !20\n"));
}

/// 26 of operators: the first argument that does not fit those before it.
#[test]
fn arguments_of_operators() {
    let mut made = Made::default();
    let [i, r, b, s] = [("i", Sort::Int), ("r", Sort::Real), ("b", Sort::Bool), ("s", Sort::String)]
        .map(|(name, sort)| made.var(name, &sort));
    let [v, w] = [("v", 8), ("w", 9)].map(|(name, width)| made.var(name, &Sort::BitVec(width)));
    let a = made.var("a", &array(Sort::Int, Sort::Real));
    made.says(op(Operator::And, &[b, b, i]), "(and b b i): argument 3, i, has sort Int, expected Bool (!26)");
    made.says(op(Operator::IntDiv, &[i, r]), "(div i r): argument 2, r, has sort Real, expected Int (!26)");
    made.says(op(Operator::ToReal, &[r]), "(to_real r): argument 1, r, has sort Real, expected Int (!26)");
    made.says(op(Operator::Equals, &[i, i, r]), "(= i i r): argument 3, r, has sort Real, expected Int (!26)");
    made.says(op(Operator::Ite, &[b, i, r]), "(ite b i r): argument 3, r, has sort Real, expected Int (!26)");
    made.says(op(Operator::Ite, &[i, i, r]), "(ite i i r): argument 1, i, has sort Int, expected Bool (!26)");
    made.says(op(Operator::Select, &[i, i]), "(select i i): argument 1, i, has sort Int, expected an array (!26)");
    made.says(op(Operator::Select, &[a, r]), "(select a r): argument 2, r, has sort Real, expected Int (!26)");
    made.says(op(Operator::Store, &[a, i, i]), "(store a i i): argument 3, i, has sort Int, expected Real (!26)");
    made.says(
        op(Operator::BvAdd, &[v, w]),
        "(bvadd v w): argument 2, w, has sort (_ BitVec 9), expected (_ BitVec 8) (!26)",
    );
    made.says(
        op(Operator::BvConcat, &[v, s]),
        "(concat v s): argument 2, s, has sort String, expected a bit vector (!26)",
    );
}

/// 26 of sums, differences, products, quotients and orders: the first argument that is no number. Int and Real beside each other are no fault.
#[test]
fn arguments_that_are_numbers() {
    let mut made = Made::default();
    let [i, r, b, s] = [("i", Sort::Int), ("r", Sort::Real), ("b", Sort::Bool), ("s", Sort::String)]
        .map(|(name, sort)| made.var(name, &sort));
    let x = made.names.name("X").unwrap();
    let x = made.var("x", &Sort::Var(x));
    let mixed = made.term(op(Operator::Add, &[i, r, i]));
    made.says(op(Operator::Add, &[b, r]), "(+ b r): argument 1, b, has sort Bool, expected Int or Real (!26)");
    made.says(op(Operator::Add, &[i, s, r]), "(+ i s r): argument 2, s, has sort String, expected Int or Real (!26)");
    made.says(op(Operator::Sub, &[x]), "(- x): argument 1, x, has sort 'X, expected Int or Real (!26)");
    made.says(op(Operator::Mult, &[r, i, b]), "(* r i b): argument 3, b, has sort Bool, expected Int or Real (!26)");
    made.says(op(Operator::RealDiv, &[i, b]), "(/ i b): argument 2, b, has sort Bool, expected Int or Real (!26)");
    for order in [Operator::LessThan, Operator::GreaterThan, Operator::LessEq, Operator::GreaterEq] {
        let text = format!("({order} r i b): argument 3, b, has sort Bool, expected Int or Real (!26)");
        made.says(op(order, &[r, i, b]), &text);
    }
    let text = "(= i (+ i r i)): argument 2, (+ i r i), has sort Real, expected Int (!26)";
    made.says(op(Operator::Equals, &[i, mixed]), text);
    made.says(op(Operator::RealDiv, &[i]), "(/ i): found 1, expected at least 2 arguments (!25)");
    made.says(op(Operator::LessThan, &[r]), "(< r): found 1, expected at least 2 arguments (!25)");
}

/// 26 of a parametric variable that is no head, of bodies and of `as`.
#[test]
fn values_and_bodies() {
    let mut made = Made::default();
    let [i, b] = [("i", Sort::Int), ("b", Sort::Bool)].map(|(name, sort)| made.var(name, &sort));
    let name = made.names.name("X").unwrap();
    let par = Sort::Par(vec![name], Arc::new(function(&[Sort::Var(name), Sort::Bool])));
    let p = made.var("p", &par);
    let sort = "(par (X) (-> 'X Bool))";
    let text = format!("(= p p): argument 1, p, has sort {sort}, expected a sort that is not parametric (!26)");
    made.says(op(Operator::Equals, &[p, p]), &text);
    let text = format!("(let ((X p)) b): value 1, p, has sort {sort}, expected a sort that is not parametric (!26)");
    made.says(TermRecord::Let(&[(name, p)], b), &text);
    let text =
        format!("(let ((X b)) p): the inner term, p, has sort {sort}, expected a sort that is not parametric (!26)");
    made.says(TermRecord::Let(&[(name, b)], p), &text);
    let int = made.sheet.sort(&Sort::Int).unwrap();
    made.says(
        TermRecord::Binder(Binder::Exists, &[(name, int)], i),
        "(exists ((X Int)) i): the body, i, has sort Int, expected Bool (!26)",
    );
    made.says(
        TermRecord::AsOp(QualifiedOperator::Const, int, &[i]),
        "((as const Int) i): its sort is Int, expected an array (!26)",
    );
}

/// 26 of applications: the head, and what a parametric head asks after its first arguments.
#[test]
fn arguments_of_applications() {
    let mut made = Made::default();
    let [x, y] = ["X", "Y"].map(|name| Sort::Var(made.names.name(name).unwrap()));
    let names = ["X", "Y"].map(|name| made.names.name(name).unwrap()).to_vec();
    let [i, b] = [("i", Sort::Int), ("b", Sort::Bool)].map(|(name, sort)| made.var(name, &sort));
    let set = |sort: &Sort| Sort::Set(Arc::new(sort.clone()));
    let ints = made.var("ints", &set(&Sort::Int));
    // insert : X (Set X) -> (Set X), get : (Array X Y) X -> Y, with the parameters X and Y
    let insert = function(&[x.clone(), set(&x), set(&x)]);
    let insert = made.var("insert", &Sort::Par(names.clone(), Arc::new(insert)));
    let get = function(&[array(x.clone(), y.clone()), x.clone(), y.clone()]);
    let get = made.var("get", &Sort::Par(names, Arc::new(get)));
    let text = "(insert b ints): argument 2, ints, has sort (Set Int), expected (Set Bool) (!26)";
    made.says(TermRecord::App(insert, &[b, ints]), text);
    let text = "(get i): argument 1, i, has sort Int, expected (Array 'X 'Y) for some 'X, 'Y (!26)";
    made.says(TermRecord::App(get, &[i]), text);
    made.says(TermRecord::App(i, &[b]), "(i b): the head, i, has sort Int, expected a function (!26)");
    // A parameter takes every sort but a parametric one, where no argument before has assigned it.
    let sort = "(par (X Y) (-> (Array 'X 'Y) 'X 'Y))";
    let text = format!("(insert get): argument 1, get, has sort {sort}, expected a sort that is not parametric (!26)");
    made.says(TermRecord::App(insert, &[get]), &text);
    let text = format!("(insert i get): argument 2, get, has sort {sort}, expected (Set Int) (!26)");
    made.says(TermRecord::App(insert, &[i, get]), &text);
    // A variable of an argument's sort is not the head's parameter, even with its name.
    let own = made.var("own", &y);
    let pair = made.names.name("pair").unwrap();
    let both = Sort::Atom(pair, vec![Arc::new(x.clone()), Arc::new(y.clone())]);
    let parameters = vec![made.names.name("X").unwrap(), made.names.name("Y").unwrap()];
    let both = made.var("both", &Sort::Par(parameters, Arc::new(function(&[x, both, Sort::Bool]))));
    let term = made.term(TermRecord::App(both, &[own, i]));
    let Some(Expected::Form(form, free)) = made.checked(term).expected else { panic!("a form") };
    let Sort::Atom(name, parts) = form.as_ref() else { panic!("of pairs: {form}") };
    assert_eq!((*name, parts[0].as_ref()), (pair, &y));
    assert_eq!((free.len(), parts[1].as_ref()), (1, &Sort::Var(free[0])));
    assert_ne!(parts[0], parts[1]);
}

/// 25: counts of arguments, bindings, values and indices, and the indices themselves.
#[test]
fn counts_and_indices() {
    let mut made = Made::default();
    let [i, b] = [("i", Sort::Int), ("b", Sort::Bool)].map(|(name, sort)| made.var(name, &sort));
    let v = made.var("v", &Sort::BitVec(8));
    let f = made.var("f", &function(&[Sort::Int, Sort::Int, Sort::Bool]));
    let c = made.var("c", &function(&[Sort::Int]));
    let [zero, one, three, eight] = [0, 1, 3, 8].map(|value| made.integer(value));
    made.says(op(Operator::And, &[b]), "(and b): found 1, expected at least 2 arguments (!25)");
    made.says(op(Operator::Sub, &[]), "-: found 0, expected at least 1 argument (!25)");
    made.says(op(Operator::Not, &[b, b]), "(not b b): found 2, expected 1 argument (!25)");
    made.says(op(Operator::True, &[b]), "(true b): found 1, expected 0 arguments (!25)");
    made.says(TermRecord::App(f, &[i, i, i]), "(f i i i): found 3, expected 1 or 2 arguments (!25)");
    made.says(TermRecord::App(i, &[]), "(i): found 0, expected at least 1 argument (!25)");
    let text = "(c i): the head, c, has sort (-> Int), expected a function that takes an argument (!25)";
    made.says(TermRecord::App(c, &[i]), text);
    made.says(TermRecord::Let(&[], i), "(let () i): found 0, expected at least 1 value (!25)");
    let int = made.sheet.sort(&Sort::Int).unwrap();
    let x = made.names.name("x").unwrap();
    made.says(TermRecord::Binder(Binder::Forall, &[], b), "(forall () b): found 0, expected at least 1 binding (!25)");
    let text = "(choice ((x Int) (x Int)) b): found 2, expected 1 binding (!25)";
    made.says(TermRecord::Binder(Binder::Choice, &[(x, int), (x, int)], b), text);
    let extract = ParamOperator::BvExtract;
    made.says(indexed(extract, &[three], &[v]), "((_ extract 3) v): found 1, expected 2 indices (!25)");
    made.says(indexed(extract, &[three, one], &[v, v]), "((_ extract 3 1) v v): found 2, expected 1 argument (!25)");
    let text = "((_ extract 3 i) v): index 2, i, is no integer constant, expected an integer constant (!25)";
    made.says(indexed(extract, &[three, i], &[v]), text);
    made.says(indexed(extract, &[eight, one], &[v]), "((_ extract 8 1) v): index 1 is 8, expected 0 to 7 (!25)");
    made.says(indexed(extract, &[one, three], &[v]), "((_ extract 1 3) v): index 2 is 3, expected 0 to 1 (!25)");
    made.says(indexed(extract, &[zero, three], &[v]), "((_ extract 0 3) v): index 2 is 3, expected 0 (!25)");
    made.says(
        indexed(ParamOperator::Repeat, &[zero], &[v]),
        "((_ repeat 0) v): index 1 is 0, expected at least 1 (!25)",
    );
}

/// 24, 27 and 28.
#[test]
fn other_causes() {
    let mut made = Made::default();
    let r = made.var("r", &Sort::Real);
    made.says(op(Operator::Sin, &[r]), "(sin r): the operator has no rank (!24)");
    let names = ["X", "Y"].map(|name| made.names.name(name).unwrap());
    let result = function(&[Sort::Var(names[0]), Sort::Var(names[1])]);
    let f = made.var("f", &Sort::Par(names.to_vec(), Arc::new(result)));
    let text = "(f r): no argument assigns the parameter Y, which stands in the result 'Y (!27)";
    made.says(TermRecord::App(f, &[r]), text);
    let term = made.var("odd", &array(Sort::Int, Sort::ParamBitVec));
    let text = "odd: its sort is (Array Int (_ BitVec ?)), which holds (_ BitVec ?), and that may not stand here (!28)";
    assert_eq!(made.checked(term).with_names(&made.names).to_string(), format!("T{} {text}", term.number()));
    made.says(TermRecord::BitVec(0), "<(_ BitVec 0)>: its sort is (_ BitVec 0), and that may not stand here (!28)");
    let (int, kind) = (made.sheet.sort(&Sort::Int).unwrap(), made.sheet.sort(&Sort::Type).unwrap());
    let [x, y] = names;
    made.says(
        TermRecord::Binder(Binder::Lambda, &[(x, int), (y, kind)], r),
        "(lambda ((X Int) (Y Type)) r): the sort of binding 2 is Type, and that may not stand here (!28)",
    );
}

/// 22 and 23.
#[test]
fn limits() {
    let mut made = Made::default();
    let r = made.var("r", &Sort::Real);
    let x = made.names.name("x").unwrap();
    let int = made.sheet.sort(&Sort::Int).unwrap();
    let [wide, bit] = [65_535, 1].map(|width| made.term(TermRecord::BitVec(width)));
    made.says(
        op(Operator::BvConcat, &[wide, bit]),
        "(concat <(_ BitVec 65535)> <(_ BitVec 1)>): the answer would be 65536 bits wide, expected at most 65535 (!22)",
    );
    let term = made.term(TermRecord::Binder(Binder::Lambda, &[(x, int); 64], r));
    let explanation = made.checked(term);
    assert_eq!((explanation.found, explanation.expected), (Some(Found::List(65)), Some(Expected::AtMost(64))));
    let tree = (0..11).fold(Sort::Int, |sort, _| array(sort.clone(), sort));
    let large = made.sheet.sort(&tree).unwrap();
    let term = made.term(TermRecord::Binder(Binder::Lambda, &[(x, large)], r));
    let explanation = made.checked(term);
    assert_eq!((explanation.found, explanation.expected), (Some(Found::Tree(4_097)), Some(Expected::AtMost(4_096))));
    // A store with room for the sheet's one sort.
    let mut small = SheetWriter::new();
    let constant = small.add_term(TermRecord::Integer(1)).unwrap();
    let sum = small.add_term(TermRecord::Op(Operator::Equals, &[constant, constant])).unwrap();
    let lent = Lent { records: 4, places: 1, ..Lent::PROGRAM };
    let judged = judge_with(&small.finish(), lent).unwrap();
    let text = |explanation: Option<Explanation>| explanation.unwrap().to_string();
    let reason = "T1 (= 1 1): the store cannot hold the answer's sorts";
    assert_eq!(text(judged.explain(sum).unwrap()), format!("{reason} (!23)"));
    assert_eq!(text(judged.explain_inferred(sum).unwrap()), format!("{reason} (!23, inferred)"));
}

/// 21: where carcara's Rust indexes, unwraps or takes apart what is not there.
#[test]
fn panics_of_inference() {
    let mut made = Made::default();
    let [i, b] = [("i", Sort::Int), ("b", Sort::Bool)].map(|(name, sort)| made.var(name, &sort));
    let v = made.var("v", &Sort::BitVec(8));
    let f = made.var("f", &function(&[Sort::Int, Sort::Bool]));
    let unit = made.var("unit", &Sort::Set(Arc::new(Sort::Tuple(vec![]))));
    let [one, three] = [1, 3].map(|value| made.integer(value));
    let says = "carcara's Rust panics:";
    let text = format!("(select i i): {says} argument 1, i, has sort Int, expected an array");
    made.panics(op(Operator::Select, &[i, i]), &text);
    made.panics(op(Operator::Ite, &[b]), &format!("(ite b): {says} found 1, expected at least 2 arguments"));
    let text = format!("(bvadd b v): {says} argument 1, b, has sort Bool, expected a bit vector");
    made.panics(op(Operator::BvAdd, &[b, v]), &text);
    let text = format!(
        "(rel.join unit unit): {says} argument 2, unit, has sort (Set (Tuple)), expected a set of tuples with at least 1 entry"
    );
    made.panics(op(Operator::RelJoin, &[unit, unit]), &text);
    made.panics(TermRecord::App(i, &[]), &format!("(i): {says} the head, i, has sort Int, expected a function"));
    let text = format!("(f i i i): {says} found 3, expected 0 to 2 arguments");
    made.panics(TermRecord::App(f, &[i, i, i]), &text);
    let text = format!("((_ extract 1 3) v): {says} index 2 is 3, expected 0 to 1");
    made.panics(indexed(ParamOperator::BvExtract, &[one, three], &[v]), &text);
    let text = format!("((_ zero_extend 1) i): {says} argument 1, i, has sort Int, expected a bit vector");
    made.panics(indexed(ParamOperator::ZeroExtend, &[one], &[i]), &text);
    let text = format!("(_ bv 1 3): {says} it has no case for this term");
    made.panics(indexed(ParamOperator::BvConst, &[one, three], &[]), &text);
    made.panics(TermRecord::Match(i, &[]), &format!("(match i): {says} found 0, expected at least 1 case"));
    let text = format!("(choice () b): {says} found 0, expected at least 1 binding");
    made.panics(TermRecord::Binder(Binder::Choice, &[], b), &text);
}

/// 21 of a parametric head: a Par inside it has names of its own, which stand for themselves behind it, whatever they were assigned.
#[test]
fn panics_of_parametric_heads() {
    let mut made = Made::default();
    let [x, y] = ["X", "Y"].map(|name| made.names.name(name).unwrap());
    let i = made.var("i", &Sort::Int);
    let inner = Sort::Par(vec![y], Arc::new(Sort::Var(y)));
    let g = function(&[inner, Sort::Var(y), Sort::Var(y)]);
    let g = made.var("g", &Sort::Par(vec![x], Arc::new(g)));
    let own = made.var("own", &Sort::Var(y));
    let text = "(g i i): carcara's Rust panics: argument 2, i, has sort Int, expected 'Y";
    made.panics(TermRecord::App(g, &[i, i]), text);
    let as_asked = made.term(TermRecord::App(g, &[i, own]));
    let judged = made.sheet.judge().unwrap();
    assert_eq!(judged.inferred(as_asked).unwrap().as_deref(), Ok(&Sort::Int));
}

/// An inferred row over one that panics is told by that one.
#[test]
fn panics_below() {
    let mut made = Made::default();
    let says = "carcara's Rust panics:";
    let inner = made.term(op(Operator::Abs, &[]));
    let outer = made.term(op(Operator::Not, &[inner]));
    let text = made.inferred(outer).to_string();
    assert_eq!(
        text,
        format!(
            "T{} holds T{} abs: {says} found 0, expected at least 1 argument (!21, inferred)",
            outer.number(),
            inner.number()
        )
    );
}

/// The text of a term of each kind.
#[test]
fn terms_in_words() {
    let mut made = Made::default();
    let (i, x) = (made.var("i", &Sort::Int), made.names.name("x").unwrap());
    let f = made.var("f", &function(&[Sort::Int, Sort::Int]));
    let (int, ints) = (made.sheet.sort(&Sort::Int).unwrap(), made.sheet.sort(&array(Sort::Int, Sort::Int)).unwrap());
    let seven = made.integer(7);
    for (record, text) in [
        (TermRecord::Integer(12), "12"),
        (TermRecord::Real, "<Real>"),
        (TermRecord::String, "<String>"),
        (TermRecord::RegLan, "<RegLan>"),
        (TermRecord::BitVec(8), "<(_ BitVec 8)>"),
        (TermRecord::App(f, &[i]), "(f i)"),
        (TermRecord::App(f, &[]), "(f)"),
        (op(Operator::True, &[]), "true"),
        (op(Operator::Add, &[i, seven]), "(+ i 7)"),
        (TermRecord::Binder(Binder::Forall, &[(x, int), (x, ints)], i), "(forall ((x Int) (x (Array Int Int))) i)"),
        (TermRecord::Let(&[(x, i), (x, seven)], f), "(let ((x i) (x 7)) f)"),
        (TermRecord::Match(i, &[seven, f]), "(match i 7 f)"),
        (indexed(ParamOperator::ReLoop, &[seven, i], &[f]), "((_ re.loop 7 i) f)"),
        (indexed(ParamOperator::BvConst, &[seven], &[]), "(_ bv 7)"),
        (TermRecord::AsOp(QualifiedOperator::Const, ints, &[i]), "((as const (Array Int Int)) i)"),
        (TermRecord::AsOp(QualifiedOperator::SetEmpty, int, &[]), "(as set.empty Int)"),
    ] {
        let term = made.term(record);
        let judged = made.sheet.judge().unwrap();
        assert_eq!(judged.term_text(term, Some(&made.names)).as_deref(), Ok(text));
    }
    let judged = made.sheet.judge().unwrap();
    assert_eq!(judged.term_text(f, None).as_deref(), Ok("n3"));
    let other = Made::default().integer(1);
    assert_eq!(judged.term_text(other, None), Err(ForeignId));
}

/// Terms far inside are named by their numbers, so that the text stays short.
#[test]
fn long_terms() {
    let mut made = Made::default();
    let (b, i) = (made.var("b", &Sort::Bool), made.var("i", &Sort::Int));
    let mut term = made.term(op(Operator::Not, &[b]));
    for _ in 0..60 {
        term = made.term(op(Operator::And, &[term, term]));
    }
    let last = made.term(op(Operator::Or, &[term, i]));
    let text = made.checked(last).with_names(&made.names).to_string();
    assert_eq!(text, "T63 (or (and (and T60 T60) (and T60 T60)) i): argument 2, i, has sort Int, expected Bool (!26)");
}
