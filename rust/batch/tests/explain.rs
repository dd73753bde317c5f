//! Why a row is refused: what a batch tells is what one sheet tells that has all the terms; and texts by hand, from the ranks.

#[path = "common/make.rs"]
mod make;
#[path = "common/random.rs"]
mod random;
#[path = "common/start.rs"]
mod start;

use napsilo::{Binder, Cause, Explanation, Judged, Names, Operator, ParamOperator, Refusal, Role, TermId, judge};
use napsilo_batch::{Batch, BatchSort, BatchTerm, Explained, Judge, Library, Limits, Refused, Row, SortNode, TermNode};
use random::Random;
use start::{Start, start};
use std::collections::BTreeMap;

/// How often each cause was explained, how often a part was named, and how often the whole lines were the same.
#[derive(Default)]
struct Counts {
    causes: BTreeMap<u32, usize>,
    parts: usize,
    same: usize,
}

/// What a whole sheet tells of a row of a term.
fn on_the_sheet(judged: &Judged, term: TermId, row: Row) -> Option<Explanation> {
    let told = match row {
        Row::Inferred => judged.explain_inferred(term),
        Row::Checked => judged.explain(term),
    };
    told.expect("a term of the sheet")
}

/// A text without the bars of names.
fn unbarred(text: impl ToString) -> String {
    text.to_string().replace('|', "")
}

/// Whether terms are named by their numbers in a text: a `T` before a number.
fn is_numbered(text: &str) -> bool {
    let mut words = text.split(|c: char| !c.is_alphanumeric());
    words.any(|word| word.strip_prefix('T').is_some_and(|rest| rest.starts_with(|c: char| c.is_ascii_digit())))
}

/// What a text says behind the term and the part that are concerned: what came, what was asked for, the number.
fn behind(judged: &Judged, told: &Explanation) -> String {
    let text = told.to_string();
    let term = judged.term_text(told.term, None).expect("a term of the sheet");
    let (_, reason) = text.split_once(&format!("{term}: ")).expect("the term comes first");
    let part = told.argument.and_then(|argument| argument.term);
    let shown = part.map(|part| format!(", {}, ", judged.term_text(part, None).expect("a term of the sheet")));
    match shown.and_then(|shown| reason.split_once(&shown)) {
        Some((_, rest)) => rest.to_owned(),
        None => reason.to_owned(),
    }
}

/// Compares what a batch tells of the terms of an accepted sheet with what the sheet tells.
fn compare(sheet: &[u8], limits: Limits, counts: &mut Counts) {
    let judged = judge(sheet).expect("an accepted sheet");
    let mut batch = Batch::new();
    let terms = batch.add_sheet(sheet).expect("an accepted sheet");
    let verdicts = batch.judge_by(&mut Library, limits);
    for (term, id) in terms.iter().zip(judged.terms()) {
        for row in [Row::Inferred, Row::Checked] {
            let told = on_the_sheet(&judged, id, row);
            let own = verdicts.explain(*term, row);
            assert_eq!(own.is_none(), told.is_none(), "T{} {row:?}, sheet {sheet:02x?}", id.number());
            let (Some(told), Some(own)) = (told, own) else { continue };
            assert_eq!(own.term, terms[told.term.index()]);
            assert_eq!(Err(own.refused), verdicts.verdict(own.term, row));
            same(&judged, &told, &own, counts);
        }
    }
}

/// Asserts that both tell the same: the cause, the part, its sort and what was asked for; and all words, if the terms are small.
fn same(judged: &Judged, told: &Explanation, own: &Explained, counts: &mut Counts) {
    let (line, own_line) = (unbarred(told.unnumbered(&Names::new())), unbarred(own));
    assert_eq!(own.refused, Refused::Row(told.cause));
    assert_eq!(own.part, told.argument.map(|argument| (argument.role, argument.position)), "{line} / {own_line}");
    assert!(own_line.ends_with(&unbarred(behind(judged, told))), "{line} / {own_line}");
    assert!(!is_numbered(&own_line), "{own_line}");
    if !is_numbered(&line) && !own_line.contains("..") {
        assert_eq!(own_line, line);
        counts.same += 1;
    }
    *counts.causes.entry(told.cause.number()).or_insert(0) += 1;
    counts.parts += usize::from(own.part.is_some());
}

/// How little is put on a sheet.
const SMALL: [Limits; 2] = [Limits { sorts: 4, terms: 8, bytes: 200 }, Limits::SHEET];

#[test]
fn random_sheets() {
    let (mut random, mut counts) = (Random(5), Counts::default());
    for at in 0..400 {
        let terms = 20 + random.under(60);
        compare(&make::sheet(&mut random, terms), SMALL[at % 2], &mut counts);
    }
    let Counts { causes, parts, same } = counts;
    println!("{causes:?}, {parts} with a part, {same} the same");
    for cause in [Cause::Panics, Cause::NoRank, Cause::Count, Cause::Misfit] {
        assert!(causes[&cause.number()] > 300, "{cause}");
    }
    assert!(parts > 5_000 && same > 5_000);
}

#[test]
fn recorded_sheets() {
    let mut counts = Counts::default();
    for recorded::Printed { sheet, text } in recorded::printed() {
        // For want of room a sheet says less than several do.
        if text.lines().any(|line| line.starts_with('T')) && !text.contains("!23") {
            compare(&sheet, Limits::SHEET, &mut counts);
        }
    }
    let Counts { causes, parts, same } = counts;
    println!("{causes:?}, {parts} with a part, {same} the same");
    // All but 20, which is told of the term below, 23, and 29, which no row has.
    let numbers: Vec<u32> = causes.keys().copied().collect();
    assert_eq!(numbers, [21, 22, 24, 25, 26, 27, 28]);
    assert!(parts > 5_000 && same > 5_000);
}

/// A variable.
fn var(batch: &mut Batch, name: &str, sort: BatchSort) -> BatchTerm {
    let name = batch.name(name);
    batch.term(TermNode::Var(name, sort))
}

/// An operator over arguments.
fn op(batch: &mut Batch, op: Operator, args: &[BatchTerm]) -> BatchTerm {
    batch.term(TermNode::Op(op, args))
}

/// What is told of a term's checked row.
fn checked(batch: &mut Batch, term: BatchTerm) -> Explained {
    batch.judge().explain(term, Row::Checked).expect("refused")
}

#[test]
fn a_session_for_its_account() {
    let Start { mut batch, bool, .. } = start();
    let [session, account] = ["Session", "Account"].map(|string| {
        let name = batch.name(string);
        batch.sort(&SortNode::Atom(name, Vec::new()))
    });
    let function = batch.sort(&SortNode::Function(vec![account, bool]));
    let [current, locked] =
        [("current", session), ("locked", function)].map(|(name, sort)| var(&mut batch, name, sort));
    let mixed = batch.term(TermNode::App(locked, &[current]));
    let above = op(&mut batch, Operator::Not, &[mixed]);
    let told = checked(&mut batch, above);
    assert_eq!((told.term, told.refused), (mixed, Refused::Row(Cause::Misfit)));
    assert_eq!(told.part, Some((Role::Argument, 1)));
    assert_eq!(told.to_string(), "(locked current): argument 1, current, has sort Session, expected Account (!26)");
    let verdicts = batch.judge();
    assert_eq!(verdicts.explain(above, Row::Inferred), None);
    assert_eq!(verdicts.explain(current, Row::Checked), None);
}

/// Two parts of one sort, of which the second is meant; indices; the inferred row; a Let, whose values come before its inner term.
#[test]
fn the_part_that_is_concerned() {
    let Start { mut batch, int, x, p, .. } = start();
    let [abs, sum] =
        [(Operator::Abs, vec![x]), (Operator::Add, vec![x, x])].map(|(of, args)| op(&mut batch, of, &args));
    let ite = op(&mut batch, Operator::Ite, &[p, abs, p]);
    let equal = op(&mut batch, Operator::Equals, &[abs, sum, p]);
    let indexed = ParamOperator::ZeroExtend;
    let bits = batch.term(TermNode::BitVec(8));
    let index = batch.term(TermNode::ParamOp { op: indexed, op_args: &[sum], args: &[bits] });
    let select = op(&mut batch, Operator::Select, &[sum, abs]);
    let [wrong, also] = [p, sum].map(|term| op(&mut batch, Operator::Abs, &[term, term]));
    let name = batch.name("y");
    let lets = batch.term(TermNode::Let(&[(name, wrong)], also));
    let body = batch.term(TermNode::Binder(Binder::Forall, &[(name, int)], abs));
    for (term, expected) in [
        (ite, "(ite p (abs x) p): argument 3, p, has sort Bool, expected Int (!26)"),
        (equal, "(= (abs x) (+ x x) p): argument 3, p, has sort Bool, expected Int (!26)"),
        (
            index,
            "((_ zero_extend (+ x x)) <(_ BitVec 8)>): index 1, (+ x x), is no integer constant, expected an integer constant (!25)",
        ),
        (lets, "(abs p p): found 2, expected 1 argument (!25)"),
        (body, "(forall ((y Int)) (abs x)): the body, (abs x), has sort Int, expected Bool (!26)"),
    ] {
        assert_eq!(checked(&mut batch, term).to_string(), expected);
    }
    let inferred = batch.judge().explain(select, Row::Inferred).expect("refused");
    assert_eq!(
        inferred.to_string(),
        "(select (+ x x) (abs x)): carcara's Rust panics: argument 1, (+ x x), has sort Int, expected an array (!21, inferred)"
    );
}

/// What is deep is left out, and what is one too many; but not the part that is concerned.
#[test]
fn large_terms() {
    let Start { mut batch, x, p, .. } = start();
    let mut deep = x;
    for _ in 0..5_000 {
        deep = op(&mut batch, Operator::Abs, &[deep]);
    }
    let not = op(&mut batch, Operator::Not, &[deep]);
    assert_eq!(
        checked(&mut batch, not).to_string(),
        "(not (abs (abs ..))): argument 1, (abs (abs ..)), has sort Int, expected Bool (!26)"
    );
    let fine = op(&mut batch, Operator::Not, &[p]);
    let sum = op(&mut batch, Operator::Add, &[x, x]);
    let mut args = vec![fine; 20];
    args[17] = sum;
    let many = op(&mut batch, Operator::And, &args);
    let told = checked(&mut batch, many).to_string();
    assert!(told.starts_with("(and (not p) (not p) "), "{told}");
    assert!(told.ends_with(" .. (+ x x) .. ..): argument 18, (+ x x), has sort Int, expected Bool (!26)"), "{told}");
    assert_eq!(told.matches("(not p)").count(), 10);
}

/// Names that could be taken for something else are in bars, and no name is the dots.
#[test]
fn names() {
    let Start { mut batch, int, p, .. } = start();
    let [and, dots] = ["and", ".."].map(|name| var(&mut batch, name, int));
    let [of_and, of_dots] = [and, dots].map(|term| op(&mut batch, Operator::And, &[p, term]));
    assert_eq!(
        checked(&mut batch, of_and).to_string(),
        "(and p |and|): argument 2, |and|, has sort Int, expected Bool (!26)"
    );
    assert_eq!(
        checked(&mut batch, of_dots).to_string(),
        "(and p ..): argument 2, .., has sort Int, expected Bool (!26)"
    );
    let deep = (0..4).fold(dots, |term, _| op(&mut batch, Operator::Add, &[term, dots]));
    let not = op(&mut batch, Operator::Not, &[deep]);
    let shown = "(+ (+ ... ..) ..)";
    let expected = format!("(not {shown}): argument 1, {shown}, has sort Int, expected Bool (!26)");
    assert_eq!(checked(&mut batch, not).to_string(), expected);
    let large = batch.term(TermNode::LargeInteger);
    let of_large = op(&mut batch, Operator::And, &[p, large]);
    let expected = "(and p ...): argument 2, ..., has sort Int, expected Bool (!26)";
    assert_eq!(checked(&mut batch, of_large).to_string(), expected);
}

#[test]
fn what_no_sheet_can_say() {
    let Start { mut batch, p, .. } = start();
    let longer = op(&mut batch, Operator::And, &[p; 65]);
    let above = op(&mut batch, Operator::Not, &[longer]);
    let told = checked(&mut batch, above);
    assert_eq!((told.term, told.refused, told.part), (longer, Refused::Sheet(Refusal::Value), None));
    let words = "no sheet can say the term: a list length, a number or a name list is outside what its kind takes";
    assert_eq!(told.to_string(), format!("{words} (!5)"));
    let inferred = batch.judge().explain(above, Row::Inferred).expect("refused");
    assert_eq!(inferred.to_string(), format!("{words} (!5, inferred)"));
}

/// A term for whose answer no sheet has room, and one whose parts have sorts that fill a sheet.
#[test]
fn no_room() {
    let Start { mut batch, x, .. } = start();
    let names: Vec<_> = (0..64).map(|number| batch.name(&format!("a{number}"))).collect();
    let b = batch.name("b");
    let parameter = batch.sort(&SortNode::Var(b));
    let result = (0..450).fold(parameter, |sort, _| batch.sort(&SortNode::Par(names.clone(), sort)));
    let function = batch.sort(&SortNode::Function(vec![parameter, result]));
    let par = batch.sort(&SortNode::Par(vec![b], function));
    let head = var(&mut batch, "f", par);
    let full = batch.term(TermNode::App(head, &[x]));
    let told = batch.judge().explain(full, Row::Inferred).expect("refused");
    assert_eq!(told.refused, Refused::Row(Cause::Full));
    assert_eq!(told.to_string(), "(f x): the store cannot hold the answer's sorts (!23, inferred)");
    let last = (1..4_096).fold(x, |term, _| op(&mut batch, Operator::SetSingleton, &[term]));
    let member = op(&mut batch, Operator::SetMember, &[last, last]);
    let told = batch.judge().explain(member, Row::Inferred).expect("refused");
    assert_eq!(told.refused, Refused::Row(Cause::Full));
    assert_eq!(told.to_string(), "the store cannot hold the answer's sorts (!23, inferred)");
}

/// What refuses the checked row of the last term of each sheet.
struct Refusing;

impl Judge for Refusing {
    fn judge(&mut self, sheet: &[u8], records: &mut [u8], places: &mut [u32], rows: &mut [u32]) -> Result<(), Refusal> {
        Library.judge(sheet, records, places, rows)?;
        rows[rows.len() - 1] = Cause::Barred.number() << 16;
        Ok(())
    }
}

/// If the library says otherwise than what judged, the cause stands alone: where it says a sort, and where it says another cause.
#[test]
fn another_cause() {
    for wrong in [false, true] {
        let Start { mut batch, x, p, .. } = start();
        batch.judge();
        let term = op(&mut batch, Operator::Not, &[if wrong { x } else { p }]);
        let verdicts = batch.judge_by(&mut Refusing, Limits::SHEET);
        let told = verdicts.explain(term, Row::Checked).expect("refused");
        assert_eq!((told.refused, told.part), (Refused::Row(Cause::Barred), None));
        let words = "a sort holds what it may not hold here, or a question to match is outside its premise (!28)";
        assert_eq!(told.to_string(), words);
    }
}

/// What gives the checked row of the last term of each sheet the second of the sheet's sorts.
struct Giving;

impl Judge for Giving {
    fn judge(&mut self, sheet: &[u8], records: &mut [u8], places: &mut [u32], rows: &mut [u32]) -> Result<(), Refusal> {
        Library.judge(sheet, records, places, rows)?;
        rows[rows.len() - 1] = 1;
        Ok(())
    }
}

/// A part has the sort that the batch gave it in the row that is asked about, also where the library would give it another.
#[test]
fn the_sort_of_the_row() {
    let mut batch = Batch::new();
    let [string, real] = [SortNode::String, SortNode::Real].map(|node| batch.sort(&node));
    let [s, r] = [("s", string), ("r", real)].map(|(name, sort)| var(&mut batch, name, sort));
    let length = op(&mut batch, Operator::StrLen, &[s]);
    assert_eq!(batch.judge_by(&mut Giving, Limits::SHEET).checked(length), Ok(real));
    let not = op(&mut batch, Operator::Not, &[length]);
    let equal = op(&mut batch, Operator::Equals, &[r, length, s]);
    for (term, expected) in [
        (not, "(not ..): argument 1, .., has sort Real, expected Bool (!26)"),
        (equal, "(= r .. s): argument 3, s, has sort String, expected Real (!26)"),
    ] {
        assert_eq!(checked(&mut batch, term).to_string(), expected);
    }
}
