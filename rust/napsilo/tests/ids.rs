//! Ids belong to their sheet; equal terms can be one; where the value of an integer constant counts.

mod common;

use common::n;
use napsilo::{
    Binder, ForeignId, Lent, Operator, ParamOperator, QualifiedOperator, QuestionId, QuestionRecord, Row, SheetWriter,
    Sort, SortId, SortRecord, TermId, TermRecord, WriteError, judge, judge_with,
};

/// A writer with a sort, a term of it and a question about it.
fn small(sort: SortRecord<'_>) -> (SheetWriter, SortId, TermId, QuestionId) {
    let mut sheet = SheetWriter::new();
    let sort = sheet.add_sort(sort).unwrap();
    let term = sheet.add_term(TermRecord::Var(n(1), sort)).unwrap();
    let question = sheet.add_question(QuestionRecord::Compatible(sort, sort)).unwrap();
    (sheet, sort, term, question)
}

#[test]
fn a_judgement_refuses_ids_of_another_sheet() {
    let (one, _, term, question) = small(SortRecord::Int);
    let (two, _, other_term, other_question) = small(SortRecord::Bool);
    assert_eq!((term.number(), question.number()), (other_term.number(), other_question.number()));
    let judged = one.judge().unwrap();
    assert_eq!(judged.checked(term).unwrap().as_deref(), Ok(&Sort::Int));
    assert_eq!(judged.inferred(term).unwrap().as_deref(), Ok(&Sort::Int));
    assert_eq!(judged.answer(question).unwrap().yes_or_no(), Some(true));
    assert_eq!(judged.explain(term), Ok(None));
    assert_eq!(judged.checked(other_term), Err(ForeignId));
    assert_eq!(judged.inferred(other_term), Err(ForeignId));
    assert_eq!(judged.answer(other_question), Err(ForeignId));
    assert_eq!(judged.explain(other_term), Err(ForeignId));
    assert_eq!(judged.explain_inferred(other_term), Err(ForeignId));
    assert_eq!(two.judge().unwrap().checked(other_term).unwrap().as_deref(), Ok(&Sort::Bool));
    assert_eq!(ForeignId.to_string(), "the id belongs to another sheet");
}

/// A sheet has the ids that were given before it was finished, whatever is lent; later ones have later sheets.
#[test]
fn ids_given_after_a_sheet_was_finished() {
    let (mut writer, sort, term, question) = small(SortRecord::Int);
    let sheet = writer.finish();
    let before = judge(&sheet).unwrap();
    let more = writer.add_term(TermRecord::Var(n(2), sort)).unwrap();
    let asked = writer.add_question(QuestionRecord::Compatible(sort, sort)).unwrap();
    assert_eq!(before.checked(more), Err(ForeignId));
    assert_eq!(before.answer(asked), Err(ForeignId));
    let after = writer.judge().unwrap();
    for id in [term, more] {
        assert_eq!(after.checked(id).unwrap().as_deref(), Ok(&Sort::Int));
    }
    assert_eq!(after.answer(question), after.answer(asked));
    let lent = Lent { records: 60, places: 2, rows: 2, answers: 1 };
    assert_eq!(judge_with(&sheet, lent).unwrap().checked(term), before.checked(term));
}

/// A copy has what was there, and what is added to one of the two is not the other's.
#[test]
fn a_copy_of_a_writer() {
    let (mut writer, sort, term, _) = small(SortRecord::Int);
    let mut copy = writer.clone();
    let (mut third, own) = (copy.clone(), copy.sort(&Sort::Bool).unwrap());
    let first = writer.add_term(TermRecord::Real).unwrap();
    let second = copy.add_term(TermRecord::Var(n(1), own)).unwrap();
    assert_eq!((first.number(), second.number()), (1, 1));
    assert_ne!(first, second);
    let (one, two) = (writer.judge().unwrap(), copy.judge().unwrap());
    for judged in [&one, &two, &third.judge().unwrap()] {
        assert_eq!(judged.checked(term).unwrap().as_deref(), Ok(&Sort::Int));
    }
    assert_eq!(one.checked(first).unwrap().as_deref(), Ok(&Sort::Real));
    assert_eq!(two.checked(second).unwrap().as_deref(), Ok(&Sort::Bool));
    assert_eq!((one.checked(second), two.checked(first)), (Err(ForeignId), Err(ForeignId)));
    assert_eq!(writer.add_term(TermRecord::App(second, &[])), Err(WriteError::ForeignTerm(second)));
    assert_eq!(third.add_term(TermRecord::App(second, &[])), Err(WriteError::ForeignTerm(second)));
    assert_eq!(writer.add_sort(SortRecord::Set(own)), Err(WriteError::ForeignSort(own)));
    assert!(copy.add_sort(SortRecord::Array(own, sort)).is_ok());
    assert_eq!([writer.term_at(0), copy.term_at(0), third.term_at(0)], [Some(term); 3]);
    assert_eq!((writer.term_at(1), copy.term_at(1), third.term_at(1)), (Some(first), Some(second), None));
    assert_eq!((writer.sort_at(1), copy.sort_at(1)), (None, Some(own)));
}

/// A sort with another sheet's id is refused at every place, and the writer stays as it was.
#[test]
fn a_writer_refuses_sorts_over_another_sheet() {
    let (mut writer, sort, _, _) = small(SortRecord::Int);
    let (_, far, _, _) = small(SortRecord::Int);
    let before = writer.finish();
    for record in [
        SortRecord::Function(&[sort, far]),
        SortRecord::Atom(n(1), &[far]),
        SortRecord::Array(far, sort),
        SortRecord::Datatype(n(1), &[far]),
        SortRecord::Par(&[n(1)], far),
        SortRecord::Set(far),
        SortRecord::Tuple(&[far]),
    ] {
        assert_eq!(writer.add_sort(record), Err(WriteError::ForeignSort(far)));
    }
    for record in [
        QuestionRecord::Compatible(sort, far),
        QuestionRecord::Match { pattern: sort, target: sort, result: far, names: &[] },
        QuestionRecord::Apply { sort, map: &[(n(1), far)] },
    ] {
        assert_eq!(writer.add_question(record), Err(WriteError::ForeignSort(far)));
    }
    assert_eq!(WriteError::ForeignSort(far).refusal(), None);
    assert_eq!(writer.finish(), before);
}

/// A term with another sheet's id is refused at every place, and the writer stays as it was.
#[test]
fn a_writer_refuses_terms_over_another_sheet() {
    let (mut writer, sort, term, _) = small(SortRecord::Int);
    let (_, far_sort, far, _) = small(SortRecord::Int);
    let before = writer.finish();
    let (no_sort, no_term) = (WriteError::ForeignSort(far_sort), WriteError::ForeignTerm(far));
    let op = ParamOperator::ZeroExtend;
    for (record, error) in [
        (TermRecord::Var(n(1), far_sort), no_sort),
        (TermRecord::App(far, &[term]), no_term),
        (TermRecord::App(term, &[far]), no_term),
        (TermRecord::Op(Operator::And, &[term, far]), no_term),
        (TermRecord::Binder(Binder::Forall, &[(n(1), far_sort)], term), no_sort),
        (TermRecord::Binder(Binder::Forall, &[], far), no_term),
        (TermRecord::Let(&[(n(1), far)], term), no_term),
        (TermRecord::Let(&[(n(1), term)], far), no_term),
        (TermRecord::Match(far, &[]), no_term),
        (TermRecord::Match(term, &[far]), no_term),
        (TermRecord::ParamOp { op, op_args: &[far], args: &[term] }, no_term),
        (TermRecord::ParamOp { op, op_args: &[term], args: &[far] }, no_term),
        (TermRecord::AsOp(QualifiedOperator::Const, far_sort, &[]), no_sort),
        (TermRecord::AsOp(QualifiedOperator::Const, sort, &[far]), no_term),
    ] {
        assert_eq!(writer.add_term(record), Err(error));
        // Its bytes may be those of a record that is there.
        assert_eq!(writer.term(record), Err(error));
    }
    assert_eq!((no_sort.refusal(), no_term.refusal()), (None, None));
    assert_eq!(writer.finish(), before);
}

/// Bytes that no writer here made: their judgement gives ids by number.
#[test]
fn ids_of_bytes() {
    let (writer, _, term, question) = small(SortRecord::Int);
    let bytes = writer.finish().into_bytes();
    let (one, two) = (judge(&bytes).unwrap(), judge(bytes.as_slice()).unwrap());
    assert_eq!(one, two);
    assert_eq!((one.checked(term), one.answer(question)), (Err(ForeignId), Err(ForeignId)));
    let own = one.term(0).unwrap();
    assert_eq!(one.checked(own).unwrap().as_deref(), Ok(&Sort::Int));
    assert_eq!(two.checked(own), Err(ForeignId));
    assert_eq!(one.answer(one.question(0).unwrap()).unwrap().yes_or_no(), Some(true));
    assert_eq!((one.term(1), one.question(1), one.term(70_000)), (None, None, None));
    assert_eq!(one.terms().collect::<Vec<_>>(), [own]);
    // A copy of a judgement takes the same ids.
    assert_eq!(one.clone().checked(own), one.checked(own));
}

#[test]
fn equal_terms_once() {
    let mut sheet = SheetWriter::new();
    let int = sheet.sort(&Sort::Int).unwrap();
    let x = sheet.term(TermRecord::Var(n(1), int)).unwrap();
    let y = sheet.term(TermRecord::Var(n(2), int)).unwrap();
    let sum = sheet.term(TermRecord::Op(Operator::Add, &[x, y])).unwrap();
    assert_eq!(sheet.terms(), 3);
    let before = sheet.finish();
    assert_eq!(sheet.term(TermRecord::Var(n(1), int)), Ok(x));
    assert_eq!(sheet.term(TermRecord::Op(Operator::Add, &[x, y])), Ok(sum));
    assert_eq!(sheet.finish(), before);
    let other = sheet.term(TermRecord::Op(Operator::Add, &[y, x])).unwrap();
    assert_eq!((other.number(), sheet.terms()), (3, 4));
    // `add_term` adds also what is there; `term` then gives the first.
    let again = sheet.add_term(TermRecord::Var(n(1), int)).unwrap();
    assert_eq!(again.number(), 4);
    assert_eq!(sheet.term(TermRecord::Var(n(1), int)), Ok(x));
    // What was added by `add_term` is found too, and a full sheet still gives what it has.
    let real = sheet.add_term(TermRecord::Real).unwrap();
    assert_eq!(sheet.term(TermRecord::Real), Ok(real));
    while sheet.add_term(TermRecord::String).is_ok() {}
    assert_eq!(sheet.term(TermRecord::Real), Ok(real));
    assert_eq!(sheet.term(TermRecord::RegLan), Err(WriteError::TooManyTerms));
    let judged = sheet.judge().unwrap();
    assert_eq!(judged.checked(x), judged.checked(again));
}

/// Adds a term over two integer constants.
type Build<'a> = &'a dyn Fn(&mut SheetWriter, TermId, TermId) -> TermId;

/// The rows of a term over an integer constant of this value and one of value 3.
fn rows(term: Build<'_>, value: u32) -> [Row; 2] {
    let mut sheet = SheetWriter::new();
    let constant = sheet.add_term(TermRecord::Integer(value)).unwrap();
    let three = sheet.add_term(TermRecord::Integer(3)).unwrap();
    let term = term(&mut sheet, constant, three);
    let judged = sheet.judge().unwrap();
    [judged.inferred(term).unwrap().clone(), judged.checked(term).unwrap().clone()]
}

/// Whether the value of the first constant counts.
fn counts(term: Build<'_>) -> bool {
    rows(term, 5) != rows(term, 6)
}

/// At an operator the value of an integer constant counts as the second argument of `@bv`, and nowhere else.
#[test]
fn where_a_value_counts_at_operators() {
    for operator in Operator::ALL {
        for (length, at) in [(1, 0), (2, 0), (2, 1), (3, 0), (3, 1), (3, 2)] {
            let term = |sheet: &mut SheetWriter, constant, three| {
                let mut args = vec![three; length];
                args[at] = constant;
                sheet.add_term(TermRecord::Op(*operator, &args)).unwrap()
            };
            assert_eq!(counts(&term), *operator == Operator::BvConst && at == 1, "{operator} at {at} of {length}");
        }
    }
    let width = |sheet: &mut SheetWriter, constant, three| {
        sheet.add_term(TermRecord::Op(Operator::BvConst, &[three, constant])).unwrap()
    };
    assert_eq!(rows(&width, 5)[0].as_deref(), Ok(&Sort::BitVec(5)));
    assert_eq!(rows(&width, 6)[0].as_deref(), Ok(&Sort::BitVec(6)));
}

/// At an indexed operator the value counts as an index, where the operator looks at it, and not as an argument.
#[test]
fn where_a_value_counts_at_indexed_operators() {
    use ParamOperator::{BvExtract, IntToBv, Repeat, SignExtend, ZeroExtend};
    for op in ParamOperator::ALL {
        let index = |sheet: &mut SheetWriter, constant, three| {
            let vector = sheet.add_term(TermRecord::BitVec(8)).unwrap();
            let args = [if *op == IntToBv { three } else { vector }];
            sheet.add_term(TermRecord::ParamOp { op: *op, op_args: &[constant, three], args: &args }).unwrap()
        };
        let looks = matches!(op, BvExtract | ZeroExtend | SignExtend | Repeat | IntToBv);
        assert_eq!(counts(&index), looks, "{op}");
        let argument = |sheet: &mut SheetWriter, constant, three| {
            sheet.add_term(TermRecord::ParamOp { op: *op, op_args: &[three], args: &[constant] }).unwrap()
        };
        assert!(!counts(&argument), "{op}");
    }
}

/// At terms of other kinds the value does not count.
#[test]
fn where_a_value_does_not_count() {
    let others: [Build<'_>; 4] = [
        &|sheet, constant, three| sheet.add_term(TermRecord::Let(&[(n(1), constant)], three)).unwrap(),
        &|sheet, constant, three| sheet.add_term(TermRecord::Match(three, &[constant])).unwrap(),
        &|sheet, constant, _| {
            let int = sheet.sort(&Sort::Int).unwrap();
            sheet.add_term(TermRecord::Binder(Binder::Lambda, &[(n(1), int)], constant)).unwrap()
        },
        &|sheet, constant, _| {
            let int = sheet.sort(&Sort::Int).unwrap();
            let array = sheet.add_sort(SortRecord::Array(int, int)).unwrap();
            sheet.add_term(TermRecord::AsOp(QualifiedOperator::Const, array, &[constant])).unwrap()
        },
    ];
    for term in others {
        assert!(!counts(term));
    }
}
