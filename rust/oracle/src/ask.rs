//! Builds carcara's sorts and terms from a sheet and asks carcara for sorts and answers.
//!
//! `Pool::add` works out a term's sort when the term is added, and keeps it. Terms are added one by one, in the order of the sheet, so
//! a panic happens while one term is added and refuses that term's row alone (21). `Pool::add` has not returned the term then, so no
//! other term can be built over it: such a row is 20, as is one over a row that passes a limit (22). What a panic leaves in the pool is
//! the term without a sort; an equal term added later panics again.
//!
//! The limits of an answer (22) are judged here, since the Rust has none; those of the lent store (23) are not.

use crate::ast::lists::{BINDERS, INDEXED, OPERATORS, QUALIFIED};
use crate::ast::{BindingList, Constant, MatchCase, MatchPattern, Operator, Pool, Rc, Sort, SortSubstitution, Term};
use crate::automata::Automaton;
use crate::quiet;
use crate::sheet::{LONGEST, Record, Sheet, WIDEST};
use rapidhash::{HashMapExt, RapidHashMap};
use rug::{Integer, Rational};

/// The greatest tree size.
const LARGEST: u64 = 4_096;

/// A term's inferred row, or the answer to a question for a sort.
#[derive(Debug, Clone)]
pub enum Row {
    /// A sort.
    Sort(Rc<Sort>),
    /// A refusal with its number.
    Refused(u8),
}

/// The answer to a question.
#[derive(Debug, Clone)]
pub enum Answer {
    /// Whether two sorts are compatible.
    Compatible(bool),
    /// A sort or a refusal.
    Row(Row),
}

/// What carcara says to a sheet.
#[derive(Debug, Clone)]
pub struct Said {
    /// The inferred row of each term.
    pub rows: Vec<Row>,
    /// The answer to each question.
    pub answers: Vec<Answer>,
}

/// The Rust string of a name.
pub fn name(number: u16) -> String {
    match number {
        0 => "?".to_owned(),
        _ => format!("n{number}"),
    }
}

/// The sorts and terms of a sheet in a pool.
pub struct Built {
    /// The pool.
    pub pool: Pool,
    /// The sorts.
    pub sorts: Vec<Rc<Sort>>,
    /// The terms; nothing for one whose row is refused.
    pub terms: Vec<Option<Rc<Term>>>,
    /// The inferred row of each term.
    pub rows: Vec<Row>,
    sizes: Sizes,
}

/// Builds the sorts and terms of a sheet in a fresh pool; nothing if a sort of the sheet passes the greatest tree size, or is written to have
/// another one than it has.
pub fn build(sheet: &Sheet) -> Option<Built> {
    let mut pool = Pool::new();
    let mut sizes = Sizes::new();
    let mut sorts: Vec<Rc<Sort>> = Vec::new();
    for record in &sheet.sorts {
        let sort = pool.add_sort(sort(record, &sorts, &name));
        let size = size(&mut sizes, &sort);
        (size <= LARGEST && record.size.is_none_or(|written| u64::from(written) == size)).then_some(())?;
        sorts.push(sort);
    }
    let mut terms: Vec<Option<Rc<Term>>> = Vec::new();
    let mut rows = Vec::new();
    for record in &sheet.terms {
        let (term, row) = match term(record, &sorts, &terms, &name) {
            None => (None, Row::Refused(20)),
            Some(term) => match quiet::catch(|| pool.add(term)) {
                None => (None, Row::Refused(21)),
                Some(term) => match limited(&mut sizes, pool.sort(&term)) {
                    Row::Refused(number) => (None, Row::Refused(number)),
                    row => (Some(term), row),
                },
            },
        };
        terms.push(term);
        rows.push(row);
    }
    Some(Built { pool, sorts, terms, rows, sizes })
}

/// Asks for all rows and answers of a sheet; nothing if a sort of the sheet passes the greatest tree size, or is written to have another one.
pub fn ask(sheet: &Sheet) -> Option<Said> {
    let Built { mut pool, sorts, rows, mut sizes, .. } = build(sheet)?;
    let answers = sheet.questions.iter().map(|record| answer(record, &sorts, &mut pool, &mut sizes)).collect();
    Some(Said { rows, answers })
}

/// What the Rust infers for an operator over one argument that has no sort, if the argument is taken from the pool in spite of its panic.
///
/// `Pool::add` puts a term into the pool before it works out the sort, so the argument `(select)` stands there without one. An operator
/// that looks at its argument works the sort out again and panics again; one that does not look gets its sort. No caller of `Pool::add`
/// can come to such a term, since the argument was never returned: [`ask`] refuses it with 20.
pub fn over_unsorted(operator: Operator) -> Row {
    let mut pool = Pool::new();
    let argument = Term::Op(Operator::Select, Vec::new());
    assert!(quiet::catch(|| pool.add(argument.clone())).is_none());
    let argument = pool.terms.get(&argument).expect("the pool keeps it").clone();
    match quiet::catch(|| pool.add(Term::Op(operator, vec![argument]))) {
        None => Row::Refused(21),
        Some(term) => Row::Sort(pool.sort(&term)),
    }
}

/// A sort record's sort. `name` gives the string of a name.
pub fn sort(record: &Record, sorts: &[Rc<Sort>], name: &impl Fn(u16) -> String) -> Sort {
    let list = || -> Vec<_> { numbered(&record.list, sorts).collect() };
    let part = |at: usize| sorts[usize::from(record.list[at])].clone();
    match record.kind {
        0 => Sort::Function(list()),
        1 => Sort::Atom(name(record.name).into_boxed_str(), list().into_boxed_slice()),
        2 => Sort::Var(name(record.name)),
        3 => Sort::Bool,
        4 => Sort::Int,
        5 => Sort::Real,
        6 => Sort::String,
        7 => Sort::RegLan,
        8 => Sort::Array(part(0), part(1)),
        9 => Sort::BitVec(record.number as usize),
        10 => Sort::ParamBitVec,
        11 => Sort::Datatype { name: name(record.name).into_boxed_str(), args: list() },
        12 => Sort::Par(record.second.iter().map(|&n| name(n)).collect(), part(0)),
        13 => Sort::Type,
        14 => Sort::Set(part(0)),
        15 => Sort::Tuple(list()),
        kind => panic!("the reader lets no sort of kind {kind} through"),
    }
}

/// The sorts of these numbers.
pub fn numbered(numbers: &[u16], sorts: &[Rc<Sort>]) -> impl Iterator<Item = Rc<Sort>> {
    numbers.iter().map(|&number| sorts[usize::from(number)].clone())
}

/// A term record's term; nothing if a term that it refers to has no sort. `name` gives the string of a name.
pub fn term(
    record: &Record,
    sorts: &[Rc<Sort>],
    terms: &[Option<Rc<Term>>],
    name: &impl Fn(u16) -> String,
) -> Option<Term> {
    let find = |number: &u16| terms[usize::from(*number)].clone();
    let mut list: Vec<Rc<Term>> = record.list.iter().map(find).collect::<Option<_>>()?;
    let own = |number: u16| sorts[usize::from(number)].clone();
    Some(match record.kind {
        0 => Term::Const(Constant::Integer(Integer::from(record.number))),
        1 => Term::Const(Constant::Real(Rational::from(0))),
        2 => Term::Const(Constant::String(String::new())),
        3 => Term::Const(Constant::RegLan(String::new(), Automaton)),
        4 => Term::Const(Constant::BitVec(Integer::from(0), record.number as usize)),
        5 => Term::Var(name(record.name), own(record.sort)),
        6 => {
            let head = list.remove(0);
            Term::App(head, list)
        }
        7 => Term::Op(OPERATORS[record.number as usize], list),
        8 => {
            let bindings = record.pairs.iter().map(|&(n, s)| (name(n), own(s)));
            Term::Binder(BINDERS[record.number as usize], BindingList(bindings.collect()), list.remove(0))
        }
        9 => {
            let inner = list.pop()?;
            let names = record.second.iter().map(|&n| name(n));
            Term::Let(BindingList(names.zip(list).collect()), inner)
        }
        10 => {
            let subject = list.remove(0);
            let case = |body| MatchCase { pattern: MatchPattern::Wildcard, body };
            Term::Match(subject, list.into_iter().map(case).collect())
        }
        11 => Term::ParamOp {
            op: INDEXED[record.number as usize],
            op_args: record.second.iter().map(find).collect::<Option<_>>()?,
            args: list,
        },
        12 => Term::AsOp(QUALIFIED[record.number as usize], own(record.sort), list),
        kind => panic!("the reader lets no term of kind {kind} through"),
    })
}

/// The answer to a question.
fn answer(record: &Record, sorts: &[Rc<Sort>], pool: &mut Pool, sizes: &mut Sizes) -> Answer {
    let list: Vec<_> = numbered(&record.list, sorts).collect();
    let names: Vec<String> = record.second.iter().map(|&n| name(n)).collect();
    let mut map = RapidHashMap::new();
    let sort = match record.kind {
        0 => return Answer::Compatible(list[0].is_compatible(&list[1])),
        1 | 3 => {
            // The Rust's match goes on from any map; question 1 begins with an empty one.
            map.extend(record.pairs.iter().map(|&(given, sort)| (name(given), sorts[usize::from(sort)].clone())));
            if !plain(&list[0]) || !map.values().chain([&list[1]]).all(|sort| premise(sort, &names)) {
                return Answer::Row(Row::Refused(28));
            }
            if !list[0].match_with(&names, &list[1], &mut map) {
                return Answer::Row(Row::Refused(29));
            }
            &list[2]
        }
        _ => {
            map.extend(names.into_iter().zip(list[1..].iter().cloned()));
            &list[0]
        }
    };
    let sort = SortSubstitution::new(map).apply(pool, sort);
    Answer::Row(limited(sizes, sort))
}

/// The premise of matching for a pattern: no Par and no ParamBitVec.
fn plain(sort: &Sort) -> bool {
    every(sort, &|part| !matches!(part, Sort::Par(..) | Sort::ParamBitVec))
}

/// The premise of matching for the target and for each given sort: beside that, no listed name.
fn premise(sort: &Sort, names: &[String]) -> bool {
    plain(sort) && every(sort, &|part| !matches!(part, Sort::Var(name) if names.contains(name)))
}

/// Whether something holds of a sort and of all sorts inside it.
fn every(sort: &Sort, holds: &impl Fn(&Sort) -> bool) -> bool {
    holds(sort) && parts(sort).into_iter().all(|part| every(part, holds))
}

/// The direct parts of a sort, from left to right.
pub fn parts(sort: &Sort) -> Vec<&Rc<Sort>> {
    match sort {
        Sort::Function(list) | Sort::Tuple(list) => list.iter().collect(),
        Sort::Datatype { args, .. } => args.iter().collect(),
        Sort::Atom(_, args) => args.iter().collect(),
        Sort::Array(x, y) => vec![x, y],
        Sort::Par(_, part) | Sort::Set(part) => vec![part],
        Sort::Var(_)
        | Sort::Bool
        | Sort::Int
        | Sort::Real
        | Sort::String
        | Sort::RegLan
        | Sort::BitVec(_)
        | Sort::ParamBitVec
        | Sort::Type => Vec::new(),
    }
}

/// The tree sizes worked out so far. A sort with a width or a list past its limit inside has the greatest number there is.
type Sizes = RapidHashMap<Rc<Sort>, u64>;

/// The tree size of a sort.
fn size(sizes: &mut Sizes, sort: &Rc<Sort>) -> u64 {
    if let Some(size) = sizes.get(sort) {
        return *size;
    }
    let parts = parts(sort);
    let names = match sort.as_ref() {
        Sort::Par(names, _) => names.len(),
        _ => 0,
    };
    let wide = matches!(sort.as_ref(), Sort::BitVec(width) if *width > WIDEST as usize);
    let sum = if wide || parts.len() > LONGEST || names > LONGEST {
        u64::MAX
    } else {
        parts.into_iter().fold(1, |sum: u64, part| sum.saturating_add(size(sizes, part)))
    };
    sizes.insert(sort.clone(), sum);
    sum
}

/// A sort as a row: refused if its width, list or tree passes its limit.
fn limited(sizes: &mut Sizes, sort: Rc<Sort>) -> Row {
    if size(sizes, &sort) <= LARGEST { Row::Sort(sort) } else { Row::Refused(22) }
}
