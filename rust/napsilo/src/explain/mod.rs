//! Why a row is refused, for people: which argument, what sort it has, what sort is asked for.
//!
//! The cause is always the library's. What is said beside it is found here by going through the ranks (checked rows) or through carcara's
//! cases (inferred rows), and only reasons of that cause are looked for. Where nothing is found, the cause stands alone. None of this is
//! proved; tests hold it to the library's rows.

mod checked;
mod inferred;
mod limits;
mod matching;
mod phrase;
mod ranks;
mod term;
mod text;

pub(crate) use term::{Term, terms};

use crate::{Cause, ForeignId, Judged, Name, Names, Row, Sort, TermId};
use phrase::Phrase;
use std::sync::Arc;

/// One of a term's two rows.
#[derive(Debug, Clone, Copy, PartialEq, Eq, Hash)]
pub enum Column {
    /// The inferred row.
    Inferred,
    /// The checked row.
    Checked,
}

/// Why a row is refused.
///
/// Its [`Display`](std::fmt::Display) text is one line; [`with_names`](Explanation::with_names) writes it with the user's names.
#[derive(Debug, Clone, PartialEq, Eq)]
pub struct Explanation {
    /// Which row is refused.
    pub column: Column,
    /// The term whose row it is.
    pub asked: TermId,
    /// The term that is refused for its own sake: `asked` itself or, for cause 20, one below it.
    pub term: TermId,
    /// The cause in the row of `term`; never [`Cause::Below`].
    pub cause: Cause,
    /// The part of `term` that is concerned, if one is.
    pub argument: Option<Argument>,
    /// What came.
    pub found: Option<Found>,
    /// What was asked for.
    pub expected: Option<Expected>,
    /// The text of `term`.
    shown: Phrase,
    /// The text of the argument's term; empty if it has none.
    shown_argument: Phrase,
}

/// A part of a term.
#[derive(Debug, Clone, Copy, PartialEq, Eq, Hash)]
pub struct Argument {
    /// What it is to the term.
    pub role: Role,
    /// Which one of those with this role, counted from 1.
    pub position: usize,
    /// The part itself, if it is a term.
    pub term: Option<TermId>,
}

/// What a part is to its term.
#[derive(Debug, Clone, Copy, PartialEq, Eq, Hash)]
pub enum Role {
    /// The head of an application.
    Head,
    /// An argument of an application or an operator.
    Argument,
    /// An index of an indexed operator.
    Index,
    /// The body of a binder.
    Body,
    /// A value of a `let`.
    Value,
    /// The inner term of a `let`.
    Inner,
    /// A binding of a binder; it is no term.
    Binding,
    /// The body of a case of a `match`.
    Case,
    /// The sort that the record of a variable, a constant or an `as` holds; it is no term.
    Sort,
}

/// What came.
#[derive(Debug, Clone, PartialEq, Eq)]
pub enum Found {
    /// A part of this sort.
    Sort(Arc<Sort>),
    /// So many parts.
    Count(usize),
    /// A part that is no integer constant.
    NoConstant,
    /// An index of this value.
    Number(u64),
    /// An answer of this width.
    Width(u64),
    /// An answer with a list of this length.
    List(usize),
    /// An answer of this tree size.
    Tree(usize),
}

/// What was asked for.
#[derive(Debug, Clone, PartialEq, Eq)]
pub enum Expected {
    /// This sort.
    Sort(Arc<Sort>),
    /// `Int` or `Real`.
    IntOrReal,
    /// This sort with some sort for each of these parameters.
    Form(Arc<Sort>, Vec<Name>),
    /// A bit vector of any width.
    BitVec,
    /// An array.
    Array,
    /// A set.
    Set,
    /// A function.
    Function,
    /// A function that takes so many arguments.
    Taking(usize),
    /// A set of tuples, of at least so many columns.
    Relation(usize),
    /// A set of tuples whose first column has this sort.
    Starting(Arc<Sort>),
    /// A set of pairs of one sort.
    Pairs,
    /// Any sort that is not parametric.
    NotPar,
    /// So many parts of a role: at least the first number, at most the second, if there is one.
    Count(Role, usize, Option<usize>),
    /// An integer constant.
    Constant,
    /// A number: at least the first, at most the second, if there is one.
    Number(u64, Option<u64>),
    /// An argument that assigns this parameter of the head.
    Assigned(Name),
    /// A sort that does not hold this one.
    Without(Arc<Sort>),
    /// A number of at most this.
    AtMost(u64),
}

/// What is found of a refusal beside its cause.
#[derive(Debug, Default)]
struct Finding {
    /// The role and the position of a part, and its number if it is a term.
    part: Option<(Role, usize, Option<usize>)>,
    found: Option<Found>,
    expected: Option<Expected>,
}

impl Finding {
    /// A part of a sort that is not the one that is asked for.
    fn sort(role: Role, position: usize, term: Option<usize>, found: &Arc<Sort>, expected: Expected) -> Self {
        let found = Some(Found::Sort(found.clone()));
        Finding { part: Some((role, position, term)), found, expected: Some(expected) }
    }

    /// A wrong count of parts; nothing if it is right.
    fn count(role: Role, found: usize, least: usize, most: Option<usize>) -> Option<Self> {
        let right = found >= least && most.is_none_or(|most| found <= most);
        let expected = Some(Expected::Count(role, least, most));
        (!right).then_some(Finding { part: None, found: Some(Found::Count(found)), expected })
    }
}

/// The terms of a sheet with the sorts of one column.
struct View<'a> {
    terms: &'a [Term],
    rows: &'a [Row],
}

impl View<'_> {
    /// The sort of a term; nothing if its row is refused.
    fn sort(&self, number: usize) -> Option<&Arc<Sort>> {
        self.rows.get(number)?.as_ref().ok()
    }

    /// The sorts of terms; nothing if the row of one is refused.
    fn sorts(&self, numbers: &[usize]) -> Option<Vec<&Arc<Sort>>> {
        numbers.iter().map(|number| self.sort(*number)).collect()
    }

    /// The parameters and the list of a head's function, no parameters if it is not parametric; nothing if the head is no function.
    fn declared(&self, head: usize) -> Option<(&[Name], &[Arc<Sort>])> {
        let (parameters, function): (&[Name], _) = match self.sort(head)?.as_ref() {
            Sort::Par(names, part) => (names, part.as_ref()),
            sort => (&[], sort),
        };
        match function {
            Sort::Function(list) => Some((parameters, list)),
            _ => None,
        }
    }

    /// The value of a term that is an integer constant.
    fn integer(&self, number: usize) -> Option<u64> {
        match self.terms.get(number)? {
            Term::Integer(value) => Some(u64::from(*value)),
            _ => None,
        }
    }
}

impl Judged {
    /// Why the checked row of a term is refused; nothing if it is a sort. An error if the term is not of this sheet.
    ///
    /// For cause 20 the explanation is of the term below that is refused for its own sake: at each step the first refused one in the order
    /// of the record is gone into.
    pub fn explain(&self, term: TermId) -> Result<Option<Explanation>, ForeignId> {
        self.explain_column(term, Column::Checked)
    }

    /// Why the inferred row of a term is refused; nothing if it is a sort. An error if the term is not of this sheet.
    pub fn explain_inferred(&self, term: TermId) -> Result<Option<Explanation>, ForeignId> {
        self.explain_column(term, Column::Inferred)
    }

    /// The text of a term, its names by a table if there is one. Terms far inside are named by their numbers (`T3`), and constants whose
    /// values a sheet does not hold by their sorts (`<Real>`). An error if the term is not of this sheet.
    pub fn term_text(&self, term: TermId, names: Option<&Names>) -> Result<String, ForeignId> {
        let phrase = Phrase::term(self.term_records(), self.place(term)?);
        Ok(phrase.shown(names).to_string())
    }

    /// Why a row of a term is refused; nothing if it is a sort.
    fn explain_column(&self, asked: TermId, column: Column) -> Result<Option<Explanation>, ForeignId> {
        let place = self.place(asked)?;
        let rows = match column {
            Column::Inferred => self.inferred_rows(),
            Column::Checked => self.checked_rows(),
        };
        let view = View { terms: self.term_records(), rows };
        let Some((place, cause)) = innermost(&view, place) else {
            return Ok(None);
        };
        let finding = match column {
            Column::Inferred => inferred::find(&view, place, cause),
            Column::Checked => checked::find(&view, place, cause),
        };
        let Finding { part, found, expected } = finding.unwrap_or_default();
        let id = |number: usize| self.term(number).expect("a term of this sheet");
        let argument = part.map(|(role, position, term)| Argument { role, position, term: term.map(id) });
        let shown = Phrase::term(view.terms, place);
        let number = part.and_then(|(_, _, term)| term);
        let shown_argument = number.map_or_else(Phrase::default, |number| Phrase::term(view.terms, number));
        let term = id(place);
        Ok(Some(Explanation { column, asked, term, cause, argument, found, expected, shown, shown_argument }))
    }
}

/// The term that is refused for its own sake, from a refused one on downwards, with its cause; nothing if the first is not refused.
fn innermost(view: &View<'_>, first: usize) -> Option<(usize, Cause)> {
    let refused = |number: usize| view.rows[number].as_ref().err().copied();
    let mut at = first;
    let mut cause = refused(at)?;
    while cause == Cause::Below {
        let parts = view.terms[at].parts();
        let below = parts.into_iter().find_map(|part| Some((part, refused(part)?)));
        // The library gives 20 only over a term that is refused.
        (at, cause) = below?;
    }
    Some((at, cause))
}
