//! carcara's own terms and sorts in a batch: both sorts of each term, or why there is none.
//!
//! ```
//! use napsilo_batch::Row;
//! use napsilo_carcara::Proof;
//! use oracle::ast::{Operator, Pool, Sort, Term};
//!
//! let mut pool = Pool::new();
//! let int = pool.add_sort(Sort::Int);
//! let x = pool.add(Term::Var("x".to_owned(), int));
//! let wrong = pool.add(Term::Op(Operator::Not, vec![x.clone()]));
//! let above = pool.add(Term::Op(Operator::Not, vec![wrong.clone()]));
//!
//! let mut proof = Proof::new();
//! proof.take(&above);
//! let rows = proof.judge();
//! // carcara's inference looks at no argument of `not`; the check does.
//! assert_eq!(rows.text(rows.inferred(&above).unwrap()).to_string(), "Bool");
//! assert_eq!(rows.checked(&above).unwrap_err().to_string(), "20: a term that it refers to is refused in the same row");
//! assert_eq!(rows.source(&above, Row::Checked), Some(wrong));
//! assert_eq!(
//!     rows.explain(&above, Row::Checked).unwrap(),
//!     "(not x): argument 1, x, has sort Int, expected Bool (!26)"
//! );
//! ```
//!
//! The terms are those of carcara's files, which the crate `oracle` builds; with the crate `carcara` itself the lines `use oracle::ast` are
//! the only ones to change, but for the lists of operators, which the oracle makes from carcara's enums.
//!
//! What a sheet cannot say is told and not guessed: a term with a custom operator, a tester of a datatype or a selection from a tuple is
//! [`Untaken`], and so is every term over one.

#![forbid(unsafe_code)]
#![warn(missing_docs)]

mod take;

pub use take::parts;

use napsilo_batch::{Batch, BatchSort, BatchTerm, Refused, Row, SortNode, Verdicts};
use oracle::ast::{Pool, Rc, Sort, Term};
use std::collections::HashMap;
use std::error::Error;
use std::fmt;

/// The terms of a proof, in a batch.
#[derive(Debug, Default)]
pub struct Proof {
    batch: Batch,
    sorts: HashMap<Rc<Sort>, BatchSort>,
    terms: HashMap<Rc<Term>, Result<BatchTerm, Untaken>>,
    /// The operators by carcara's.
    operators: take::Operators,
}

/// Why a term is not in the batch: no sheet has such a thing.
#[derive(Debug, Clone, PartialEq, Eq, Hash)]
pub enum Untaken {
    /// It has a custom operator, with this name.
    Custom(String),
    /// It is a tester of a datatype's constructor.
    Tester,
    /// It is a selection from a tuple.
    TupleSelect,
    /// A term that it is made of is not in the batch.
    Below,
}

impl fmt::Display for Untaken {
    fn fmt(&self, f: &mut fmt::Formatter<'_>) -> fmt::Result {
        match self {
            Untaken::Custom(name) => write!(f, "not judged: {name} is a custom operator"),
            Untaken::Tester => f.write_str("not judged: a tester of a datatype"),
            Untaken::TupleSelect => f.write_str("not judged: a selection from a tuple"),
            Untaken::Below => f.write_str("not judged: neither is a term that it is made of"),
        }
    }
}

impl Error for Untaken {}

/// Why a term has no sort in a row.
#[derive(Debug, Clone, PartialEq, Eq, Hash)]
pub enum Reason {
    /// It is not in the batch.
    Untaken(Untaken),
    /// It is refused.
    Refused(Refused),
}

impl fmt::Display for Reason {
    fn fmt(&self, f: &mut fmt::Formatter<'_>) -> fmt::Result {
        match self {
            Reason::Untaken(untaken) => untaken.fmt(f),
            Reason::Refused(refused) => refused.fmt(f),
        }
    }
}

impl Error for Reason {}

impl Proof {
    /// A proof without terms.
    pub fn new() -> Self {
        Self::default()
    }

    /// The batch.
    pub fn batch(&self) -> &Batch {
        &self.batch
    }

    /// Judges all terms that were taken since the last time.
    ///
    /// The library runs on the stack of the caller, of which [`napsilo::STACK`] bytes must be left.
    pub fn judge(&mut self) -> Rows<'_> {
        Rows { verdicts: self.batch.judge(), terms: &self.terms }
    }
}

/// What is said of the terms of a proof.
#[derive(Debug, Clone, Copy)]
pub struct Rows<'a> {
    verdicts: Verdicts<'a>,
    terms: &'a HashMap<Rc<Term>, Result<BatchTerm, Untaken>>,
}

impl<'a> Rows<'a> {
    /// The inferred sort of a term: what carcara's `Pool::sort` gives.
    ///
    /// # Panics
    /// If the term was not taken.
    pub fn inferred(&self, term: &Rc<Term>) -> Result<BatchSort, Reason> {
        self.row(term, Row::Inferred)
    }

    /// The checked sort of a term: what the ranks of SMT-LIB give.
    ///
    /// # Panics
    /// If the term was not taken.
    pub fn checked(&self, term: &Rc<Term>) -> Result<BatchSort, Reason> {
        self.row(term, Row::Checked)
    }

    /// What is said of a term in a row.
    ///
    /// # Panics
    /// If the term was not taken.
    pub fn row(&self, term: &Rc<Term>, row: Row) -> Result<BatchSort, Reason> {
        let taken = self.terms.get(term).expect("the term was taken");
        let own = taken.clone().map_err(Reason::Untaken)?;
        self.verdicts.verdict(own, row).map_err(Reason::Refused)
    }

    /// Where it comes from that a term has no sort in a row: a term at or below it that has none, and all of whose parts have one. Nothing if
    /// the term has a sort.
    ///
    /// # Panics
    /// If the term was not taken.
    pub fn source(&self, term: &Rc<Term>, row: Row) -> Option<Rc<Term>> {
        self.row(term, row).err()?;
        let mut source = term;
        while let Some(below) = take::parts(source).into_iter().find(|part| self.row(part, row).is_err()) {
            source = below;
        }
        Some(source.clone())
    }

    /// Why a term has no sort in a row, in one line: of its [`source`](Rows::source) the part that is concerned, the sort that it has and the
    /// sort that is asked for; or why it is not in the batch. Nothing if the term has a sort.
    ///
    /// The library is asked on the stack of the caller, of which [`napsilo::STACK`] bytes must be left.
    ///
    /// # Panics
    /// If the term was not taken.
    pub fn explain(&self, term: &Rc<Term>, row: Row) -> Option<String> {
        let source = self.source(term, row)?;
        match &self.terms[&source] {
            Ok(own) => self.verdicts.explain(*own, row).map(|explained| explained.to_string()),
            Err(untaken) => Some(untaken.to_string()),
        }
    }

    /// The text of a sort, as the program prints it but with carcara's names.
    pub fn text(&self, sort: BatchSort) -> impl fmt::Display + 'a {
        self.verdicts.batch().text(sort)
    }

    /// A sort as one of carcara's, in a pool.
    pub fn sort_in(&self, pool: &mut Pool, sort: BatchSort) -> Rc<Sort> {
        let batch = self.verdicts.batch();
        let mut made: HashMap<BatchSort, Rc<Sort>> = HashMap::new();
        let mut left = vec![(sort, false)];
        while let Some((sort, parts_are_made)) = left.pop() {
            // What stands at several places is made once.
            if made.contains_key(&sort) {
                continue;
            }
            let node = batch.sort_node(sort);
            if parts_are_made {
                let own = pool.add_sort(carcara_sort(batch, &node, &made));
                made.insert(sort, own);
                continue;
            }
            left.push((sort, true));
            left.extend(node_parts(&node).into_iter().map(|part| (part, false)));
        }
        made[&sort].clone()
    }
}

/// The parts of a sort.
fn node_parts(node: &SortNode) -> Vec<BatchSort> {
    match node {
        SortNode::Function(list) | SortNode::Tuple(list) => list.clone(),
        SortNode::Atom(_, list) | SortNode::Datatype(_, list) => list.clone(),
        SortNode::Array(index, element) => vec![*index, *element],
        SortNode::Par(_, part) | SortNode::Set(part) => vec![*part],
        _ => Vec::new(),
    }
}

/// carcara's sort over its parts.
fn carcara_sort(batch: &Batch, node: &SortNode, made: &HashMap<BatchSort, Rc<Sort>>) -> Sort {
    let part = |sort: &BatchSort| made[sort].clone();
    let list = |sorts: &[BatchSort]| -> Vec<Rc<Sort>> { sorts.iter().map(part).collect() };
    match node {
        SortNode::Function(sorts) => Sort::Function(list(sorts)),
        SortNode::Atom(name, args) => Sort::Atom(batch.string(*name).into(), list(args).into()),
        SortNode::Var(name) => Sort::Var(batch.string(*name).to_owned()),
        SortNode::Bool => Sort::Bool,
        SortNode::Int => Sort::Int,
        SortNode::Real => Sort::Real,
        SortNode::String => Sort::String,
        SortNode::RegLan => Sort::RegLan,
        SortNode::Array(index, element) => Sort::Array(part(index), part(element)),
        SortNode::BitVec(width) => Sort::BitVec(usize::try_from(*width).expect("a width of 64 bits")),
        SortNode::ParamBitVec => Sort::ParamBitVec,
        SortNode::Datatype(name, args) => Sort::Datatype { name: batch.string(*name).into(), args: list(args) },
        SortNode::Par(names, over) => {
            Sort::Par(names.iter().map(|name| batch.string(*name).to_owned()).collect(), part(over))
        }
        SortNode::Type => Sort::Type,
        SortNode::Set(element) => Sort::Set(part(element)),
        SortNode::Tuple(sorts) => Sort::Tuple(list(sorts)),
    }
}
