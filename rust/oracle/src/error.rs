//! Stands in for carcara's `CheckerError`: the cases that `src/ast/term.rs` names.
//!
//! They belong to the functions that proof rules call; sort inference builds none of them.

use crate::ast::{Rc, Term};

/// Why a proof rule refuses a term.
#[derive(Debug)]
#[allow(missing_docs)]
pub enum CheckerError {
    TermOfWrongForm(&'static str, Rc<Term>),
    ExpectedAnyNumber(Rc<Term>),
    ExpectedAnyInteger(Rc<Term>),
    ExpectedNonnegInteger(Rc<Term>),
    ExpectedBitvector(Rc<Term>),
    ExpectedAnyBoolConstant(Rc<Term>),
    ExpectedOperationTerm(Rc<Term>),
    ExpectedQuantifierTerm(Rc<Term>),
    ExpectedBinderTerm(Rc<Term>),
    ExpectedLetTerm(Rc<Term>),
}
