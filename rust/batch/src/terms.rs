//! The terms of a batch: each distinct one once.
//!
//! A term is a record of words. The first has the kind, which is its number on a sheet, and 256 times the number of an operator, an indexed
//! or a qualified operator or a binder. Then
//!
//! - the value (integer constant); the width in two words, the low one first (bit-vector constant); the name and the sort (Var);
//! - the head and the arguments (App), the arguments (Op), the subject and the bodies (Match);
//! - the body, then a name and a sort for each binding (Binder); the inner term, then a name and a value for each binding (Let);
//! - the count of the arguments, the arguments, the indices (ParamOp); the sort, then the arguments (AsOp);
//! - nothing (all others).

use crate::records::Records;
use crate::sorts::Sorts;
use napsilo::{GREATEST_WIDTH, LONGEST_LIST, Operator, Refusal};
use std::iter::StepBy;
use std::slice::Iter;

/// The kinds of terms.
pub mod kind {
    pub const INTEGER: u32 = 0;
    pub const BIT_VEC: u32 = 4;
    pub const VAR: u32 = 5;
    pub const APP: u32 = 6;
    pub const OP: u32 = 7;
    pub const BINDER: u32 = 8;
    pub const LET: u32 = 9;
    pub const MATCH: u32 = 10;
    pub const PARAM_OP: u32 = 11;
    pub const AS_OP: u32 = 12;
    /// An integer constant whose value no sheet can hold. No record on a sheet has this kind.
    pub const LARGE_INTEGER: u32 = 13;
}

/// The terms of a batch.
pub type Terms = Records;

/// The kind of a term.
pub fn kind_of(words: &[u32]) -> u32 {
    words[0] & 0xff
}

/// The number of a term's operator or binder.
pub fn operator_of(words: &[u32]) -> u32 {
    words[0] >> 8
}

/// Whether a term is a constant or a variable: it has no parts, and its record is put on every sheet where it is used.
pub fn is_leaf(words: &[u32]) -> bool {
    kind_of(words) <= kind::VAR
}

/// The numbers of the terms that a term is made of, in some order: of a Let the inner term first, then the values.
pub fn parts(words: &[u32]) -> StepBy<Iter<'_, u32>> {
    let (numbers, step) = match kind_of(words) {
        kind::APP | kind::OP | kind::MATCH => (&words[1..], 1),
        kind::BINDER => (&words[1..2], 1),
        kind::LET => (&words[1..], 2),
        kind::PARAM_OP | kind::AS_OP => (&words[2..], 1),
        _ => (&words[..0], 1),
    };
    numbers.iter().step_by(step)
}

/// The bindings of a Binder, each a name and a sort, or of a Let, each a name and a value; of any other term none.
pub fn bindings(words: &[u32]) -> &[[u32; 2]] {
    match kind_of(words) {
        kind::BINDER | kind::LET => words[2..].as_chunks().0,
        _ => &[],
    }
}

/// The numbers of a term's parts in the order of a sheet: of a Let the values, then the inner term; of a ParamOp the arguments, then the
/// indices.
pub fn sheet_parts(words: &[u32]) -> impl Iterator<Item = u32> {
    let mut parts = parts(words);
    let last = if kind_of(words) == kind::LET { parts.next() } else { None };
    parts.chain(last).copied()
}

/// The number of the refusal of every sheet that has a term; 0 if there is no such. Its sorts are met first, since a sheet has them first.
pub fn fault(words: &[u32], terms: &Terms, sorts: &Sorts) -> u8 {
    let of_sort = own_sorts(words).map(|sort| sorts.fault(sort)).find(|fault| *fault != 0);
    let count = words.len();
    let outside = match kind_of(words) {
        kind::BIT_VEC => words[2] != 0 || words[1] > GREATEST_WIDTH,
        kind::APP | kind::MATCH => count - 1 > LONGEST_LIST,
        kind::OP => {
            let read = operator_of(words) == u32::from(Operator::BvConst.number());
            count - 1 > LONGEST_LIST || read && any_large(&words[1..], terms)
        }
        kind::BINDER => bindings(words).len() > LONGEST_LIST,
        kind::LET => bindings(words).len() + 1 > LONGEST_LIST,
        kind::PARAM_OP => {
            let (arguments, indices) = words[2..].split_at(words[1] as usize);
            arguments.len() > LONGEST_LIST || indices.len() > LONGEST_LIST || any_large(indices, terms)
        }
        kind::AS_OP => count - 2 > LONGEST_LIST,
        _ => false,
    };
    of_sort.unwrap_or(if outside { Refusal::Value as u8 } else { 0 })
}

/// The sorts that a term's record holds itself.
fn own_sorts(words: &[u32]) -> impl Iterator<Item = u32> {
    let (one, several): (_, &[[u32; 2]]) = match kind_of(words) {
        kind::VAR => (Some(words[2]), &[]),
        kind::AS_OP => (Some(words[1]), &[]),
        kind::BINDER => (None, bindings(words)),
        _ => (None, &[]),
    };
    one.into_iter().chain(several.iter().map(|[_, sort]| *sort))
}

/// Whether an integer constant is among some terms whose value no sheet can hold.
fn any_large(list: &[u32], terms: &Terms) -> bool {
    list.iter().any(|term| kind_of(terms.get(*term)) == kind::LARGE_INTEGER)
}
