//! Sorts as trees.

mod shared;
mod text;

pub(crate) use shared::{fold, try_fold};

use crate::Name;
use std::mem;
use std::sync::{Arc, LazyLock};

/// A sort, in the form of carcara's `Sort`.
///
/// Its [`Display`](std::fmt::Display) text is the printout's, and so is its debug text; it is made in Rust, from the tree.
///
/// A sort that comes from the library has a tree size of at most 4,096, and may be as deep. Others may be larger, since parts may be shared.
/// Comparing, hashing and measuring a sort takes time for its distinct parts, not for its tree; printing takes time for the text. None of
/// these, nor dropping a sort, needs stack for its depth.
#[derive(Clone)]
pub enum Sort {
    /// A function sort: the sorts of the parameters, then the sort of the result.
    Function(Vec<Arc<Sort>>),
    /// A declared sort and its arguments.
    Atom(Name, Vec<Arc<Sort>>),
    /// A sort variable.
    Var(Name),
    /// `Bool`.
    Bool,
    /// `Int`.
    Int,
    /// `Real`.
    Real,
    /// `String`.
    String,
    /// `RegLan`.
    RegLan,
    /// An array: the sort of the indices, then of the elements.
    Array(Arc<Sort>, Arc<Sort>),
    /// Bit vectors of a width.
    BitVec(u32),
    /// Bit vectors of a width that is not known.
    ParamBitVec,
    /// A datatype and its arguments.
    Datatype {
        /// Its name.
        name: Name,
        /// Its arguments.
        args: Vec<Arc<Sort>>,
    },
    /// A parametric sort: its parameters, and the sort over them.
    Par(Vec<Name>, Arc<Sort>),
    /// The sort of sorts.
    Type,
    /// A set of elements of a sort.
    Set(Arc<Sort>),
    /// A tuple.
    Tuple(Vec<Arc<Sort>>),
}

impl Sort {
    /// The number of the sort's kind on a sheet and in the store.
    pub const fn kind(&self) -> u8 {
        match self {
            Sort::Function(_) => 0,
            Sort::Atom(..) => 1,
            Sort::Var(_) => 2,
            Sort::Bool => 3,
            Sort::Int => 4,
            Sort::Real => 5,
            Sort::String => 6,
            Sort::RegLan => 7,
            Sort::Array(..) => 8,
            Sort::BitVec(_) => 9,
            Sort::ParamBitVec => 10,
            Sort::Datatype { .. } => 11,
            Sort::Par(..) => 12,
            Sort::Type => 13,
            Sort::Set(_) => 14,
            Sort::Tuple(_) => 15,
        }
    }

    /// The direct parts from left to right.
    pub fn parts(&self) -> impl DoubleEndedIterator<Item = &Arc<Sort>> + Clone {
        let (first, second, list): (_, _, &[Arc<Sort>]) = match self {
            Sort::Function(list) | Sort::Tuple(list) => (None, None, list),
            Sort::Atom(_, args) | Sort::Datatype { args, .. } => (None, None, args),
            Sort::Array(index, element) => (Some(index), Some(element), &[]),
            Sort::Par(_, part) | Sort::Set(part) => (Some(part), None, &[]),
            _ => (None, None, &[]),
        };
        first.into_iter().chain(second).chain(list)
    }

    /// The sort's own fields, without its parts: kind, name, width, parameters and the count of the parts.
    pub(crate) fn own(&self) -> (u8, Option<Name>, u32, &[Name], usize) {
        let name = match self {
            Sort::Atom(name, _) | Sort::Var(name) | Sort::Datatype { name, .. } => Some(*name),
            _ => None,
        };
        let width = match self {
            Sort::BitVec(width) => *width,
            _ => 0,
        };
        let parameters: &[Name] = match self {
            Sort::Par(names, _) => names,
            _ => &[],
        };
        (self.kind(), name, width, parameters, self.parts().count())
    }

    /// Takes the parts out and adds them to a list.
    fn release(&mut self, parts: &mut Vec<Arc<Sort>>) {
        match self {
            Sort::Function(list) | Sort::Tuple(list) => parts.append(list),
            Sort::Atom(_, args) | Sort::Datatype { args, .. } => parts.append(args),
            Sort::Array(index, element) => {
                parts.push(mem::replace(index, LEAF.clone()));
                parts.push(mem::replace(element, LEAF.clone()));
            }
            Sort::Par(_, part) | Sort::Set(part) => parts.push(mem::replace(part, LEAF.clone())),
            _ => (),
        }
    }
}

/// What stands in a sort for a part that was taken out of it.
static LEAF: LazyLock<Arc<Sort>> = LazyLock::new(|| Arc::new(Sort::Bool));

/// Parts are dropped one after the other, not one inside the other.
impl Drop for Sort {
    fn drop(&mut self) {
        let mut left = Vec::new();
        self.release(&mut left);
        while let Some(part) = left.pop() {
            if let Some(mut last) = Arc::into_inner(part) {
                last.release(&mut left);
            }
        }
    }
}
