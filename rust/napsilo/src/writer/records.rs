//! What can be added to a sheet: sorts, terms, questions.

use crate::{Binder, Name, Operator, ParamOperator, QualifiedOperator, SortId, TermId};

/// A sort to be added to a sheet: its kind with its parts, which were added before.
#[derive(Debug, Clone, Copy, PartialEq, Eq)]
pub enum SortRecord<'a> {
    /// A function: the sorts of the parameters, then the sort of the result. The list may be empty.
    Function(&'a [SortId]),
    /// A declared sort with its arguments.
    Atom(Name, &'a [SortId]),
    /// A sort variable.
    Var(Name),
    /// `Bool`.
    Bool,
    /// `Int`.
    Int,
    /// `Real`.
    Real,
    /// `String`.
    String,
    /// `RegLan`.
    RegLan,
    /// An array: the sort of the indices, then of the elements.
    Array(SortId, SortId),
    /// Bit vectors of this width, at most 65,535.
    BitVec(u32),
    /// Bit vectors of a width that is not known.
    ParamBitVec,
    /// A datatype with its arguments.
    Datatype(Name, &'a [SortId]),
    /// A parametric sort: the parameters, at least one and each once, and the sort over them.
    Par(&'a [Name], SortId),
    /// The sort of sorts.
    Type,
    /// A set of elements of a sort.
    Set(SortId),
    /// A tuple.
    Tuple(&'a [SortId]),
}

impl SortRecord<'_> {
    /// The parts from left to right.
    pub(super) fn parts(&self) -> impl Iterator<Item = SortId> {
        let (first, second, list): (_, _, &[SortId]) = match *self {
            SortRecord::Function(list) | SortRecord::Tuple(list) => (None, None, list),
            SortRecord::Atom(_, list) | SortRecord::Datatype(_, list) => (None, None, list),
            SortRecord::Array(index, element) => (Some(index), Some(element), &[]),
            SortRecord::Par(_, part) | SortRecord::Set(part) => (Some(part), None, &[]),
            _ => (None, None, &[]),
        };
        first.into_iter().chain(second).chain(list.iter().copied())
    }
}

/// A term to be added to a sheet: its kind with its parts, which were added before.
#[derive(Debug, Clone, Copy, PartialEq, Eq)]
pub enum TermRecord<'a> {
    /// An integer constant. The value decides a sort at two places: as an index of a [`ParamOp`](TermRecord::ParamOp), and as the second
    /// argument of [`Operator::BvConst`] (`@bv`, number 112), whose inferred sort has it as its width. Elsewhere any number may stand for
    /// an integer that does not fit here.
    Integer(u32),
    /// A real constant; its value does not matter.
    Real,
    /// A string constant; its value does not matter.
    String,
    /// A constant that is a regular expression; its value does not matter.
    RegLan,
    /// A bit-vector constant of this width, at most 65,535; its value does not matter.
    BitVec(u32),
    /// A variable or a declared function, with its sort.
    Var(Name, SortId),
    /// The application of a head to arguments.
    App(TermId, &'a [TermId]),
    /// An operator with its arguments.
    Op(Operator, &'a [TermId]),
    /// A binder with its bindings over a body.
    Binder(Binder, &'a [(Name, SortId)], TermId),
    /// A `let` with its values over an inner term.
    Let(&'a [(Name, TermId)], TermId),
    /// A `match` with its subject and the bodies of its cases.
    Match(TermId, &'a [TermId]),
    /// An indexed operator.
    ParamOp {
        /// The operator.
        op: ParamOperator,
        /// The indices.
        op_args: &'a [TermId],
        /// The arguments.
        args: &'a [TermId],
    },
    /// An operator with the sort that it is qualified by.
    AsOp(QualifiedOperator, SortId, &'a [TermId]),
}

/// A question to be added to a sheet.
#[derive(Debug, Clone, Copy, PartialEq, Eq)]
pub enum QuestionRecord<'a> {
    /// Are two sorts compatible (`Sort::is_compatible`)?
    Compatible(SortId, SortId),
    /// What does a sort become by the assignment to names that turns a pattern into a target (`Sort::match_with`)?
    Match {
        /// The pattern.
        pattern: SortId,
        /// The target.
        target: SortId,
        /// The sort that is asked for, before the assignment.
        result: SortId,
        /// The names that may be assigned, each once.
        names: &'a [Name],
    },
    /// What does a sort become by a substitution (`SortSubstitution::apply`)?
    Apply {
        /// The sort.
        sort: SortId,
        /// The names that are replaced, each once, with their images.
        map: &'a [(Name, SortId)],
    },
    /// What does a sort become by the assignment that keeps what is given for some names and turns a pattern into a target? It is
    /// `Sort::match_with` from a map that has these already. The given names are replaced in the result also where the pattern lacks them.
    Continue {
        /// The pattern.
        pattern: SortId,
        /// The target.
        target: SortId,
        /// The sort that is asked for, before the assignment.
        result: SortId,
        /// Some of the names, each once, with the sorts that they stand for.
        given: &'a [(Name, SortId)],
        /// The names that may be assigned, each once.
        names: &'a [Name],
    },
}
