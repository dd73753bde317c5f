//! The sorts and terms that are added to a batch, and what stands for them afterwards.

use crate::sorts::{Made, kind as sort_kind};
use crate::terms::kind;
use napsilo::{Binder, Operator, ParamOperator, QualifiedOperator};

/// Makes what stands for something of a batch.
macro_rules! numbers {
    ($($(#[$doc:meta])* $name:ident;)*) => {
        $(
            $(#[$doc])*
            #[derive(Debug, Clone, Copy, PartialEq, Eq, PartialOrd, Ord, Hash)]
            pub struct $name {
                pub(crate) number: u32,
                pub(crate) mark: u32,
            }

            impl $name {
                /// The number in the batch that has this mark.
                ///
                /// # Panics
                /// If it is another batch's.
                pub(crate) fn own(self, mark: u32) -> u32 {
                    assert_eq!(self.mark, mark, "it belongs to another batch");
                    self.number
                }

                /// Its number in the batch: the how manieth of the distinct ones it was, from 0.
                pub const fn index(self) -> usize {
                    self.number as usize
                }
            }
        )*
    };
}

numbers! {
    /// A name of a batch.
    BatchName;
    /// A sort of a batch.
    BatchSort;
    /// A term of a batch.
    BatchTerm;
}

/// A sort over sorts of a batch, in the form of carcara's `Sort`.
#[derive(Debug, Clone, PartialEq, Eq, Hash)]
pub enum SortNode {
    /// A function: the sorts of the parameters, then the sort of the result.
    Function(Vec<BatchSort>),
    /// A declared sort with its arguments.
    Atom(BatchName, Vec<BatchSort>),
    /// A sort variable.
    Var(BatchName),
    /// `Bool`.
    Bool,
    /// `Int`.
    Int,
    /// `Real`.
    Real,
    /// `String`.
    String,
    /// `RegLan`.
    RegLan,
    /// An array: the sort of the indices, then of the elements.
    Array(BatchSort, BatchSort),
    /// Bit vectors of a width; on a sheet it is at most 65,535.
    BitVec(u64),
    /// Bit vectors of a width that is not known.
    ParamBitVec,
    /// A datatype with its arguments.
    Datatype(BatchName, Vec<BatchSort>),
    /// A parametric sort: the parameters, on a sheet at least one and each once, and the sort over them.
    Par(Vec<BatchName>, BatchSort),
    /// The sort of sorts.
    Type,
    /// A set of elements of a sort.
    Set(BatchSort),
    /// A tuple.
    Tuple(Vec<BatchSort>),
}

impl SortNode {
    /// The kind: the number on a sheet.
    const fn kind(&self) -> u32 {
        match self {
            SortNode::Function(_) => 0,
            SortNode::Atom(..) => sort_kind::ATOM,
            SortNode::Var(_) => sort_kind::VAR,
            SortNode::Bool => 3,
            SortNode::Int => sort_kind::INT,
            SortNode::Real => 5,
            SortNode::String => 6,
            SortNode::RegLan => 7,
            SortNode::Array(..) => 8,
            SortNode::BitVec(_) => sort_kind::BIT_VEC,
            SortNode::ParamBitVec => 10,
            SortNode::Datatype(..) => sort_kind::DATATYPE,
            SortNode::Par(..) => sort_kind::PAR,
            SortNode::Type => 13,
            SortNode::Set(_) => 14,
            SortNode::Tuple(_) => 15,
        }
    }

    /// Adds the words of the sort.
    pub(crate) fn write(&self, mark: u32, words: &mut Vec<u32>) {
        words.push(self.kind());
        let list = |words: &mut Vec<u32>, parts: &[BatchSort]| words.extend(parts.iter().map(|part| part.own(mark)));
        match self {
            SortNode::Function(parts) | SortNode::Tuple(parts) => list(words, parts),
            SortNode::Atom(name, parts) | SortNode::Datatype(name, parts) => {
                words.push(name.own(mark));
                list(words, parts);
            }
            SortNode::Var(name) => words.push(name.own(mark)),
            SortNode::Array(index, element) => list(words, &[*index, *element]),
            SortNode::BitVec(width) => words.extend([*width as u32, (*width >> 32) as u32]),
            SortNode::Par(names, part) => {
                words.push(part.own(mark));
                words.extend(names.iter().map(|name| name.own(mark)));
            }
            SortNode::Set(part) => words.push(part.own(mark)),
            _ => (),
        }
    }

    /// The sort that is made of this.
    pub(crate) fn read(made: &Made<'_>, mark: u32) -> SortNode {
        let part = |at: usize| BatchSort { number: made.parts[at], mark };
        let parts = || made.parts.iter().map(|number| BatchSort { number: *number, mark }).collect();
        let name = || BatchName { number: made.name.expect("the kind has a name"), mark };
        match made.kind {
            0 => SortNode::Function(parts()),
            sort_kind::ATOM => SortNode::Atom(name(), parts()),
            sort_kind::VAR => SortNode::Var(name()),
            3 => SortNode::Bool,
            sort_kind::INT => SortNode::Int,
            5 => SortNode::Real,
            6 => SortNode::String,
            7 => SortNode::RegLan,
            8 => SortNode::Array(part(0), part(1)),
            sort_kind::BIT_VEC => SortNode::BitVec(made.width),
            10 => SortNode::ParamBitVec,
            sort_kind::DATATYPE => SortNode::Datatype(name(), parts()),
            sort_kind::PAR => {
                let names = made.parameters.iter().map(|number| BatchName { number: *number, mark });
                SortNode::Par(names.collect(), part(0))
            }
            13 => SortNode::Type,
            14 => SortNode::Set(part(0)),
            15 => SortNode::Tuple(parts()),
            kind => unreachable!("no sort has the kind {kind}"),
        }
    }
}

/// A term over terms and sorts of a batch.
#[derive(Debug, Clone, Copy, PartialEq, Eq)]
pub enum TermNode<'a> {
    /// An integer constant.
    Integer(u32),
    /// An integer constant that is negative or over 2^32 - 1, whichever. Its sort is Int; as an index of a ParamOp or as an argument of
    /// [`Operator::BvConst`] no sheet can say it.
    LargeInteger,
    /// A real constant; its value does not matter.
    Real,
    /// A string constant; its value does not matter.
    String,
    /// A constant that is a regular expression; its value does not matter.
    RegLan,
    /// A bit-vector constant of a width, on a sheet at most 65,535; its value does not matter.
    BitVec(u64),
    /// A variable or a declared function, with its sort.
    Var(BatchName, BatchSort),
    /// The application of a head to arguments.
    App(BatchTerm, &'a [BatchTerm]),
    /// An operator with its arguments.
    Op(Operator, &'a [BatchTerm]),
    /// A binder with its bindings over a body.
    Binder(Binder, &'a [(BatchName, BatchSort)], BatchTerm),
    /// A `let` with its values over an inner term.
    Let(&'a [(BatchName, BatchTerm)], BatchTerm),
    /// A `match` with its subject and the bodies of its cases.
    Match(BatchTerm, &'a [BatchTerm]),
    /// An indexed operator.
    ParamOp {
        /// The operator.
        op: ParamOperator,
        /// The indices.
        op_args: &'a [BatchTerm],
        /// The arguments.
        args: &'a [BatchTerm],
    },
    /// An operator with the sort that it is qualified by.
    AsOp(QualifiedOperator, BatchSort, &'a [BatchTerm]),
}

impl TermNode<'_> {
    /// The first word: the kind, and 256 times the number of the operator.
    fn head(&self) -> u32 {
        match self {
            TermNode::Integer(_) => kind::INTEGER,
            TermNode::LargeInteger => kind::LARGE_INTEGER,
            TermNode::Real => 1,
            TermNode::String => 2,
            TermNode::RegLan => 3,
            TermNode::BitVec(_) => kind::BIT_VEC,
            TermNode::Var(..) => kind::VAR,
            TermNode::App(..) => kind::APP,
            TermNode::Op(op, _) => kind::OP | u32::from(op.number()) << 8,
            TermNode::Binder(binder, ..) => kind::BINDER | u32::from(binder.number()) << 8,
            TermNode::Let(..) => kind::LET,
            TermNode::Match(..) => kind::MATCH,
            TermNode::ParamOp { op, .. } => kind::PARAM_OP | u32::from(op.number()) << 8,
            TermNode::AsOp(op, ..) => kind::AS_OP | u32::from(op.number()) << 8,
        }
    }

    /// Adds the words of the term.
    pub(crate) fn write(&self, mark: u32, words: &mut Vec<u32>) {
        words.push(self.head());
        let list = |words: &mut Vec<u32>, parts: &[BatchTerm]| words.extend(parts.iter().map(|part| part.own(mark)));
        match self {
            TermNode::Integer(number) => words.push(*number),
            TermNode::BitVec(width) => words.extend([*width as u32, (*width >> 32) as u32]),
            TermNode::Var(name, sort) => words.extend([name.own(mark), sort.own(mark)]),
            TermNode::App(first, parts) | TermNode::Match(first, parts) => {
                words.push(first.own(mark));
                list(words, parts);
            }
            TermNode::Op(_, parts) => list(words, parts),
            TermNode::Binder(_, bindings, body) => {
                words.push(body.own(mark));
                words.extend(bindings.iter().flat_map(|(name, sort)| [name.own(mark), sort.own(mark)]));
            }
            TermNode::Let(values, inner) => {
                words.push(inner.own(mark));
                words.extend(values.iter().flat_map(|(name, value)| [name.own(mark), value.own(mark)]));
            }
            TermNode::ParamOp { op_args, args, .. } => {
                words.push(u32::try_from(args.len()).expect("under 2^32 arguments"));
                list(words, args);
                list(words, op_args);
            }
            TermNode::AsOp(_, sort, args) => {
                words.push(sort.own(mark));
                list(words, args);
            }
            TermNode::LargeInteger | TermNode::Real | TermNode::String | TermNode::RegLan => (),
        }
    }
}
