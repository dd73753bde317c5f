//! Sorts as trees.

use std::rc::Rc;

/// The greatest width of a bit-vector sort.
pub const WIDEST: u64 = 65_535;

/// The longest list of parts or names.
pub const LONGEST: usize = 64;

/// The greatest tree size.
pub const LARGEST: u64 = 4_096;

/// The kinds of sorts in the order of their numbers.
#[derive(Debug, Clone, Copy, PartialEq, Eq)]
#[repr(u8)]
#[allow(missing_docs)]
pub enum Kind {
    Function,
    Atom,
    Var,
    Bool,
    Int,
    Real,
    String,
    RegLan,
    Array,
    BitVec,
    ParamBitVec,
    Datatype,
    Par,
    Type,
    Set,
    Tuple,
}

/// All kinds, each at its number.
pub const KINDS: [Kind; 16] = [
    Kind::Function,
    Kind::Atom,
    Kind::Var,
    Kind::Bool,
    Kind::Int,
    Kind::Real,
    Kind::String,
    Kind::RegLan,
    Kind::Array,
    Kind::BitVec,
    Kind::ParamBitVec,
    Kind::Datatype,
    Kind::Par,
    Kind::Type,
    Kind::Set,
    Kind::Tuple,
];

/// A sort that may be part of several others.
pub type Tree = Rc<Sort>;

/// A sort. Two sorts are equal when they are so field by field, down to the leaves.
#[derive(Debug, PartialEq, Eq)]
pub struct Sort {
    /// The tree size: 1 plus the sizes of the parts.
    size: u64,
    /// Whether no width and no list inside is over its limit.
    short: bool,
    /// The kind.
    pub kind: Kind,
    /// The name of an Atom, Var or Datatype, else 0.
    pub name: u16,
    /// The width of a BitVec, else 0. It may be over its limit.
    pub width: u64,
    /// The parts, from left to right.
    pub parts: Vec<Tree>,
    /// The names of a Par, else none.
    pub names: Vec<u16>,
}

impl Sort {
    /// A sort with all its fields.
    pub fn new(kind: Kind, name: u16, width: u64, parts: Vec<Tree>, names: Vec<u16>) -> Tree {
        let size = parts.iter().fold(1, |sum: u64, part| sum.saturating_add(part.size));
        let short =
            width <= WIDEST && parts.len() <= LONGEST && names.len() <= LONGEST && parts.iter().all(|part| part.short);
        Rc::new(Sort { size, short, kind, name, width, parts, names })
    }

    /// A sort of a kind that has no fields.
    pub fn plain(kind: Kind) -> Tree {
        Sort::new(kind, 0, 0, Vec::new(), Vec::new())
    }

    /// A sort variable.
    pub fn var(name: u16) -> Tree {
        Sort::new(Kind::Var, name, 0, Vec::new(), Vec::new())
    }

    /// A bit-vector sort.
    pub fn bit_vec(width: u64) -> Tree {
        Sort::new(Kind::BitVec, 0, width, Vec::new(), Vec::new())
    }

    /// A sort of a kind that has parts and nothing else.
    pub fn of(kind: Kind, parts: Vec<Tree>) -> Tree {
        Sort::new(kind, 0, 0, parts, Vec::new())
    }

    /// The relation with these columns: a set of tuples.
    pub fn relation(columns: Vec<Tree>) -> Tree {
        Sort::of(Kind::Set, vec![Sort::of(Kind::Tuple, columns)])
    }

    /// The columns of a relation; nothing of another sort.
    pub fn columns(&self) -> Option<&[Tree]> {
        let tuple = self.parts.first().filter(|_| self.kind == Kind::Set)?;
        (tuple.kind == Kind::Tuple).then_some(&tuple.parts)
    }

    /// This sort with other parts.
    pub fn with_parts(&self, parts: Vec<Tree>) -> Tree {
        Sort::new(self.kind, self.name, self.width, parts, self.names.clone())
    }

    /// The tree size.
    pub fn size(&self) -> u64 {
        self.size
    }

    /// Whether no width, list or tree is over its limit, at any depth.
    pub fn within_limits(&self) -> bool {
        self.short && self.size <= LARGEST
    }

    /// Whether something holds of this sort or of one inside it.
    pub fn holds(&self, found: &impl Fn(&Sort) -> bool) -> bool {
        found(self) || self.parts.iter().any(|part| part.holds(found))
    }
}
