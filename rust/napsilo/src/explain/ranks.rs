//! What the ranks of the checked row ask of an operator's arguments (SMT-LIB's Core, Ints, Reals, Reals_Ints, ArraysEx,
//! FixedSizeBitVectors and Strings, and the sets and relations of cvc5 as the requests have them).

use super::{Expected, Finding, Role};
use crate::{Operator, Sort};
use std::sync::Arc;

/// What is asked of an argument.
#[derive(Clone, Copy)]
pub enum Want {
    Bool,
    Int,
    Real,
    String,
    RegLan,
    /// Int or Real, each by itself.
    Number,
    /// Any sort that is not parametric, and the same for all.
    Same,
    /// A bit vector, of the same width for all.
    Vector,
    /// A bit vector of any width.
    AnyVector,
    /// An array.
    Array,
    /// The sort of the array's indices, of its elements.
    Index,
    Element,
    /// Any sort that is not parametric, each by itself.
    Any,
    /// A set; the same set for all.
    Set,
    SameSet,
    /// The set of what all of Same share.
    SetOfSame,
    /// A set of tuples; of tuples that are not empty; of tuples that start with what the ones before end in.
    Relation,
    Filled,
    Touching,
    /// A set of pairs of one sort.
    Pairs,
}

/// What an operator takes.
pub enum Rank {
    /// These arguments.
    List(&'static [Want]),
    /// So many arguments or more, all like this.
    Several(usize, Want),
    /// One argument or more like the first, then one like the second.
    Then(Want, Want),
}

/// What the arguments so far say of those behind them.
#[derive(Default)]
struct Before {
    /// The sort that all of Same, Vector or SameSet share, from the first of them on.
    shared: Option<Arc<Sort>>,
    /// The sorts of an array's indices and of its elements.
    array: Option<(Arc<Sort>, Arc<Sort>)>,
    /// The last sort of the tuples of a relation.
    end: Option<Arc<Sort>>,
}

impl Before {
    /// What is asked of the next argument; nothing if no argument before says it.
    fn expected(&self, want: Want) -> Option<Expected> {
        let said = match want {
            Want::Same | Want::Vector | Want::SameSet => self.shared.clone(),
            Want::SetOfSame => self.shared.clone().map(|sort| Arc::new(Sort::Set(sort))),
            Want::Index => self.array.as_ref().map(|(index, _)| index.clone()),
            Want::Element => self.array.as_ref().map(|(_, element)| element.clone()),
            Want::Touching => return self.end.clone().map(Expected::Starting),
            _ => None,
        };
        said.map(Expected::Sort).or_else(|| want.expected())
    }

    /// Notes an argument's sort, which is as asked for.
    fn note(&mut self, want: Want, sort: &Arc<Sort>) {
        match (want, sort.as_ref()) {
            (Want::Same | Want::Vector | Want::SameSet, _) => self.shared = Some(sort.clone()),
            (Want::Array, Sort::Array(index, element)) => self.array = Some((index.clone(), element.clone())),
            (Want::Filled, sort) => self.end = entries(sort).and_then(|entries| entries.last().cloned()),
            _ => (),
        }
    }
}

/// The sorts of the tuples of a set; nothing of another sort.
pub fn entries(sort: &Sort) -> Option<&[Arc<Sort>]> {
    match sort {
        Sort::Set(part) => match part.as_ref() {
            Sort::Tuple(entries) => Some(entries),
            _ => None,
        },
        _ => None,
    }
}

impl Rank {
    /// The least and the most arguments.
    pub fn counts(&self) -> (usize, Option<usize>) {
        match self {
            Rank::List(wants) => (wants.len(), Some(wants.len())),
            Rank::Several(least, _) => (*least, None),
            Rank::Then(..) => (2, None),
        }
    }

    /// What is asked of the argument at a place, of so many.
    fn want(&self, at: usize, count: usize) -> Option<Want> {
        match self {
            Rank::List(wants) => wants.get(at).copied(),
            Rank::Several(_, want) => Some(*want),
            Rank::Then(_, last) if at + 1 == count => Some(*last),
            Rank::Then(want, _) => Some(*want),
        }
    }

    /// The first argument that does not fit; nothing if all fit.
    pub fn misfit(&self, numbers: &[usize], sorts: &[&Arc<Sort>]) -> Option<Finding> {
        let mut before = Before::default();
        for (at, sort) in sorts.iter().enumerate() {
            let want = self.want(at, sorts.len())?;
            let expected = before.expected(want)?;
            if !expected.fits(sort) {
                return Some(Finding::sort(Role::Argument, at + 1, Some(numbers[at]), sort, expected));
            }
            before.note(want, sort);
        }
        None
    }
}

impl Want {
    /// What is asked of the first such argument; nothing for what the arguments before it say.
    fn expected(self) -> Option<Expected> {
        let sort = |sort: Sort| Some(Expected::Sort(Arc::new(sort)));
        match self {
            Want::Bool => sort(Sort::Bool),
            Want::Int => sort(Sort::Int),
            Want::Real => sort(Sort::Real),
            Want::String => sort(Sort::String),
            Want::RegLan => sort(Sort::RegLan),
            Want::Number => Some(Expected::IntOrReal),
            Want::Same | Want::Any => Some(Expected::NotPar),
            Want::Vector | Want::AnyVector => Some(Expected::BitVec),
            Want::Array => Some(Expected::Array),
            Want::Set | Want::SameSet => Some(Expected::Set),
            Want::Relation => Some(Expected::Relation(0)),
            Want::Filled => Some(Expected::Relation(1)),
            Want::Pairs => Some(Expected::Pairs),
            Want::Index | Want::Element | Want::SetOfSame | Want::Touching => None,
        }
    }
}

impl Expected {
    /// Whether a checked sort is as asked for; no, if no sort was asked for.
    pub(super) fn fits(&self, sort: &Sort) -> bool {
        match self {
            Expected::Sort(expected) => **expected == *sort,
            Expected::IntOrReal => matches!(sort, Sort::Int | Sort::Real),
            Expected::BitVec => matches!(sort, Sort::BitVec(_)),
            Expected::Array => matches!(sort, Sort::Array(..)),
            Expected::Set => matches!(sort, Sort::Set(_)),
            Expected::Relation(columns) => entries(sort).is_some_and(|entries| entries.len() >= *columns),
            Expected::Starting(first) => entries(sort).is_some_and(|entries| entries.first() == Some(first)),
            Expected::Pairs => matches!(entries(sort), Some([from, to]) if from == to),
            Expected::NotPar => !matches!(sort, Sort::Par(..)),
            _ => false,
        }
    }
}

/// The rank of an operator, if it has one.
pub fn rank(operator: Operator) -> Option<Rank> {
    let theories = [core_rank, number_rank, string_rank, vector_rank, set_rank];
    theories.into_iter().find_map(|theory| theory(operator))
}

/// The rank of an operator of logic, on any sorts or on arrays; nothing of others.
fn core_rank(operator: Operator) -> Option<Rank> {
    use Operator::*;
    use Rank::{List, Several};
    use Want::{Array, Bool, Element, Index, Same};
    Some(match operator {
        True | False => List(&[]),
        Not => List(&[Bool]),
        Implies | And | Or | Xor => Several(2, Bool),
        Equals | Distinct => Several(2, Same),
        Ite => List(&[Bool, Same, Same]),
        Select => List(&[Array, Index]),
        Store => List(&[Array, Index, Element]),
        _ => return None,
    })
}

/// The rank of an operator on numbers; nothing of others.
fn number_rank(operator: Operator) -> Option<Rank> {
    use Operator::*;
    use Rank::{List, Several};
    use Want::{Int, Number, Real};
    Some(match operator {
        Sub => Several(1, Number),
        Add | Mult | RealDiv | LessThan | GreaterThan | LessEq | GreaterEq => Several(2, Number),
        IntDiv => Several(2, Int),
        Mod => List(&[Int, Int]),
        Abs | ToReal => List(&[Int]),
        ToInt | IsInt => List(&[Real]),
        _ => return None,
    })
}

/// The rank of an operator on strings and regular expressions; nothing of others.
fn string_rank(operator: Operator) -> Option<Rank> {
    use Operator::*;
    use Rank::{List, Several};
    use Want::{Int, RegLan, String};
    Some(match operator {
        StrConcat | StrLessThan | StrLessEq => Several(2, String),
        StrLen | StrIsDigit | StrToCode | StrToInt | StrToRe => List(&[String]),
        StrFromCode | StrFromInt => List(&[Int]),
        CharAt => List(&[String, Int]),
        Substring => List(&[String, Int, Int]),
        PrefixOf | SuffixOf | Contains | ReRange => List(&[String, String]),
        IndexOf => List(&[String, String, Int]),
        Replace | ReplaceAll => List(&[String, String, String]),
        ReplaceRe | ReplaceReAll => List(&[String, RegLan, String]),
        StrInRe => List(&[String, RegLan]),
        ReNone | ReAll | ReAllChar => List(&[]),
        ReConcat | ReUnion | ReIntersection | ReDiff => Several(2, RegLan),
        ReKleeneClosure | ReComplement | ReKleeneCross | ReOption => List(&[RegLan]),
        _ => return None,
    })
}

/// The rank of an operator on bit vectors; nothing of others.
fn vector_rank(operator: Operator) -> Option<Rank> {
    use Operator::*;
    use Rank::{List, Several};
    use Want::{AnyVector, Vector};
    Some(match operator {
        BvNot | BvNeg | UBvToInt | SBvToInt => List(&[AnyVector]),
        BvConcat => List(&[AnyVector, AnyVector]),
        BvAnd | BvOr | BvAdd | BvMul => Several(2, Vector),
        BvUDiv | BvURem | BvShl | BvLShr | BvULt | BvNAnd | BvNOr | BvXor | BvXNor | BvComp | BvSub | BvSDiv
        | BvSRem | BvSMod | BvAShr | BvULe | BvUGt | BvUGe | BvSLt | BvSLe | BvSGt | BvSGe => List(&[Vector, Vector]),
        _ => return None,
    })
}

/// The rank of an operator on sets, tuples and relations; nothing of others.
fn set_rank(operator: Operator) -> Option<Rank> {
    use Operator::*;
    use Rank::{List, Several, Then};
    use Want::{Any, Filled, Pairs, Relation, Same, SameSet, Set, SetOfSame, Touching};
    Some(match operator {
        SetUnion | SetInter | SetMinus | SetSubset => List(&[SameSet, SameSet]),
        SetMember => List(&[Same, SetOfSame]),
        SetInsert => Then(Same, SetOfSame),
        SetSingleton => List(&[Any]),
        SetIsEmpty | SetIsSingleton | SetCard | SetComplement => List(&[Set]),
        Tuple => Several(1, Any),
        TupleUnit => List(&[]),
        RelTranspose => List(&[Relation]),
        RelTclosure => List(&[Pairs]),
        RelJoin => List(&[Filled, Touching]),
        RelProduct => List(&[Relation, Relation]),
        _ => return None,
    })
}
