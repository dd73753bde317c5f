//! The inferred row: what the Rust's `Pool::compute_sort` gives, refused where it panics.
//!
//! Everywhere here, nothing (`None`) is a panic of the Rust's.

use crate::Cause;
use crate::operator::{INDEXED, Indexed, OPERATORS, Operator};
use crate::reader::Term;
use crate::sort::{Kind, Sort, Tree};
use crate::substitution::{self, Map};

/// The inferred sort of a term over the inferred sorts below it.
pub fn infer(terms: &[Term], term: &Term, sorts: &[Tree]) -> Result<Tree, Cause> {
    inferred(terms, term, sorts).ok_or(Cause::Panic)
}

/// The inferred sort by the term's kind.
fn inferred(terms: &[Term], term: &Term, sorts: &[Tree]) -> Option<Tree> {
    match term.kind {
        0 => Some(Sort::plain(Kind::Int)),
        1 => Some(Sort::plain(Kind::Real)),
        2 => Some(Sort::plain(Kind::String)),
        3 => Some(Sort::plain(Kind::RegLan)),
        4 => Some(Sort::bit_vec(term.number.into())),
        5 | 12 => term.sort.clone(),
        6 => applied(&sorts[0], &sorts[1..]),
        7 => operated(terms, term, sorts),
        8 => bound(term, &sorts[0]),
        9 => sorts.last().cloned(),
        // The subject is no body.
        10 => sorts[1..].last().cloned(),
        _ => indexed(terms, term, sorts).map(|sort| sort.unwrap_or_else(|| Sort::plain(Kind::ParamBitVec))),
    }
}

/// The sort of a head at arguments.
fn applied(head: &Tree, arguments: &[Tree]) -> Option<Tree> {
    let (function, parameters) = match head.kind {
        Kind::Function => (head, None),
        Kind::Par => (&head.parts[0], Some(&head.names)),
        _ => return None,
    };
    if function.kind != Kind::Function {
        return None;
    }
    let declared = &function.parts;
    let rest = if arguments.len() + 1 == declared.len() {
        declared.last()?.clone()
    } else {
        Sort::of(Kind::Function, declared.get(arguments.len()..)?.to_vec())
    };
    let Some(parameters) = parameters else {
        return Some(rest);
    };
    let mut map = Map::new();
    for (pattern, argument) in declared.iter().zip(arguments) {
        if !substitution::match_with(pattern, parameters, argument, &mut map) {
            return None;
        }
    }
    Some(substitution::apply(&map, &rest))
}

/// The sort of a binder over its body.
fn bound(term: &Term, body: &Tree) -> Option<Tree> {
    match term.number {
        0 | 1 => Some(Sort::plain(Kind::Bool)),
        2 => term.bindings.first().cloned(),
        _ => {
            let mut parts = term.bindings.clone();
            parts.push(body.clone());
            Some(Sort::of(Kind::Function, parts))
        }
    }
}

/// The sort of an operator at arguments.
fn operated(terms: &[Term], term: &Term, sorts: &[Tree]) -> Option<Tree> {
    use Operator::*;
    let plain = |kind| Some(Sort::plain(kind));
    match OPERATORS[term.number as usize] {
        True | False | Not | Implies | And | Or | Xor | Equals | Distinct | LessThan | GreaterThan | LessEq
        | GreaterEq | IsInt | IsPow2 | StrLessThan | StrLessEq | PrefixOf | SuffixOf | Contains | StrIsDigit
        | StrInRe | BvULt | BvULe | BvUGt | BvUGe | BvSLt | BvSLe | BvSGt | BvSGe | Cl | Delete | SetMember
        | SetSubset | SetIsEmpty | SetIsSingleton => plain(Kind::Bool),
        IntDiv | Mod | ToInt | Pow2 | Log2 | StrLen | IndexOf | IndexOfRe | StrToCode | StrToInt | UBvToInt
        | SBvToInt | BvSize | SetCard => plain(Kind::Int),
        RealDiv | ToReal | RealPi | Sqrt | Exp | Sin | Cos | Tan | Csc | Sec | Cot | Arcsin | Arccos | Arctan
        | Arccsc | Arcsec | Arccot => plain(Kind::Real),
        StrConcat | CharAt | Substring | Replace | ReplaceAll | ReplaceRe | ReplaceReAll | StrFromCode | StrFromInt => {
            plain(Kind::String)
        }
        StrToRe | ReNone | ReAll | ReAllChar | ReConcat | ReUnion | ReIntersection | ReKleeneClosure | ReComplement
        | ReDiff | ReKleeneCross | ReOption | ReRange | ReFromAutomaton => plain(Kind::RegLan),
        Add | Sub | Mult => match sorts.iter().any(|sort| sort.kind == Kind::Real) {
            true => plain(Kind::Real),
            false => plain(Kind::Int),
        },
        Ite | BvIte => sorts.get(1).cloned(),
        Abs | Store | SetUnion | SetInter | SetMinus | SetComplement | RelTclosure => sorts.first().cloned(),
        SetInsert => sorts.last().cloned(),
        Select => {
            let array = sorts.first().filter(|sort| sort.kind == Kind::Array)?;
            Some(array.parts[1].clone())
        }
        BvNot | BvNeg | BvAnd | BvOr | BvAdd | BvMul | BvUDiv | BvURem | BvShl | BvLShr | BvNAnd | BvNOr | BvXor
        | BvXNor | BvSub | BvSDiv | BvSRem | BvSMod | BvAShr => first_vector(sorts),
        BvComp => Some(Sort::bit_vec(1)),
        BvPBbTerm | BvBbTerm => Some(Sort::bit_vec(sorts.len() as u64)),
        BvConst => Some(match integer(terms, *term.list.get(1)?) {
            Some(width) => Sort::bit_vec(width),
            None => Sort::plain(Kind::ParamBitVec),
        }),
        BvConcat => joined(sorts),
        RareList => Some(sorts.first().cloned().unwrap_or_else(|| Sort::var(0))),
        SetSingleton => Some(Sort::of(Kind::Set, vec![sorts.first()?.clone()])),
        Tuple => Some(Sort::of(Kind::Tuple, sorts.to_vec())),
        TupleUnit => Some(Sort::of(Kind::Tuple, Vec::new())),
        RelTranspose => Some(Sort::relation(sorts.first()?.columns()?.iter().rev().cloned().collect())),
        RelJoin => {
            let (left, right) = (sorts.first()?.columns()?, sorts.get(1)?.columns()?);
            let left = &left[..left.len().saturating_sub(1)];
            Some(Sort::relation([left, right.get(1..)?].concat()))
        }
        RelProduct => Some(Sort::relation([sorts.first()?.columns()?, sorts.get(1)?.columns()?].concat())),
    }
}

/// The first bit-vector of known width; one of unknown width is passed over, another sort met before is a panic.
fn first_vector(sorts: &[Tree]) -> Option<Tree> {
    for sort in sorts {
        match sort.kind {
            Kind::BitVec => return Some(sort.clone()),
            Kind::ParamBitVec => (),
            _ => return None,
        }
    }
    Some(Sort::plain(Kind::ParamBitVec))
}

/// The sort of vectors joined: of unknown width if one is.
fn joined(sorts: &[Tree]) -> Option<Tree> {
    let vectors = sorts.iter().all(|sort| matches!(sort.kind, Kind::BitVec | Kind::ParamBitVec));
    if !vectors {
        return None;
    }
    match sorts.iter().any(|sort| sort.kind == Kind::ParamBitVec) {
        true => Some(Sort::plain(Kind::ParamBitVec)),
        false => Some(Sort::bit_vec(sorts.iter().map(|sort| sort.width).sum())),
    }
}

/// The value of a term that is an integer constant.
fn integer(terms: &[Term], number: usize) -> Option<u64> {
    let term = &terms[number];
    (term.kind == 0).then_some(term.number.into())
}

/// The sort of an indexed operator; the inner nothing stands for a vector of unknown width.
fn indexed(terms: &[Term], term: &Term, sorts: &[Tree]) -> Option<Option<Tree>> {
    let index = |at: usize| -> Option<Option<u64>> { Some(integer(terms, *term.indices.get(at)?)) };
    // A vector whose width follows from the first index and the first argument's width.
    let grown = |width: &dyn Fn(u64, u64) -> u64| -> Option<Option<Tree>> {
        let Some(index) = index(0)? else {
            return Some(None);
        };
        let argument = sorts.first()?;
        match argument.kind {
            Kind::BitVec => Some(Some(Sort::bit_vec(width(index, argument.width)))),
            Kind::ParamBitVec => Some(None),
            _ => None,
        }
    };
    match INDEXED[term.number as usize] {
        Indexed::Extract => {
            let Some(high) = index(0)? else {
                return Some(None);
            };
            let Some(low) = index(1)? else {
                return Some(None);
            };
            Some(Some(Sort::bit_vec(high.checked_sub(low)? + 1)))
        }
        Indexed::ZeroExtend | Indexed::SignExtend => grown(&|index, width| index + width),
        Indexed::Repeat => grown(&|index, width| index * width),
        Indexed::RotateLeft | Indexed::RotateRight => Some(Some(sorts.first()?.clone())),
        Indexed::BvConst => None,
        Indexed::IntToBv => Some(index(0)?.map(Sort::bit_vec)),
        Indexed::BitOf => Some(Some(Sort::plain(Kind::Bool))),
        Indexed::IntOf => Some(Some(Sort::plain(Kind::Int))),
        Indexed::RePower | Indexed::ReLoop => Some(Some(Sort::plain(Kind::RegLan))),
    }
}
