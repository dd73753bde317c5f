//! The checked row: the ranks of SMT-LIB, those of sets and relations, and the order of what can be wrong.
//!
//! After 20 come 24 (no rank), 28 (what a record's own sorts may not hold), 25 (counts and indices), 26 (arguments) and 27 (a parameter
//! that nothing assigns). A sort fits where it is equal; a parametric sort fits nowhere but as an App's head.

use crate::Cause;
use crate::operator::{INDEXED, Indexed, OPERATORS, Operator};
use crate::reader::Term;
use crate::sort::{Kind, Sort, Tree};
use crate::substitution::{self, Map};

/// The checked sort of a term over the checked sorts below it.
pub fn check(terms: &[Term], term: &Term, sorts: &[Tree]) -> Result<Tree, Cause> {
    expect(ranked(term), Cause::Unranked)?;
    expect(own_sorts_stand(term), Cause::Held)?;
    match term.kind {
        0 => Ok(Sort::plain(Kind::Int)),
        1 => Ok(Sort::plain(Kind::Real)),
        2 => Ok(Sort::plain(Kind::String)),
        3 => Ok(Sort::plain(Kind::RegLan)),
        4 => Ok(Sort::bit_vec(term.number.into())),
        6 => applied(&sorts[0], &sorts[1..]),
        7 => operated(OPERATORS[term.number as usize], sorts),
        8 => bound(term, &sorts[0]),
        9 => {
            expect(sorts.len() >= 2, Cause::Count)?;
            expect(sorts.iter().all(value), Cause::Unfit)?;
            Ok(sorts[sorts.len() - 1].clone())
        }
        11 => indexed(terms, term, sorts),
        12 => qualified(term, sorts),
        _ => Ok(own(term)),
    }
}

/// Refuses what is not as it must be.
fn expect(stands: bool, cause: Cause) -> Result<(), Cause> {
    if stands { Ok(()) } else { Err(cause) }
}

/// The sort that a Var's or AsOp's record holds.
fn own(term: &Term) -> Tree {
    term.sort.clone().expect("a Var or AsOp holds a sort")
}

/// Whether a sort may be a value's: it is not parametric.
fn value(sort: &Tree) -> bool {
    sort.kind != Kind::Par
}

/// Whether a term's operator has a rank.
fn ranked(term: &Term) -> bool {
    match term.kind {
        7 => !matches!(term.number, 24..=41 | 54 | 78 | 110..=117),
        10 => false,
        11 => !matches!(term.number, 1 | 2 | 8),
        _ => true,
    }
}

/// Whether the sorts that a record holds itself hold nothing that they may not.
fn own_sorts_stand(term: &Term) -> bool {
    match term.kind {
        4 => term.number != 0,
        5 => {
            let sort = own(term);
            let declared = match sort.kind {
                Kind::Par if sort.parts[0].kind == Kind::Function => &sort.parts[0],
                _ => &sort,
            };
            stands(declared)
        }
        8 => term.bindings.iter().all(|sort| stands(sort)),
        12 => stands(&own(term)),
        _ => true,
    }
}

/// Whether a sort holds no Type, no vector of unknown width or of width 0, and no Par.
fn stands(sort: &Sort) -> bool {
    !sort.holds(&|part| match part.kind {
        Kind::Type | Kind::ParamBitVec | Kind::Par => true,
        Kind::BitVec => part.width == 0,
        _ => false,
    })
}

/// The sort of a head at arguments.
fn applied(head: &Tree, arguments: &[Tree]) -> Result<Tree, Cause> {
    expect(!arguments.is_empty(), Cause::Count)?;
    let (function, parameters) = match head.kind {
        Kind::Function => (head, [].as_slice()),
        Kind::Par => (&head.parts[0], head.names.as_slice()),
        _ => return Err(Cause::Unfit),
    };
    let declared = &function.parts;
    let count = arguments.len();
    expect(count < declared.len(), Cause::Count)?;
    expect(arguments.iter().all(value), Cause::Unfit)?;
    let mut assignment = Map::new();
    for (pattern, argument) in declared.iter().zip(arguments) {
        let fits = substitution::assign(pattern, argument, parameters, &mut assignment);
        expect(fits, Cause::Unfit)?;
    }
    let rest = match &declared[count..] {
        [last] => last.clone(),
        rest => Sort::of(Kind::Function, rest.to_vec()),
    };
    let unassigned =
        |sort: &Sort| sort.kind == Kind::Var && parameters.contains(&sort.name) && !assignment.contains_key(&sort.name);
    expect(!rest.holds(&unassigned), Cause::Unassigned)?;
    Ok(substitution::apply(&assignment, &rest))
}

/// The sort of a binder over its body.
fn bound(term: &Term, body: &Tree) -> Result<Tree, Cause> {
    let count = term.bindings.len();
    match term.number {
        0 | 1 => {
            expect(count >= 1, Cause::Count)?;
            expect(body.kind == Kind::Bool, Cause::Unfit)?;
            Ok(Sort::plain(Kind::Bool))
        }
        2 => {
            expect(count == 1, Cause::Count)?;
            expect(body.kind == Kind::Bool, Cause::Unfit)?;
            Ok(term.bindings[0].clone())
        }
        _ => {
            expect(count >= 1, Cause::Count)?;
            expect(value(body), Cause::Unfit)?;
            let mut parts = term.bindings.clone();
            parts.push(body.clone());
            Ok(Sort::of(Kind::Function, parts))
        }
    }
}

/// The sort of `as const`, which takes an element of the Array it gives, or of the empty set or the set of all, of a Set sort.
fn qualified(term: &Term, sorts: &[Tree]) -> Result<Tree, Cause> {
    let sort = own(term);
    let constant = term.number == 0;
    expect(sorts.len() == usize::from(constant), Cause::Count)?;
    let fits = match constant {
        true => sort.kind == Kind::Array && sorts[0] == sort.parts[1],
        false => sort.kind == Kind::Set,
    };
    expect(fits, Cause::Unfit)?;
    Ok(sort)
}

/// The sort of an indexed operator: one argument, and one index or two.
fn indexed(terms: &[Term], term: &Term, sorts: &[Tree]) -> Result<Tree, Cause> {
    let operator = INDEXED[term.number as usize];
    let count = match operator {
        Indexed::Extract | Indexed::ReLoop => 2,
        _ => 1,
    };
    expect(sorts.len() == 1 && term.indices.len() == count, Cause::Count)?;
    let constants = term.indices.iter().all(|&index| terms[index].kind == 0);
    expect(constants, Cause::Count)?;
    let index = |at: usize| u64::from(terms[term.indices[at]].number);
    let sort = &sorts[0];
    let vector = sort.kind == Kind::BitVec;
    let in_range = match operator {
        Indexed::Extract => index(1) <= index(0) && (!vector || index(0) < sort.width),
        Indexed::Repeat | Indexed::IntToBv => index(0) >= 1,
        _ => true,
    };
    expect(in_range, Cause::Count)?;
    let (fits, result) = match operator {
        Indexed::Extract => (vector, Sort::bit_vec(index(0) - index(1) + 1)),
        Indexed::ZeroExtend | Indexed::SignExtend => (vector, Sort::bit_vec(sort.width + index(0))),
        Indexed::RotateLeft | Indexed::RotateRight => (vector, sort.clone()),
        Indexed::Repeat => (vector, Sort::bit_vec(sort.width * index(0))),
        Indexed::IntToBv => (sort.kind == Kind::Int, Sort::bit_vec(index(0))),
        Indexed::RePower | Indexed::ReLoop => (sort.kind == Kind::RegLan, sort.clone()),
        Indexed::BitOf | Indexed::IntOf | Indexed::BvConst => return Err(Cause::Unranked),
    };
    expect(fits, Cause::Unfit)?;
    Ok(result)
}

/// How many arguments an operator takes.
enum Takes {
    /// So many.
    Exactly(usize),
    /// So many or more.
    AtLeast(usize),
}

/// How many arguments a ranked operator takes.
fn takes(operator: Operator) -> Takes {
    use Operator::*;
    use Takes::{AtLeast, Exactly};
    match operator {
        True | False | ReNone | ReAll | ReAllChar | TupleUnit => Exactly(0),
        Sub | Tuple => AtLeast(1),
        Implies | And | Or | Xor | Equals | Distinct | Add | Mult | IntDiv | RealDiv | LessThan | GreaterThan
        | LessEq | GreaterEq | StrConcat | StrLessThan | StrLessEq | ReConcat | ReUnion | ReIntersection | ReDiff
        | BvAnd | BvOr | BvAdd | BvMul | SetInsert => AtLeast(2),
        Not | Abs | ToReal | ToInt | IsInt | StrLen | StrIsDigit | StrToCode | StrFromCode | StrToInt | StrFromInt
        | StrToRe | ReKleeneClosure | ReComplement | ReKleeneCross | ReOption | BvNot | BvNeg | UBvToInt | SBvToInt
        | SetSingleton | SetIsEmpty | SetIsSingleton | SetCard | SetComplement | RelTranspose | RelTclosure => {
            Exactly(1)
        }
        Ite | Store | Substring | IndexOf | Replace | ReplaceAll | ReplaceRe | ReplaceReAll => Exactly(3),
        _ => Exactly(2),
    }
}

/// The sort of a ranked operator at arguments.
fn operated(operator: Operator, sorts: &[Tree]) -> Result<Tree, Cause> {
    let counted = match takes(operator) {
        Takes::Exactly(count) => sorts.len() == count,
        Takes::AtLeast(count) => sorts.len() >= count,
    };
    expect(counted, Cause::Count)?;
    expect(sorts.iter().all(value), Cause::Unfit)?;
    rank(operator, sorts).ok_or(Cause::Unfit)
}

/// The result of the rank that fits arguments of the right count; nothing if none fits.
fn rank(operator: Operator, sorts: &[Tree]) -> Option<Tree> {
    use Kind::{Array, BitVec, Bool, Int, Real, RegLan, String as Text};
    use Operator::*;
    // The result, if the arguments are of these kinds one by one.
    let listed = |kinds: &[Kind], result: Kind| -> Option<Tree> {
        let fits = sorts.iter().map(|sort| sort.kind).eq(kinds.iter().copied());
        fits.then(|| Sort::plain(result))
    };
    let all_are = |kind: Kind| sorts.iter().all(|sort| sort.kind == kind);
    // The result, if all arguments are of this kind.
    let all = |kind: Kind, result: Kind| all_are(kind).then(|| Sort::plain(result));
    // The result, if each argument is Int or Real, in any mixture.
    let numbers = |result: Kind| {
        let fits = sorts.iter().all(|sort| matches!(sort.kind, Int | Real));
        fits.then(|| Sort::plain(result))
    };
    let same = sorts.windows(2).all(|two| two[0] == two[1]);
    // The first argument's sort, if all are vectors of one width.
    let vectors = || (same && all_are(BitVec)).then(|| sorts[0].clone());
    match operator {
        True | False => all(Bool, Bool),
        Not | Implies | And | Or | Xor => all(Bool, Bool),
        Equals | Distinct => same.then(|| Sort::plain(Bool)),
        Ite => (sorts[0].kind == Bool && sorts[1] == sorts[2]).then(|| sorts[1].clone()),
        Add | Sub | Mult => all(Int, Int).or_else(|| numbers(Real)),
        LessThan | GreaterThan | LessEq | GreaterEq => numbers(Bool),
        IntDiv | Mod | Abs => all(Int, Int),
        RealDiv => numbers(Real),
        ToReal => all(Int, Real),
        ToInt => all(Real, Int),
        IsInt => all(Real, Bool),
        Select => {
            let fits = sorts[0].kind == Array && sorts[1] == sorts[0].parts[0];
            fits.then(|| sorts[0].parts[1].clone())
        }
        Store => {
            let fits = sorts[0].kind == Array && sorts[1..] == sorts[0].parts;
            fits.then(|| sorts[0].clone())
        }
        StrConcat | Replace | ReplaceAll => all(Text, Text),
        StrLen | StrToCode | StrToInt => all(Text, Int),
        StrLessThan | StrLessEq | PrefixOf | SuffixOf | Contains | StrIsDigit => all(Text, Bool),
        CharAt => listed(&[Text, Int], Text),
        Substring => listed(&[Text, Int, Int], Text),
        IndexOf => listed(&[Text, Text, Int], Int),
        ReplaceRe | ReplaceReAll => listed(&[Text, RegLan, Text], Text),
        StrFromCode | StrFromInt => all(Int, Text),
        StrToRe | ReRange => all(Text, RegLan),
        StrInRe => listed(&[Text, RegLan], Bool),
        ReNone | ReAll | ReAllChar | ReConcat | ReUnion | ReIntersection | ReKleeneClosure | ReComplement | ReDiff
        | ReKleeneCross | ReOption => all(RegLan, RegLan),
        BvNot | BvNeg | BvAnd | BvOr | BvAdd | BvMul | BvUDiv | BvURem | BvShl | BvLShr | BvNAnd | BvNOr | BvXor
        | BvXNor | BvSub | BvSDiv | BvSRem | BvSMod | BvAShr => vectors(),
        BvULt | BvULe | BvUGt | BvUGe | BvSLt | BvSLe | BvSGt | BvSGe => vectors().map(|_| Sort::plain(Bool)),
        BvComp => vectors().map(|_| Sort::bit_vec(1)),
        BvConcat => all_are(BitVec).then(|| Sort::bit_vec(sorts[0].width + sorts[1].width)),
        UBvToInt | SBvToInt => all(BitVec, Int),
        _ => set_rank(operator, sorts),
    }
}

/// The same for the operators over sets and relations; nothing for others.
fn set_rank(operator: Operator, sorts: &[Tree]) -> Option<Tree> {
    use Operator::*;
    let (last, before) = sorts.split_last().map_or((None, sorts), |(last, before)| (Some(last), before));
    // The last argument's sort, if it is a Set.
    let set = || last.filter(|sort| sort.kind == Kind::Set);
    // The same, if all arguments have one sort.
    let one_set = || set().filter(|set| before.iter().all(|sort| sort == *set));
    // The same, if all arguments before it are elements of it.
    let set_of = || set().filter(|set| before.iter().all(|sort| *sort == set.parts[0]));
    let plain = |kind: Kind| move |_: &Tree| Sort::plain(kind);
    match operator {
        SetUnion | SetInter | SetMinus | SetComplement => one_set().cloned(),
        SetSubset => one_set().map(plain(Kind::Bool)),
        SetIsEmpty | SetIsSingleton => set().map(plain(Kind::Bool)),
        SetCard => set().map(plain(Kind::Int)),
        SetMember => set_of().map(plain(Kind::Bool)),
        SetInsert => set_of().cloned(),
        SetSingleton => Some(Sort::of(Kind::Set, sorts.to_vec())),
        Tuple | TupleUnit => Some(Sort::of(Kind::Tuple, sorts.to_vec())),
        RelTranspose => Some(Sort::relation(sorts[0].columns()?.iter().rev().cloned().collect())),
        RelTclosure => match sorts[0].columns()? {
            [from, to] if from == to => Some(sorts[0].clone()),
            _ => None,
        },
        RelJoin => {
            let (end, left) = sorts[0].columns()?.split_last()?;
            let (start, right) = sorts[1].columns()?.split_first()?;
            (end == start).then(|| Sort::relation([left, right].concat()))
        }
        RelProduct => Some(Sort::relation([sorts[0].columns()?, sorts[1].columns()?].concat())),
        _ => None,
    }
}
