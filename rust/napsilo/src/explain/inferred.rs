//! What a refused inferred row is about: where carcara's `Pool::compute_sort` panics.

use super::matching::{self, Map};
use super::ranks::entries;
use super::{Expected, Finding, Found, Role, Term, View, limits};
use crate::{Binder, Cause, Operator, ParamOperator, Sort};
use std::sync::Arc;

/// What is found of a term that is refused for its own sake with this cause; nothing if the cause says all.
pub fn find(view: &View<'_>, place: usize, cause: Cause) -> Option<Finding> {
    let term = &view.terms[place];
    match cause {
        Cause::Limit => limits::find(view, term, matching::match_with),
        Cause::Panics => panics(view, term),
        _ => None,
    }
}

/// 21: what the Rust indexes, unwraps or takes for granted.
fn panics(view: &View<'_>, term: &Term) -> Option<Finding> {
    match term {
        Term::App(head, args) => application(view, *head, args),
        Term::Op(op, args) => operator(view, *op, args),
        Term::Binder(Binder::Choice, bindings, _) => Finding::count(Role::Binding, bindings.len(), 1, None),
        Term::Match(_, bodies) => Finding::count(Role::Case, bodies.len(), 1, None),
        Term::ParamOp { op, op_args, args } => indexed(view, *op, op_args, args),
        _ => None,
    }
}

/// An application: its head is a function, which has a list as long as the arguments, and which takes them if it is parametric.
fn application(view: &View<'_>, head: usize, args: &[usize]) -> Option<Finding> {
    let Some((parameters, list)) = view.declared(head) else {
        return Some(Finding::sort(Role::Head, 1, Some(head), view.sort(head)?, Expected::Function));
    };
    if args.len() > list.len() {
        return Finding::count(Role::Argument, args.len(), 0, Some(list.len()));
    }
    if parameters.is_empty() {
        return None;
    }
    let mut map = Map::new();
    for (at, (number, pattern)) in args.iter().zip(list).enumerate() {
        let sort = view.sort(*number)?;
        // What a Par inside a pattern assigned to its own names does not count here: they stand for themselves.
        let mut before = map.clone();
        before.retain(|name, _| parameters.contains(name));
        if !matching::match_with(pattern, parameters, sort, &mut map) {
            let held = matching::first(pattern, |sort| matches!(sort, Sort::Par(..)));
            let expected = match (held, matching::form(pattern, parameters, &before)) {
                (Some(_), _) => Expected::Form(pattern.clone(), parameters.to_vec()),
                // A width that is not known is equal to every other.
                (None, Expected::Sort(sort)) if *sort == Sort::ParamBitVec => Expected::BitVec,
                (None, expected) => expected,
            };
            return Some(Finding::sort(Role::Argument, at + 1, Some(*number), sort, expected));
        }
    }
    None
}

/// An operator: the arguments that it indexes, and those whose sorts it takes apart.
fn operator(view: &View<'_>, op: Operator, args: &[usize]) -> Option<Finding> {
    use Operator::*;
    let at_least = |count| Finding::count(Role::Argument, args.len(), count, None);
    let vector = |sort: &Sort| matches!(sort, Sort::BitVec(_) | Sort::ParamBitVec);
    let unlike = |at: usize, fits: &dyn Fn(&Sort) -> bool, expected: Expected| {
        let sort = view.sort(*args.get(at)?)?;
        let misfit = || Finding::sort(Role::Argument, at + 1, Some(args[at]), sort, expected);
        (!fits(sort)).then(misfit)
    };
    match op {
        Ite | BvIte | BvConst => at_least(2),
        Abs | Store | SetUnion | SetInter | SetMinus | SetComplement | SetSingleton | SetInsert | RelTclosure => {
            at_least(1)
        }
        Select => at_least(1).or_else(|| unlike(0, &|sort| matches!(sort, Sort::Array(..)), Expected::Array)),
        BvNot | BvNeg | BvAnd | BvOr | BvAdd | BvMul | BvUDiv | BvURem | BvShl | BvLShr | BvNAnd | BvNOr | BvXor
        | BvXNor | BvSub | BvSDiv | BvSRem | BvSMod | BvAShr => {
            // From the first vector of known width on, nothing is looked at.
            let known =
                args.iter().position(|number| matches!(view.sort(*number).map(Arc::as_ref), Some(Sort::BitVec(_))));
            (0..known.unwrap_or(args.len())).find_map(|at| unlike(at, &vector, Expected::BitVec))
        }
        BvConcat => (0..args.len()).find_map(|at| unlike(at, &vector, Expected::BitVec)),
        RelTranspose => at_least(1).or_else(|| unlike(0, &relation(0), Expected::Relation(0))),
        RelJoin | RelProduct => {
            let columns = usize::from(op == RelJoin);
            let left = || unlike(0, &relation(0), Expected::Relation(0));
            let right = || unlike(1, &relation(columns), Expected::Relation(columns));
            at_least(2).or_else(left).or_else(right)
        }
        _ => None,
    }
}

/// Whether a sort is a set of tuples of at least so many columns.
fn relation(columns: usize) -> impl Fn(&Sort) -> bool {
    move |sort| entries(sort).is_some_and(|entries| entries.len() >= columns)
}

/// An indexed operator: its indices, and the argument whose sort it takes apart.
fn indexed(view: &View<'_>, op: ParamOperator, op_args: &[usize], args: &[usize]) -> Option<Finding> {
    use ParamOperator::*;
    let indices = |count| Finding::count(Role::Index, op_args.len(), count, None);
    let arguments = || Finding::count(Role::Argument, args.len(), 1, None);
    match op {
        BvExtract => {
            let first = op_args.first().and_then(|index| view.integer(*index));
            let below = || {
                let (first, second) = (first?, view.integer(*op_args.get(1)?)?);
                let part = Some((Role::Index, 2, Some(op_args[1])));
                let expected = Some(Expected::Number(0, Some(first)));
                (second > first).then_some(Finding { part, found: Some(Found::Number(second)), expected })
            };
            indices(1).or_else(|| first.and_then(|_| indices(2))).or_else(below)
        }
        ZeroExtend | SignExtend | Repeat => indices(1).or_else(arguments).or_else(|| {
            let sort = view.sort(*args.first()?)?;
            let vector = matches!(sort.as_ref(), Sort::BitVec(_) | Sort::ParamBitVec);
            (!vector).then(|| Finding::sort(Role::Argument, 1, Some(args[0]), sort, Expected::BitVec))
        }),
        RotateLeft | RotateRight => arguments(),
        IntToBv => indices(1),
        _ => None,
    }
}
