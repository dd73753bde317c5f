//! What a refused checked row is about: the ranks of SMT-LIB, gone through for the first part that does not fit.

use super::matching::{self, Map};
use super::{Expected, Finding, Found, Role, Term, View, limits, ranks};
use crate::{Binder, Cause, Name, ParamOperator, QualifiedOperator, Sort};
use std::sync::Arc;

/// What is found of a term that is refused for its own sake with this cause; nothing if the cause says all.
pub fn find(view: &View<'_>, place: usize, cause: Cause) -> Option<Finding> {
    let term = &view.terms[place];
    match cause {
        Cause::Limit => limits::find(view, term, matching::assign),
        Cause::Count => count(view, term),
        Cause::Misfit => misfit(view, term),
        Cause::Unassigned => unassigned(view, term),
        Cause::Barred => barred(term),
        _ => None,
    }
}

/// 25: the wrong count, or the wrong index.
fn count(view: &View<'_>, term: &Term) -> Option<Finding> {
    match term {
        Term::App(head, args) => match (view.declared(*head), args.len()) {
            (Some((_, [] | [_])), count) if count > 0 => {
                Some(Finding::sort(Role::Head, 1, Some(*head), view.sort(*head)?, Expected::Taking(count)))
            }
            (Some((_, [_, rest @ ..])), count) if !rest.is_empty() => {
                Finding::count(Role::Argument, count, 1, Some(rest.len()))
            }
            (_, count) => Finding::count(Role::Argument, count, 1, None),
        },
        Term::Op(op, args) => {
            let (least, most) = ranks::rank(*op)?.counts();
            Finding::count(Role::Argument, args.len(), least, most)
        }
        Term::Binder(binder, bindings, _) => {
            let most = (*binder == Binder::Choice).then_some(1);
            Finding::count(Role::Binding, bindings.len(), 1, most)
        }
        Term::Let(values, _) => Finding::count(Role::Value, values.len(), 1, None),
        Term::ParamOp { op, op_args, args } => indices(view, *op, op_args, args),
        Term::AsOp(op, _, args) => {
            let wanted = usize::from(*op == QualifiedOperator::Const);
            Finding::count(Role::Argument, args.len(), wanted, Some(wanted))
        }
        _ => None,
    }
}

/// 25 of an indexed operator: the counts, then the indices from left to right.
fn indices(view: &View<'_>, op: ParamOperator, op_args: &[usize], args: &[usize]) -> Option<Finding> {
    let wanted = match op {
        ParamOperator::BvExtract | ParamOperator::ReLoop => 2,
        _ => 1,
    };
    let counts = || Finding::count(Role::Argument, args.len(), 1, Some(1));
    let counted = Finding::count(Role::Index, op_args.len(), wanted, Some(wanted)).or_else(counts);
    if counted.is_some() {
        return counted;
    }
    if let Some(at) = op_args.iter().position(|index| view.integer(*index).is_none()) {
        let part = Some((Role::Index, at + 1, Some(op_args[at])));
        return Some(Finding { part, found: Some(Found::NoConstant), expected: Some(Expected::Constant) });
    }
    let value = |at: usize| view.integer(op_args[at]);
    let out_of_range = |at: usize, least: u64, most: Option<u64>| {
        let value = value(at).filter(|value| *value < least || most.is_some_and(|most| *value > most))?;
        let part = Some((Role::Index, at + 1, Some(op_args[at])));
        let expected = Some(Expected::Number(least, most));
        Some(Finding { part, found: Some(Found::Number(value)), expected })
    };
    match (op, view.sort(*args.first()?)?.as_ref()) {
        (ParamOperator::BvExtract, Sort::BitVec(width)) => {
            let highest = u64::from(*width).checked_sub(1)?;
            out_of_range(0, 0, Some(highest)).or_else(|| out_of_range(1, 0, value(0)))
        }
        (ParamOperator::BvExtract, _) => out_of_range(1, 0, value(0)),
        (ParamOperator::Repeat | ParamOperator::IntToBv, _) => out_of_range(0, 1, None),
        _ => None,
    }
}

/// 26: the first part whose sort does not fit.
fn misfit(view: &View<'_>, term: &Term) -> Option<Finding> {
    let not_par = |role, position, number: usize| {
        let sort = view.sort(number)?;
        let misfit = || Finding::sort(role, position, Some(number), sort, Expected::NotPar);
        (!Expected::NotPar.fits(sort)).then(misfit)
    };
    match term {
        Term::App(head, args) => match view.declared(*head) {
            Some((parameters, list)) => unfit_argument(view, args, parameters, list),
            None => Some(Finding::sort(Role::Head, 1, Some(*head), view.sort(*head)?, Expected::Function)),
        },
        Term::Op(op, args) => ranks::rank(*op)?.misfit(args, &view.sorts(args)?),
        Term::Binder(Binder::Lambda, _, body) => not_par(Role::Body, 1, *body),
        Term::Binder(_, _, body) => unfit(view, Role::Body, *body, Expected::Sort(Arc::new(Sort::Bool))),
        Term::Let(values, inner) => {
            let mut values = values.iter().enumerate();
            let value = values.find_map(|(at, (_, value))| not_par(Role::Value, at + 1, *value));
            value.or_else(|| not_par(Role::Inner, 1, *inner))
        }
        Term::ParamOp { op, args, .. } => unfit(view, Role::Argument, *args.first()?, operand(*op)?),
        Term::AsOp(QualifiedOperator::Const, sort, args) => match sort.as_ref() {
            Sort::Array(_, element) => unfit(view, Role::Argument, *args.first()?, Expected::Sort(element.clone())),
            _ => Some(Finding::sort(Role::Sort, 1, None, sort, Expected::Array)),
        },
        Term::AsOp(_, sort, _) => {
            (!Expected::Set.fits(sort)).then(|| Finding::sort(Role::Sort, 1, None, sort, Expected::Set))
        }
        _ => None,
    }
}

/// A first part that is not of the sort that is asked for.
fn unfit(view: &View<'_>, role: Role, number: usize, expected: Expected) -> Option<Finding> {
    let sort = view.sort(number)?;
    (!expected.fits(sort)).then(|| Finding::sort(role, 1, Some(number), sort, expected))
}

/// What an indexed operator asks of its argument; nothing if it has no rank.
fn operand(op: ParamOperator) -> Option<Expected> {
    use ParamOperator::*;
    match op {
        BvExtract | ZeroExtend | SignExtend | RotateLeft | RotateRight | Repeat => Some(Expected::BitVec),
        IntToBv => Some(Expected::Sort(Arc::new(Sort::Int))),
        RePower | ReLoop => Some(Expected::Sort(Arc::new(Sort::RegLan))),
        BvBitOf | BvIntOf | BvConst => None,
    }
}

/// The first argument that a function does not take: a parametric one, or one that the assignment of those before does not allow.
fn unfit_argument(view: &View<'_>, args: &[usize], parameters: &[Name], list: &[Arc<Sort>]) -> Option<Finding> {
    let mut assignment = Map::new();
    for (at, (number, pattern)) in args.iter().zip(list).enumerate() {
        let sort = view.sort(*number)?;
        let before = assignment.clone();
        let fits = Expected::NotPar.fits(sort) && matching::assign(pattern, parameters, sort, &mut assignment);
        if !fits {
            let expected = match matching::form(pattern, parameters, &before) {
                // A parameter that nothing assigns yet takes every sort but a parametric one.
                Expected::Form(form, _) if matches!(*form, Sort::Var(_)) => Expected::NotPar,
                expected => expected,
            };
            return Some(Finding::sort(Role::Argument, at + 1, Some(*number), sort, expected));
        }
    }
    None
}

/// 27: the first parameter of the result that no argument assigns.
fn unassigned(view: &View<'_>, term: &Term) -> Option<Finding> {
    let Term::App(head, args) = term else {
        return None;
    };
    let (parameters, list) = view.declared(*head)?;
    let mut assignment = Map::new();
    for (number, pattern) in args.iter().zip(list) {
        if !matching::assign(pattern, parameters, view.sort(*number)?, &mut assignment) {
            return None;
        }
    }
    let result = match list.get(args.len()..)? {
        [last] => last.clone(),
        rest => Arc::new(Sort::Function(rest.to_vec())),
    };
    let kept = |sort: &Sort| match sort {
        Sort::Var(name) => parameters.contains(name) && !assignment.contains_key(name),
        _ => false,
    };
    let Sort::Var(name) = *matching::first(&result, kept)? else {
        return None;
    };
    let (part, found) = (Some((Role::Head, 1, Some(*head))), Some(Found::Sort(result)));
    Some(Finding { part, found, expected: Some(Expected::Assigned(name)) })
}

/// 28: what a sort of the record may not hold.
fn barred(term: &Term) -> Option<Finding> {
    let own = |role, position, sort: &Arc<Sort>, looked_at: &Arc<Sort>| {
        let part = matching::first(looked_at, may_not_stand)?;
        Some(Finding::sort(role, position, None, sort, Expected::Without(part)))
    };
    match term {
        Term::BitVec(0) => {
            let sort = Arc::new(Sort::BitVec(0));
            own(Role::Sort, 1, &sort, &sort)
        }
        Term::Var(_, sort) => match sort.as_ref() {
            Sort::Par(_, part) if matches!(**part, Sort::Function(_)) => own(Role::Sort, 1, sort, part),
            _ => own(Role::Sort, 1, sort, sort),
        },
        Term::Binder(_, bindings, _) => {
            let mut bindings = bindings.iter().enumerate();
            bindings.find_map(|(at, (_, sort))| own(Role::Binding, at + 1, sort, sort))
        }
        Term::AsOp(_, sort, _) => own(Role::Sort, 1, sort, sort),
        _ => None,
    }
}

/// Whether a checked sort may not hold this one.
fn may_not_stand(sort: &Sort) -> bool {
    matches!(sort, Sort::Type | Sort::ParamBitVec | Sort::BitVec(0) | Sort::Par(..))
}
