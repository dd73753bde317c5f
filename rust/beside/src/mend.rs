//! Doing what an explanation asks for, and trying whether it asks for that exactly.

use crate::case::{self, Case, Part};
use crate::make::replaced;
use model::sort::WIDEST;
use napsilo::{Argument, Cause, Column, Expected, Explanation, Role, Sort};
use std::collections::HashMap;
use std::sync::Arc;

/// Where a complaint stands: the cause's place in its column's order, then the kind of complaint, then a position or a count.
pub type Place = (usize, usize, usize);

/// Where a complaint stands.
pub fn place(explanation: &Explanation) -> Place {
    let orders: [&[Cause]; 2] = [
        &[Cause::Panics, Cause::Limit, Cause::Full],
        &[Cause::NoRank, Cause::Barred, Cause::Count, Cause::Misfit, Cause::Unassigned, Cause::Limit, Cause::Full],
    ];
    let order = orders[explanation.column as usize];
    let cause = order.iter().position(|cause| *cause == explanation.cause).expect("a cause of this column");
    let position = explanation.argument.map_or(0, |argument| argument.position);
    let (kind, position) = match (&explanation.expected, explanation.argument.map(|argument| argument.role)) {
        (Some(Expected::Taking(_)), _) => (7, 0),
        (_, Some(Role::Head | Role::Sort)) => (0, 0),
        (Some(Expected::Count(Role::Index, least, _)), _) => (1, *least),
        (Some(Expected::Count(_, least, _)), _) => (2, *least),
        (Some(Expected::Constant), _) => (3, position),
        (Some(Expected::Number(..)), _) => (4, position),
        (_, Some(Role::Inner)) => (6, 0),
        _ => (5, position),
    };
    (cause, kind, position)
}

/// Does what an explanation asks for; whether there was something to do.
pub fn mend(case: &mut Case, explanation: &Explanation) -> bool {
    let Some(expected) = &explanation.expected else {
        return false;
    };
    match (expected, explanation.argument) {
        (Expected::Count(role, least, most), None) => {
            let wanted = count(case, *role).max(*least).min(most.unwrap_or(usize::MAX));
            resize(case, *role, wanted);
            true
        }
        (Expected::Without(part), Some(argument)) => mend_held(case, argument, part),
        (Expected::Constant, Some(argument)) => {
            case.indices[argument.position - 1] = Part::Integer(1);
            true
        }
        (Expected::Number(least, most), Some(argument)) => {
            let value = u32::try_from(most.unwrap_or(*least)).expect("an index");
            case.indices[argument.position - 1] = Part::Integer(value);
            true
        }
        (Expected::Array, Some(Argument { role: Role::Sort, .. })) => {
            let element = value(&case.list[0]);
            case.sort = Some(Arc::new(Sort::Array(Arc::new(Sort::Int), element)));
            true
        }
        (_, Some(Argument { role: Role::Sort, .. })) => {
            case.sort = instance(case, expected);
            *expected == Expected::Set
        }
        (_, Some(argument)) => match instance(case, expected) {
            Some(sort) => {
                put(case, argument, sort);
                true
            }
            None => false,
        },
        _ => false,
    }
}

/// Puts a variable of a sort in the place of a part.
fn put(case: &mut Case, argument: Argument, sort: Arc<Sort>) {
    let behind_first = usize::from(case.kind == 6 && argument.role == Role::Argument);
    let at = match argument.role {
        Role::Inner => case.list.len() - 1,
        _ => argument.position - 1 + behind_first,
    };
    case.list[at] = Part::Of(sort);
}

/// The sort of a part that is not parametric, else Int.
fn value(part: &Part) -> Arc<Sort> {
    match part {
        Part::Of(sort) if !matches!(sort.as_ref(), Sort::Par(..)) => sort.clone(),
        _ => Arc::new(Sort::Int),
    }
}

/// A sort that is as expected; nothing if none was expected, or of a form with a Par in it.
fn instance(case: &Case, expected: &Expected) -> Option<Arc<Sort>> {
    let int = Arc::new(Sort::Int);
    Some(match expected {
        Expected::Sort(sort) => sort.clone(),
        Expected::IntOrReal | Expected::NotPar => int,
        Expected::Form(sort, parameters) => {
            let held = sort.to_string().contains("(par ");
            let map: HashMap<_, _> = parameters.iter().map(|name| (*name, int.clone())).collect();
            return (!held).then(|| replaced(sort, &map));
        }
        Expected::BitVec => match case.indices.first() {
            // Of a vector, and of nothing else, the width is held to the index of an `extract`.
            Some(Part::Integer(index)) if case.kind == 11 && case.number == 0 => {
                let width = index.checked_add(1).filter(|width| u64::from(*width) <= WIDEST)?;
                Arc::new(Sort::BitVec(width))
            }
            _ => Arc::new(Sort::BitVec(8)),
        },
        Expected::Array => Arc::new(Sort::Array(int, Arc::new(Sort::Bool))),
        Expected::Set => Arc::new(Sort::Set(int)),
        Expected::Relation(columns) => relation(&vec![int; *columns]),
        Expected::Starting(sort) => relation(&[sort.clone(), int]),
        Expected::Pairs => relation(&[int.clone(), int]),
        Expected::Function | Expected::Taking(_) => {
            let mut list: Vec<Arc<Sort>> = case.list[1..].iter().map(value).collect();
            list.push(Arc::new(Sort::Bool));
            Arc::new(Sort::Function(list))
        }
        _ => return None,
    })
}

/// The sort of a set of tuples of these sorts.
fn relation(entries: &[Arc<Sort>]) -> Arc<Sort> {
    Arc::new(Sort::Set(Arc::new(Sort::Tuple(entries.to_vec()))))
}

/// The sorts of the tuples of a set; nothing of another sort.
fn entries(sort: &Sort) -> Option<&[Arc<Sort>]> {
    match sort {
        Sort::Set(part) => match part.as_ref() {
            Sort::Tuple(entries) => Some(entries),
            _ => None,
        },
        _ => None,
    }
}

/// How many parts of a role there are.
fn count(case: &Case, role: Role) -> usize {
    match role {
        Role::Index => case.indices.len(),
        Role::Binding => case.bindings.len(),
        _ => case.list.len() - usize::from(matches!(case.kind, 6 | 9 | 10)),
    }
}

/// Takes parts of a role away or adds some, so that there are so many.
fn resize(case: &mut Case, role: Role, count: usize) {
    let int = || Part::Of(Arc::new(Sort::Int));
    match role {
        Role::Index => case.indices.resize(count, Part::Integer(1)),
        Role::Binding => case.bindings.resize(count, Arc::new(Sort::Bool)),
        Role::Value => {
            let inner = case.list.pop();
            case.list.resize_with(count, int);
            case.list.extend(inner);
        }
        _ => case.list.resize_with(count + usize::from(matches!(case.kind, 6 | 10)), int),
    }
}

/// Puts Int in the place of a sort that may not be held.
fn mend_held(case: &mut Case, argument: Argument, held: &Arc<Sort>) -> bool {
    let put = |sort: &Arc<Sort>| without(sort, held);
    match argument.role {
        Role::Binding => {
            let sort = &mut case.bindings[argument.position - 1];
            *sort = put(sort);
        }
        _ if case.kind == 4 => case.number = 8,
        _ => case.sort = case.sort.as_ref().map(put),
    }
    true
}

/// A sort with Int in the place of one that it holds.
fn without(sort: &Arc<Sort>, held: &Arc<Sort>) -> Arc<Sort> {
    if sort == held {
        return Arc::new(Sort::Int);
    }
    let tree = case::tree(sort);
    let parts = sort.parts().map(|part| case::tree(&without(part, held))).collect();
    case::sort(&tree.with_parts(parts))
}

/// What was expected must be just what removes the complaint: other counts, numbers and sorts must leave it where it is.
pub fn exact(case: &Case, explanation: &Explanation) -> Result<(), String> {
    for (other, wanted, what) in others(case, explanation) {
        let Some((judged, own)) = other.judge() else {
            continue;
        };
        let said = match explanation.column {
            Column::Inferred => judged.explain_inferred(own),
            Column::Checked => judged.explain(own),
        };
        let said = said.expect("a term of this sheet");
        let later = |said: &Explanation| said.cause != explanation.cause || place(said) > place(explanation);
        if said.as_ref().is_none_or(later) != wanted {
            return Err(format!("{explanation}\nwith {what}: {said:?}"));
        }
    }
    Ok(())
}

/// The term with other counts, numbers or sorts at the named part, each with whether it is as expected, and with what was changed.
fn others(case: &Case, explanation: &Explanation) -> Vec<(Case, bool, String)> {
    let with = |change: &dyn Fn(&mut Case), wanted: bool, what: String| {
        let mut other = case.clone();
        change(&mut other);
        (other, wanted, what)
    };
    match (&explanation.expected, explanation.argument) {
        (Some(Expected::Count(role, least, most)), None) => {
            let tries = round(*least as u64, most.map(|most| most as u64)).into_iter();
            let tries = tries.map(|(count, wanted)| (usize::try_from(count).expect("64 bits"), wanted));
            tries.map(|(count, wanted)| with(&|case| resize(case, *role, count), wanted, count.to_string())).collect()
        }
        (Some(Expected::Number(least, most)), Some(argument)) => {
            let tries = round(*least, *most).into_iter();
            let tries = tries.filter_map(|(value, wanted)| Some((u32::try_from(value).ok()?, wanted)));
            let at = argument.position - 1;
            let put = |value| move |case: &mut Case| case.indices[at] = Part::Integer(value);
            tries.map(|(value, wanted)| with(&put(value), wanted, value.to_string())).collect()
        }
        // An `extract` holds its index to the width of a vector.
        (Some(expected), Some(argument)) if argument.term.is_some() && case.kind != 11 => {
            let tries = candidates().into_iter().filter_map(|sort| Some((admits(expected, &sort)?, sort)));
            let change = |sort: &Arc<Sort>| {
                let sort = sort.clone();
                move |case: &mut Case| put(case, argument, sort.clone())
            };
            tries.map(|(wanted, sort)| with(&change(&sort), wanted, sort.to_string())).collect()
        }
        _ => Vec::new(),
    }
}

/// The numbers at the ends of a range, which are as expected, and those just outside, which are not.
fn round(least: u64, most: Option<u64>) -> Vec<(u64, bool)> {
    let under = least.checked_sub(1).map(|under| (under, false));
    let ends = [Some((least, true)), most.map(|most| (most, true)), most.map(|most| (most + 1, false))];
    under.into_iter().chain(ends.into_iter().flatten()).collect()
}

/// Sorts of several kinds.
fn candidates() -> Vec<Arc<Sort>> {
    let [int, bool] = [Sort::Int, Sort::Bool].map(Arc::new);
    let array = Sort::Array(int.clone(), bool.clone());
    let several = [Sort::Bool, Sort::Real, Sort::String, Sort::RegLan, Sort::BitVec(7), Sort::BitVec(8), array];
    let several = several.into_iter().chain([Sort::Set(int.clone()), Sort::Int]).map(Arc::new);
    let rows = [vec![], vec![int.clone()], vec![bool.clone()], vec![int.clone(), int.clone()], vec![int, bool]];
    several.chain(rows.iter().map(|entries| relation(entries))).collect()
}

/// Whether a sort without variables is as expected; nothing if no sort was expected, or one of a form.
fn admits(expected: &Expected, sort: &Sort) -> Option<bool> {
    Some(match expected {
        Expected::Sort(expected) => **expected == *sort,
        Expected::IntOrReal => matches!(sort, Sort::Int | Sort::Real),
        Expected::BitVec => matches!(sort, Sort::BitVec(_)),
        Expected::Array => matches!(sort, Sort::Array(..)),
        Expected::Set => matches!(sort, Sort::Set(_)),
        Expected::Relation(columns) => entries(sort).is_some_and(|entries| entries.len() >= *columns),
        Expected::Starting(first) => entries(sort).is_some_and(|entries| entries.first() == Some(first)),
        Expected::Pairs => matches!(entries(sort), Some([from, to]) if from == to),
        Expected::Function => false,
        Expected::NotPar => true,
        _ => return None,
    })
}
