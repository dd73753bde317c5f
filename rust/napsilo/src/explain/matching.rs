//! Matching and substitution, to find the argument that a parametric head does not take.

use super::Expected;
use crate::sort::fold;
use crate::{Name, Sort};
use std::collections::HashMap;
use std::rc::Rc;
use std::sync::Arc;

/// Sorts by name.
pub type Map = HashMap<Name, Arc<Sort>>;

/// How a head's parameters take an argument's sort: whether the pattern takes the target; the map gets what the parameters become.
pub type Takes = fn(&Arc<Sort>, &[Name], &Arc<Sort>, &mut Map) -> bool;

/// Extends the assignment of parameters so that it turns a pattern into a target, both without a Par; false if none does. A variable of the
/// target is no parameter, whatever its name.
pub fn assign(pattern: &Arc<Sort>, parameters: &[Name], target: &Arc<Sort>, assignment: &mut Map) -> bool {
    let mut left = vec![(pattern, target)];
    while let Some((pattern, target)) = left.pop() {
        match pattern.as_ref() {
            Sort::Var(name) if parameters.contains(name) => {
                let assigned = assignment.entry(*name).or_insert_with(|| target.clone());
                if *assigned != *target {
                    return false;
                }
            }
            _ if pattern.own() != target.own() => return false,
            _ => left.extend(pattern.parts().zip(target.parts())),
        }
    }
    true
}

/// carcara's `Sort::match_with`: whether a pattern takes a target; the map gets what its parameters are bound to.
pub fn match_with(pattern: &Arc<Sort>, parameters: &[Name], target: &Arc<Sort>, map: &mut Map) -> bool {
    // The next pair is last. Each has the parameters that may be bound there.
    let mut left = vec![(pattern, target, Rc::new(parameters.to_vec()))];
    while let Some((pattern, target, parameters)) = left.pop() {
        if pattern == target {
            continue;
        }
        match (pattern.as_ref(), target.as_ref()) {
            (Sort::Var(name), _) => {
                let bound = map.get(name).cloned();
                match bound {
                    _ if !parameters.contains(name) => return false,
                    Some(bound) if !param_eq(&bound, target) => return false,
                    Some(_) => (),
                    None => {
                        map.insert(*name, target.clone());
                    }
                }
            }
            (Sort::Par(names, part), _) => {
                let more = [parameters.as_slice(), names].concat();
                left.push((part, target, Rc::new(more)));
            }
            (_, Sort::Par(names, part)) => {
                if !names.iter().all(|name| parameters.contains(name)) {
                    return false;
                }
                left.push((pattern, part, parameters));
            }
            _ if pattern.parts().next().is_some() && pattern.own() == target.own() => {
                let pairs = pattern.parts().rev().zip(target.parts().rev());
                left.extend(pairs.map(|(pattern, target)| (pattern, target, parameters.clone())));
            }
            _ if param_eq(pattern, target) => (),
            _ => return false,
        }
    }
    true
}

/// carcara's `Sort::param_eq`: equal, or both bit vectors and one of them of unknown width.
fn param_eq(one: &Sort, two: &Sort) -> bool {
    let vector = |sort: &Sort| matches!(sort, Sort::BitVec(_) | Sort::ParamBitVec);
    let unknown = |sort: &Sort| matches!(sort, Sort::ParamBitVec);
    one == two || vector(one) && vector(two) && (unknown(one) || unknown(two))
}

/// carcara's `SortSubstitution::apply`: names replaced all at once, those of a Par too, which loses them.
pub fn apply(map: &Map, sort: &Sort) -> Arc<Sort> {
    fold(sort, |sort, parts: &[Arc<Sort>]| match sort {
        Sort::Var(name) if map.contains_key(name) => map[name].clone(),
        Sort::Par(names, _) => {
            let kept: Vec<Name> = names.iter().copied().filter(|name| !map.contains_key(name)).collect();
            match kept.is_empty() {
                true => parts[0].clone(),
                false => Arc::new(Sort::Par(kept, parts[0].clone())),
            }
        }
        _ => Arc::new(with_parts(sort, parts)),
    })
}

/// A sort with other parts, as many as it has.
fn with_parts(sort: &Sort, parts: &[Arc<Sort>]) -> Sort {
    match sort {
        Sort::Function(_) => Sort::Function(parts.to_vec()),
        Sort::Atom(name, _) => Sort::Atom(*name, parts.to_vec()),
        Sort::Array(..) => Sort::Array(parts[0].clone(), parts[1].clone()),
        Sort::Datatype { name, .. } => Sort::Datatype { name: *name, args: parts.to_vec() },
        Sort::Par(names, _) => Sort::Par(names.clone(), parts[0].clone()),
        Sort::Set(_) => Sort::Set(parts[0].clone()),
        Sort::Tuple(_) => Sort::Tuple(parts.to_vec()),
        leaf => leaf.clone(),
    }
}

/// What a pattern without a Par asks for under an assignment: a sort or, if parameters stand in it that nothing assigns yet, a form.
pub fn form(pattern: &Arc<Sort>, parameters: &[Name], assignment: &Map) -> Expected {
    let stands = |name: &Name, sort: &Arc<Sort>| first(sort, |part| *part == Sort::Var(*name)).is_some();
    let free = |name: &&Name| !assignment.contains_key(name) && stands(name, pattern);
    let mut map = assignment.clone();
    let mut left = Vec::new();
    for name in parameters.iter().filter(free) {
        // An assigned sort may hold a variable of this name, which is not the parameter.
        let used = |name: &Name| stands(name, pattern) || assignment.values().any(|image| stands(name, image));
        let fresh = || (0..=u16::MAX).rev().map(Name::new).find(|name| !used(name) && !left.contains(name));
        let met = assignment.values().any(|image| stands(name, image));
        let shown = if met { fresh().unwrap_or(*name) } else { *name };
        map.insert(*name, Arc::new(Sort::Var(shown)));
        left.push(shown);
    }
    let sort = apply(&map, pattern);
    match left.is_empty() {
        true => Expected::Sort(sort),
        false => Expected::Form(sort, left),
    }
}

/// The first sort, from left to right, of this one and all that it holds for which something holds.
pub fn first(sort: &Arc<Sort>, wanted: impl Fn(&Sort) -> bool) -> Option<Arc<Sort>> {
    let found = |sort: &Sort, parts: &[Option<Arc<Sort>>]| match wanted(sort) {
        true => Some(Arc::new(sort.clone())),
        false => parts.iter().flatten().next().cloned(),
    };
    fold(sort, found)
}
