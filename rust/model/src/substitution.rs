//! Substitution, matching and compatibility.

use crate::sort::{Kind, Sort, Tree};
use std::collections::BTreeMap;

/// Sorts by name.
pub type Map = BTreeMap<u16, Tree>;

/// Substitution: simultaneous, images are not replaced again. Under a Par the names in the map are replaced too and the Par loses them;
/// with none left the wrapper goes.
pub fn apply(map: &Map, sort: &Tree) -> Tree {
    let parts = || -> Vec<Tree> { sort.parts.iter().map(|part| apply(map, part)).collect() };
    match sort.kind {
        Kind::Var => map.get(&sort.name).unwrap_or(sort).clone(),
        Kind::Par => {
            let kept: Vec<u16> = sort.names.iter().copied().filter(|name| !map.contains_key(name)).collect();
            let mut parts = parts();
            match kept.is_empty() {
                true => parts.remove(0),
                false => Sort::new(Kind::Par, 0, 0, parts, kept),
            }
        }
        _ if sort.parts.is_empty() => sort.clone(),
        _ => sort.with_parts(parts()),
    }
}

/// Matching by its definition, for pattern and target without a Par: extends the assignment of the parameters so that it turns the
/// pattern into the target; false if none does. A variable of the pattern that is no parameter stands for itself, and one of the target
/// is no parameter, whatever its name.
pub fn assign(pattern: &Tree, target: &Tree, parameters: &[u16], assignment: &mut Map) -> bool {
    if pattern.kind == Kind::Var && parameters.contains(&pattern.name) {
        let assigned = assignment.entry(pattern.name).or_insert_with(|| target.clone());
        return assigned == target;
    }
    let heads = |sort: &Sort| (sort.kind, sort.name, sort.width, sort.parts.len());
    heads(pattern) == heads(target)
        && pattern
            .parts
            .iter()
            .zip(&target.parts)
            .all(|(pattern, target)| assign(pattern, target, parameters, assignment))
}

/// Whether a sort is a bit-vector's, of a width known or unknown.
fn is_bit_vec(sort: &Sort) -> bool {
    matches!(sort.kind, Kind::BitVec | Kind::ParamBitVec)
}

/// The Rust's `Sort::param_eq`: equal, or both vectors and one of unknown width.
fn equal_but_for_width(a: &Sort, b: &Sort) -> bool {
    let unknown = a.kind == Kind::ParamBitVec || b.kind == Kind::ParamBitVec;
    a == b || unknown && is_bit_vec(a) && is_bit_vec(b)
}

/// Whether two sorts are of one kind that has a list of parts, with the same name and as many parts.
fn same_list(a: &Sort, b: &Sort) -> bool {
    let listed = matches!(a.kind, Kind::Function | Kind::Atom | Kind::Array | Kind::Datatype | Kind::Set | Kind::Tuple);
    listed && (a.kind, a.name, a.parts.len()) == (b.kind, b.name, b.parts.len())
}

/// The Rust's `Sort::is_compatible`.
pub fn compatible(a: &Sort, b: &Sort) -> bool {
    if equal_but_for_width(a, b) || a.kind == Kind::Var || b.kind == Kind::Var {
        return true;
    }
    if a.kind == Kind::Par {
        return compatible(&a.parts[0], b);
    }
    if b.kind == Kind::Par {
        return compatible(a, &b.parts[0]);
    }
    same_list(a, b) && a.parts.iter().zip(&b.parts).all(|(a, b)| compatible(a, b))
}

/// The Rust's `Sort::match_with`, which inference follows.
pub fn match_with(pattern: &Tree, parameters: &[u16], target: &Tree, map: &mut Map) -> bool {
    if pattern == target {
        return true;
    }
    if pattern.kind == Kind::Var {
        if !parameters.contains(&pattern.name) {
            return false;
        }
        return match map.get(&pattern.name) {
            Some(bound) => equal_but_for_width(bound, target),
            None => {
                map.insert(pattern.name, target.clone());
                true
            }
        };
    }
    if pattern.kind == Kind::Par {
        let parameters = [parameters, &pattern.names].concat();
        return match_with(&pattern.parts[0], &parameters, target, map);
    }
    if target.kind == Kind::Par {
        let instantiable = target.names.iter().all(|name| parameters.contains(name));
        return instantiable && match_with(pattern, parameters, &target.parts[0], map);
    }
    if same_list(pattern, target) {
        return pattern
            .parts
            .iter()
            .zip(&target.parts)
            .all(|(pattern, target)| match_with(pattern, parameters, target, map));
    }
    equal_but_for_width(pattern, target)
}
