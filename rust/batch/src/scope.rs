//! What a Binder or Let binds, and the variables of its body that have another sort than it binds.
//!
//! The law by which terms are put on sheets in pieces (`abstraction-checked`, crates/abstraction) asks nothing of variables as long as a checked
//! row looks at no scope. Once it does (a variable that is free in a body and has a bound name must have the bound sort), a part may be
//! replaced only if its free variables have the sorts that the bindings above give to their names: a part with another one must stay. So
//! such parts are kept from the start.

use crate::sheet::Stop;
use crate::terms::{Terms, bindings, kind, kind_of, parts};
use crate::verdict::{CHECKED, Word};
use napsilo::MOST_TERMS;
use std::collections::{HashMap, HashSet};

/// The sorts of some variables with one name.
#[derive(Debug, Clone, Copy, PartialEq, Eq)]
enum VarSort {
    /// There is no such variable.
    None,
    /// All have this sort.
    One(u32),
    /// There are two sorts at least.
    Several,
}

impl VarSort {
    /// Those of these variables and of others.
    fn and(self, other: VarSort) -> VarSort {
        match (self, other) {
            (VarSort::None, some) | (some, VarSort::None) => some,
            (one, same) if one == same => one,
            _ => VarSort::Several,
        }
    }

    /// Whether one of them differs from a sort, which may not be known.
    fn differs(self, sort: Option<u32>) -> bool {
        match self {
            VarSort::None => false,
            VarSort::One(one) => sort != Some(one),
            VarSort::Several => true,
        }
    }
}

/// Of each name, the sorts that the variables of the batch with this name have.
#[derive(Debug, Clone, Default)]
pub struct VarSorts(Vec<VarSort>);

impl VarSorts {
    /// Notes that there is a variable with this name and sort.
    pub fn note(&mut self, name: u32, sort: u32) {
        let at = name as usize;
        if self.0.len() <= at {
            self.0.resize(at + 1, VarSort::None);
        }
        self.0[at] = self.0[at].and(VarSort::One(sort));
    }

    /// The sorts of the variables with this name.
    fn of(&self, name: u32) -> VarSort {
        self.0.get(name as usize).copied().unwrap_or(VarSort::None)
    }
}

/// The sorts of the variables with a name that are free in a term, as far as they were asked for.
#[derive(Debug, Default)]
pub struct Free {
    known: HashMap<(u32, u32), VarSort>,
}

/// So many terms and names are remembered at most.
const MOST_KNOWN: usize = 4 << 20;

impl Free {
    /// The sorts of the variables with a name that are free in a term. Where there are several, the rest of the term is not looked at.
    fn of(&mut self, terms: &Terms, name: u32, term: u32) -> VarSort {
        if let Some(known) = self.at_once(terms, name, term) {
            return known;
        }
        if self.known.len() > MOST_KNOWN {
            self.known.clear();
        }
        // Each term on the way down, how many of its parts were looked at, and what was found in them.
        let mut way = vec![(term, 0, VarSort::None)];
        while let Some((term, seen, found)) = way.pop() {
            let words = terms.get(term);
            let next = parts(words).nth(seen).filter(|_| found != VarSort::Several);
            let Some(part) = next else {
                self.known.insert((name, term), found);
                match way.last_mut() {
                    Some((_, _, above)) => *above = above.and(found),
                    None => return found,
                }
                continue;
            };
            let hidden = seen == 0 && bindings(words).iter().any(|[bound, _]| *bound == name);
            match self.at_once(terms, name, *part) {
                _ if hidden => way.push((term, 1, found)),
                Some(known) => way.push((term, seen + 1, found.and(known))),
                None => way.extend([(term, seen + 1, found), (*part, 0, VarSort::None)]),
            }
        }
        unreachable!("the first term has no other above it")
    }

    /// The same, if it was asked for or the term has no parts.
    fn at_once(&self, terms: &Terms, name: u32, term: u32) -> Option<VarSort> {
        let words = terms.get(term);
        match words {
            [kind::VAR, own, sort] if *own == name => Some(VarSort::One(*sort)),
            _ if parts(words).len() == 0 => Some(VarSort::None),
            _ => self.known.get(&(name, term)).copied(),
        }
    }
}

/// What a Binder or Let binds, as far as a variable of the batch may have another sort.
pub struct Bound {
    list: Vec<Binding>,
}

/// A name that is bound.
struct Binding {
    name: u32,
    /// The sort that it is bound to; none if it is the sort of a value that is not judged yet.
    sort: Option<u32>,
    /// The value, of a Let's binding.
    value: u32,
}

/// A value that is taken to have a checked sort.
pub type Assumed = (u32, u32);

/// A set of bound names: a bit for each in their order, of which there are 64 at most.
pub type Names = u64;

/// A term, and the bound names that no binding between has hidden.
pub type Under = (u32, Names);

impl Bound {
    /// What a Binder or Let binds. A Let binds to the checked sorts of its values. Of a repeated name the last one counts.
    pub fn of(words: &[u32], rows: &[[Word; 2]], vars: &VarSorts) -> Bound {
        let values = kind_of(words) == kind::LET;
        let mut list: Vec<Binding> = Vec::new();
        for [name, bound] in bindings(words) {
            let sort = if values { rows[*bound as usize][CHECKED].as_sort() } else { Some(*bound) };
            list.retain(|other| other.name != *name);
            list.push(Binding { name: *name, sort, value: *bound });
        }
        list.retain(|binding| vars.of(binding.name).differs(binding.sort));
        Bound { list }
    }

    /// What must hold of values that are not judged yet, so that no variable of a body has another sort than is bound; nothing if one has.
    pub fn assumed(&self, free: &mut Free, terms: &Terms, body: u32) -> Option<Vec<Assumed>> {
        let mut assumed = Vec::new();
        for binding in &self.list {
            match (free.of(terms, binding.name, body), binding.sort) {
                (VarSort::One(sort), None) => assumed.push((binding.value, sort)),
                (found, sort) if found.differs(sort) => return None,
                _ => (),
            }
        }
        Some(assumed)
    }

    /// All names.
    pub fn all(&self) -> Names {
        Names::MAX.checked_shl(self.list.len() as u32).map_or(Names::MAX, |rest| !rest)
    }

    /// The names of a set that the bindings of a term do not hide.
    fn unhidden(&self, words: &[u32], names: Names) -> Names {
        if bindings(words).is_empty() {
            return names;
        }
        let hides = |name: &u32| bindings(words).iter().any(|[other, _]| other == name);
        let hidden = self.list.iter().enumerate().filter(|(_, binding)| hides(&binding.name)).map(|(at, _)| 1 << at);
        names & !hidden.fold(0, |all: Names, one: Names| all | one)
    }

    /// Each part of a term with the names that are bound there. The bindings of a Binder or Let reach its body alone, the first of its parts.
    pub fn below<'a>(&self, words: &'a [u32], names: Names) -> impl Iterator<Item = Under> + use<'a> {
        let body = self.unhidden(words, names);
        parts(words).enumerate().map(move |(at, part)| (*part, if at == 0 { body } else { names }))
    }

    /// Whether in a term a variable is free that has one of these names and another sort than is bound.
    fn is_loose(&self, free: &mut Free, terms: &Terms, (term, names): Under) -> bool {
        let mut bound = self.list.iter().enumerate().filter(|(at, _)| names & 1 << at != 0);
        bound.any(|(_, binding)| free.of(terms, binding.name, term).differs(binding.sort))
    }

    /// The parts of a body, itself one of them, in which such a variable is free; those below first, and no variables themselves. More than a
    /// sheet can hold are not listed.
    pub fn loose(&self, free: &mut Free, terms: &Terms, body: u32) -> Result<Vec<Under>, Stop> {
        let mut seen: HashSet<Under> = HashSet::new();
        let mut order = Vec::new();
        let mut left = vec![((body, self.all()), false)];
        while let Some((under, parts_are_listed)) = left.pop() {
            let words = terms.get(under.0);
            if parts_are_listed {
                order.push(under);
            } else if kind_of(words) != kind::VAR && self.is_loose(free, terms, under) && seen.insert(under) {
                if seen.len() > MOST_TERMS {
                    return Err(Stop::Count);
                }
                left.push((under, true));
                left.extend(self.below(words, under.1).map(|part| (part, false)));
            }
        }
        Ok(order)
    }
}
