//! Sorts whose parts are shared: each distinct part is gone through once, without recursion.

use super::Sort;
use std::collections::HashMap;
use std::convert::Infallible;
use std::hash::{DefaultHasher, Hash, Hasher};
use std::sync::Arc;

/// The value of a sort from the values of its parts, or the first error. A part that stands at several places is asked about once, but one
/// without parts wherever it stands; parts come before the sort, from left to right.
pub fn try_fold<T: Clone, E>(sort: &Sort, mut value: impl FnMut(&Sort, &[T]) -> Result<T, E>) -> Result<T, E> {
    // The sorts whose parts are gone through, each with those still to come and the values of the others; the innermost last.
    let mut open = vec![(sort, sort.parts(), Vec::new())];
    let mut done: HashMap<*const Sort, T> = HashMap::new();
    loop {
        let (node, parts, values) = open.last_mut().expect("the sort itself is first");
        if let Some(part) = parts.next() {
            if part.parts().next().is_none() {
                values.push(value(part, &[])?);
            } else if let Some(known) = done.get(&Arc::as_ptr(part)) {
                values.push(known.clone());
            } else {
                open.push((part, part.parts(), Vec::new()));
            }
            continue;
        }
        let (place, result) = (std::ptr::from_ref(*node), value(node, values)?);
        open.pop();
        let Some((_, _, values)) = open.last_mut() else {
            return Ok(result);
        };
        values.push(result.clone());
        done.insert(place, result);
    }
}

/// The value of a sort from the values of its parts, as [`try_fold`] goes through them.
pub fn fold<T: Clone>(sort: &Sort, mut value: impl FnMut(&Sort, &[T]) -> T) -> T {
    match try_fold(sort, |sort, parts| Ok::<T, Infallible>(value(sort, parts))) {
        Ok(value) => value,
        Err(never) => match never {},
    }
}

impl Sort {
    /// The tree size: 1, and the sizes of the parts as often as they stand. The greatest number, if it does not fit.
    pub fn tree_size(&self) -> usize {
        fold(self, |_, sizes: &[usize]| sizes.iter().fold(1, |size: usize, part| size.saturating_add(*part)))
    }
}

/// The pairs of sorts that are compared without a look at what was compared before. Few sorts are larger.
const FIRST_PAIRS: usize = 32;

/// Two sorts are equal if they are field by field, down to the leaves, however their parts are shared.
impl PartialEq for Sort {
    fn eq(&self, other: &Self) -> bool {
        let mut left = vec![(self, other)];
        let mut taken = Classes::default();
        let mut pairs = 0;
        while let Some((one, two)) = left.pop() {
            pairs += 1;
            // Two sorts of a class were taken for equal before, and their parts are compared on their own.
            let known = std::ptr::eq(one, two) || pairs > FIRST_PAIRS && !taken.join(one, two);
            if known {
                continue;
            }
            if one.own() != two.own() {
                return false;
            }
            let parts = one.parts().zip(two.parts());
            left.extend(parts.map(|(a, b)| (a.as_ref(), b.as_ref())));
        }
        true
    }
}

impl Eq for Sort {}

/// Classes of sorts that are taken for equal: each has a chain of others of its class, whose end is the same for all of them.
#[derive(Default)]
struct Classes(HashMap<*const Sort, *const Sort>);

impl Classes {
    /// The end of a sort's chain.
    fn end(&mut self, sort: *const Sort) -> *const Sort {
        let mut end = sort;
        while let Some(next) = self.0.get(&end) {
            end = *next;
        }
        // The chain is shortened for the next time.
        let mut at = sort;
        while let Some(next) = self.0.get_mut(&at).filter(|next| **next != end) {
            at = std::mem::replace(next, end);
        }
        end
    }

    /// Makes one class of those of two sorts; whether they were two.
    fn join(&mut self, one: *const Sort, two: *const Sort) -> bool {
        let (one, two) = (self.end(one), self.end(two));
        one != two && self.0.insert(one, two).is_none()
    }
}

/// Equal sorts have the same hash, however their parts are shared.
impl Hash for Sort {
    fn hash<H: Hasher>(&self, state: &mut H) {
        let digest = fold(self, |sort, parts: &[u64]| {
            let mut hasher = DefaultHasher::new();
            sort.own().hash(&mut hasher);
            parts.hash(&mut hasher);
            hasher.finish()
        });
        state.write_u64(digest);
    }
}
