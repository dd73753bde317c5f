//! Stands in for the crate `indexmap`: maps and sets that remember the order of insertion.
//!
//! Entries stand in a vector, and a table leads from a key's hash to their positions. Only what the files of carcara use is here.

use std::borrow::Borrow;
use std::collections::hash_map::RandomState;
use std::fmt;
use std::hash::{BuildHasher, Hash};
use std::ops::{Index, IndexMut};

/// A hash map that keeps its entries in the order of insertion.
#[derive(Clone)]
pub struct IndexMap<K, V, S = RandomState> {
    /// The entries, in order.
    entries: Vec<(K, V)>,
    /// The hashes of their keys.
    hashes: Vec<u64>,
    /// A slot holds one more than the position of an entry, or 0. An entry stands in the first slot from its hash on that was free. There
    /// are as many slots as a power of two, at most half of them taken, or none.
    slots: Vec<usize>,
    hasher: S,
}

impl<K, V> IndexMap<K, V> {
    /// An empty map.
    pub fn new() -> Self {
        Self::default()
    }
}

impl<K, V, S: Default> Default for IndexMap<K, V, S> {
    fn default() -> Self {
        IndexMap { entries: Vec::new(), hashes: Vec::new(), slots: Vec::new(), hasher: S::default() }
    }
}

impl<K: fmt::Debug, V: fmt::Debug, S> fmt::Debug for IndexMap<K, V, S> {
    fn fmt(&self, f: &mut fmt::Formatter) -> fmt::Result {
        f.debug_map().entries(self.entries.iter().map(|(k, v)| (k, v))).finish()
    }
}

impl<K, V, S> IndexMap<K, V, S> {
    /// The number of entries.
    pub fn len(&self) -> usize {
        self.entries.len()
    }

    /// Whether there is no entry.
    pub fn is_empty(&self) -> bool {
        self.entries.is_empty()
    }

    /// The slots from that of a hash on, round and round.
    fn from_hash(slots: &[usize], hash: u64) -> impl Iterator<Item = usize> {
        let mask = slots.len() - 1;
        (hash as usize & mask..).map(move |slot| slot & mask)
    }

    /// Fills a table of this length anew.
    fn refill(&mut self, length: usize) {
        let mut slots = vec![0; length];
        for (at, hash) in self.hashes.iter().enumerate() {
            let free = Self::from_hash(&slots, *hash).find(|&slot| slots[slot] == 0);
            slots[free.expect("half of the slots are free")] = at + 1;
        }
        self.slots = slots;
    }
}

impl<K: Hash + Eq, V, S: BuildHasher> IndexMap<K, V, S> {
    /// The position of a key's entry.
    fn position<Q: Hash + Eq + ?Sized>(&self, key: &Q) -> Option<usize>
    where
        K: Borrow<Q>,
    {
        if self.slots.is_empty() {
            return None;
        }
        let hash = self.hasher.hash_one(key);
        Self::from_hash(&self.slots, hash)
            .map(|slot| self.slots[slot].checked_sub(1))
            .find(|found| found.is_none_or(|at| self.hashes[at] == hash && self.entries[at].0.borrow() == key))?
    }

    /// The value of a key.
    pub fn get<Q: Hash + Eq + ?Sized>(&self, key: &Q) -> Option<&V>
    where
        K: Borrow<Q>,
    {
        self.position(key).map(|at| &self.entries[at].1)
    }

    /// Whether a key has an entry.
    pub fn contains_key<Q: Hash + Eq + ?Sized>(&self, key: &Q) -> bool
    where
        K: Borrow<Q>,
    {
        self.position(key).is_some()
    }

    /// Puts in an entry behind all others, or replaces the value of the one that is there and returns the old value.
    pub fn insert(&mut self, key: K, value: V) -> Option<V> {
        match self.position(&key) {
            Some(at) => Some(std::mem::replace(&mut self.entries[at].1, value)),
            None => {
                self.hashes.push(self.hasher.hash_one(&key));
                self.entries.push((key, value));
                if 2 * self.entries.len() > self.slots.len() {
                    self.refill((2 * self.slots.len()).max(8));
                } else {
                    let last = self.entries.len() - 1;
                    let free = Self::from_hash(&self.slots, self.hashes[last]).find(|&slot| self.slots[slot] == 0);
                    self.slots[free.expect("half of the slots are free")] = last + 1;
                }
                None
            }
        }
    }

    /// Takes out a key's entry; the last entry takes its position.
    pub fn swap_remove<Q: Hash + Eq + ?Sized>(&mut self, key: &Q) -> Option<V>
    where
        K: Borrow<Q>,
    {
        let at = self.position(key)?;
        self.hashes.swap_remove(at);
        let (_, value) = self.entries.swap_remove(at);
        self.refill(self.slots.len());
        Some(value)
    }

    /// The entry of a key, there or to be made.
    pub fn entry(&mut self, key: K) -> Entry<'_, K, V, S> {
        Entry { map: self, key }
    }
}

/// The entry of a key in a map, there or to be made.
pub struct Entry<'a, K, V, S> {
    map: &'a mut IndexMap<K, V, S>,
    key: K,
}

impl<'a, K: Hash + Eq, V: Default, S: BuildHasher> Entry<'a, K, V, S> {
    /// The entry's value, made by default if there is none.
    pub fn or_default(self) -> &'a mut V {
        let at = match self.map.position(&self.key) {
            Some(at) => at,
            None => {
                self.map.insert(self.key, V::default());
                self.map.len() - 1
            }
        };
        &mut self.map.entries[at].1
    }
}

impl<K: Hash + Eq + Borrow<Q>, V, S: BuildHasher, Q: Hash + Eq + ?Sized> Index<&Q> for IndexMap<K, V, S> {
    type Output = V;

    fn index(&self, key: &Q) -> &V {
        self.get(key).expect("IndexMap: key not found")
    }
}

impl<K: Hash + Eq + Borrow<Q>, V, S: BuildHasher, Q: Hash + Eq + ?Sized> IndexMut<&Q> for IndexMap<K, V, S> {
    fn index_mut(&mut self, key: &Q) -> &mut V {
        let at = self.position(key).expect("IndexMap: key not found");
        &mut self.entries[at].1
    }
}

impl<K: Hash + Eq, V: PartialEq, S: BuildHasher> PartialEq for IndexMap<K, V, S> {
    fn eq(&self, other: &Self) -> bool {
        self.len() == other.len() && self.entries.iter().all(|(k, v)| other.get(k) == Some(v))
    }
}

impl<K, V, S> IntoIterator for IndexMap<K, V, S> {
    type Item = (K, V);
    type IntoIter = std::vec::IntoIter<(K, V)>;

    fn into_iter(self) -> Self::IntoIter {
        self.entries.into_iter()
    }
}

/// The entries of a map in order.
pub struct Iter<'a, K, V>(std::slice::Iter<'a, (K, V)>);

impl<'a, K, V> Iterator for Iter<'a, K, V> {
    type Item = (&'a K, &'a V);

    fn next(&mut self) -> Option<Self::Item> {
        self.0.next().map(|(k, v)| (k, v))
    }
}

impl<'a, K, V, S> IntoIterator for &'a IndexMap<K, V, S> {
    type Item = (&'a K, &'a V);
    type IntoIter = Iter<'a, K, V>;

    fn into_iter(self) -> Self::IntoIter {
        Iter(self.entries.iter())
    }
}

/// A hash set that keeps its elements in the order of insertion.
#[derive(Clone)]
pub struct IndexSet<T, S = RandomState>(IndexMap<T, (), S>);

impl<T> IndexSet<T> {
    /// An empty set.
    pub fn new() -> Self {
        Self::default()
    }
}

impl<T, S> IndexSet<T, S> {
    /// An empty set with a hasher of the caller's. The capacity is not used.
    pub fn with_capacity_and_hasher(_capacity: usize, hasher: S) -> Self {
        IndexSet(IndexMap { entries: Vec::new(), hashes: Vec::new(), slots: Vec::new(), hasher })
    }

    /// The elements in order.
    pub fn iter(&self) -> impl Iterator<Item = &T> {
        self.0.entries.iter().map(|(element, ())| element)
    }
}

impl<T: Hash + Eq, S: BuildHasher> IndexSet<T, S> {
    /// Puts in an element; whether it was not there.
    pub fn insert(&mut self, element: T) -> bool {
        let new = !self.0.contains_key(&element);
        if new {
            self.0.insert(element, ());
        }
        new
    }

    /// Whether an element is there.
    pub fn contains<Q: Hash + Eq + ?Sized>(&self, element: &Q) -> bool
    where
        T: Borrow<Q>,
    {
        self.0.contains_key(element)
    }

    /// Takes out an element, the last one takes its position; whether it was there.
    pub fn swap_remove<Q: Hash + Eq + ?Sized>(&mut self, element: &Q) -> bool
    where
        T: Borrow<Q>,
    {
        self.0.swap_remove(element).is_some()
    }
}

impl<T, S: Default> Default for IndexSet<T, S> {
    fn default() -> Self {
        IndexSet(IndexMap::default())
    }
}

impl<T: fmt::Debug, S> fmt::Debug for IndexSet<T, S> {
    fn fmt(&self, f: &mut fmt::Formatter) -> fmt::Result {
        f.debug_set().entries(self.iter()).finish()
    }
}

impl<T: Hash + Eq, S: BuildHasher> Extend<T> for IndexSet<T, S> {
    fn extend<I: IntoIterator<Item = T>>(&mut self, elements: I) {
        for element in elements {
            self.insert(element);
        }
    }
}

impl<T: Hash + Eq, S: BuildHasher + Default> FromIterator<T> for IndexSet<T, S> {
    fn from_iter<I: IntoIterator<Item = T>>(elements: I) -> Self {
        let mut set = Self::default();
        set.extend(elements);
        set
    }
}

impl<T, S> IntoIterator for IndexSet<T, S> {
    type Item = T;
    type IntoIter = std::iter::Map<std::vec::IntoIter<(T, ())>, fn((T, ())) -> T>;

    fn into_iter(self) -> Self::IntoIter {
        fn first<T>(entry: (T, ())) -> T {
            entry.0
        }
        self.0.entries.into_iter().map(first)
    }
}
