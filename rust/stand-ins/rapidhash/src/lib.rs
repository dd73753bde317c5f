//! Stands in for the crate `rapidhash`: hash maps and sets of the standard library with another hasher.
//!
//! The hasher folds words in by multiplication, in the way of rapidhash; its numbers are others, and its speed was not measured beside it. It
//! has fixed keys, so two runs hash alike. No result of the code that is built on it depends on the order of a map.

use std::collections::{HashMap, HashSet};
use std::hash::BuildHasher;

/// A hash map with this crate's hasher.
pub type RapidHashMap<K, V> = HashMap<K, V, fast::RandomState>;

/// A hash set with this crate's hasher.
pub type RapidHashSet<T> = HashSet<T, fast::RandomState>;

/// The constructor `new` for hash maps whose hasher is not the standard library's.
pub trait HashMapExt {
    /// An empty map.
    fn new() -> Self;
}

impl<K, V, S: BuildHasher + Default> HashMapExt for HashMap<K, V, S> {
    fn new() -> Self {
        HashMap::default()
    }
}

/// The constructor `new` for hash sets whose hasher is not the standard library's.
pub trait HashSetExt {
    /// An empty set.
    fn new() -> Self;
}

impl<T, S: BuildHasher + Default> HashSetExt for HashSet<T, S> {
    fn new() -> Self {
        HashSet::default()
    }
}

/// The hasher and what builds it.
pub mod fast {
    use std::hash::{BuildHasher, Hasher};

    /// Builds hashers, all with the same keys.
    #[derive(Debug, Clone, Copy, Default)]
    pub struct RandomState;

    impl BuildHasher for RandomState {
        type Hasher = RapidHasher;

        fn build_hasher(&self) -> RapidHasher {
            RapidHasher::default_const()
        }
    }

    /// A hasher: what was hashed so far.
    #[derive(Debug, Clone, Copy)]
    pub struct RapidHasher(u64);

    /// What a word is multiplied with: an odd number without a pattern.
    const FACTOR: u64 = 0x9e37_79b9_7f4a_7c15;

    impl RapidHasher {
        /// A hasher with fixed keys.
        pub fn default_const() -> Self {
            RapidHasher(0x2d35_8dcc_aa6c_78a5)
        }
    }

    impl Hasher for RapidHasher {
        fn write(&mut self, bytes: &[u8]) {
            for chunk in bytes.chunks(8) {
                let mut word = [0; 8];
                word[..chunk.len()].copy_from_slice(chunk);
                self.write_u64(u64::from_le_bytes(word));
            }
        }

        fn write_u8(&mut self, number: u8) {
            self.write_u64(u64::from(number));
        }

        fn write_u16(&mut self, number: u16) {
            self.write_u64(u64::from(number));
        }

        fn write_u32(&mut self, number: u32) {
            self.write_u64(u64::from(number));
        }

        fn write_u64(&mut self, number: u64) {
            // Both halves of the product of 128 bits.
            let product = u128::from(self.0 ^ number) * u128::from(FACTOR);
            self.0 = product as u64 ^ (product >> 64) as u64;
        }

        fn write_usize(&mut self, number: usize) {
            self.write_u64(number as u64);
        }

        fn finish(&self) -> u64 {
            // Once more, so that the last word reaches all bits.
            let product = u128::from(self.0) * u128::from(FACTOR);
            product as u64 ^ (product >> 64) as u64
        }
    }
}
