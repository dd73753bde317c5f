//! Records of words, each distinct one once. Sorts and terms are kept as such.

use std::hash::{BuildHasher, Hasher, RandomState};

/// Records of words with a table that finds them again. A record's number is its place in the order in which they came.
#[derive(Debug, Clone)]
pub struct Records {
    /// All records back to back.
    words: Vec<u32>,
    /// Where each record ends.
    ends: Vec<u32>,
    /// The numbers of the records and 1, each near the place that its hash says; 0 where there is none. Its length is a power of two.
    table: Vec<u32>,
    /// What the hash starts from: another number in every run, so that nobody can make records that share their places.
    seed: u64,
}

/// The most records. Greater numbers stand for other things in a batch.
pub const MOST_RECORDS: usize = 0xffff_0000;

impl Records {
    /// No records.
    pub fn new() -> Self {
        let seed = RandomState::new().build_hasher().finish();
        Records { words: Vec::new(), ends: Vec::new(), table: vec![0; 64], seed }
    }

    /// How many there are.
    pub fn len(&self) -> usize {
        self.ends.len()
    }

    /// The words of a record.
    pub fn get(&self, number: u32) -> &[u32] {
        let at = number as usize;
        let start = if at == 0 { 0 } else { self.ends[at - 1] as usize };
        &self.words[start..self.ends[at] as usize]
    }

    /// The number of a record with these words, and whether it is new.
    ///
    /// # Panics
    /// If there are too many records, or 2^32 words.
    pub fn add(&mut self, words: &[u32]) -> (u32, bool) {
        let mask = self.table.len() - 1;
        let mut at = self.hash(words) as usize & mask;
        while let Some(number) = self.table[at].checked_sub(1) {
            if self.get(number) == words {
                return (number, false);
            }
            at = (at + 1) & mask;
        }
        assert!(self.len() < MOST_RECORDS, "too many records");
        let number = self.ends.len() as u32;
        self.words.extend_from_slice(words);
        self.ends.push(u32::try_from(self.words.len()).expect("under 2^32 words"));
        self.table[at] = number + 1;
        if self.table.len() < 2 * self.len() {
            self.grow();
        }
        (number, true)
    }

    /// Makes the table twice as long.
    fn grow(&mut self) {
        let mask = 2 * self.table.len() - 1;
        let mut table = vec![0; mask + 1];
        for number in 0..self.len() as u32 {
            let mut at = self.hash(self.get(number)) as usize & mask;
            while table[at] != 0 {
                at = (at + 1) & mask;
            }
            table[at] = number + 1;
        }
        self.table = table;
    }

    /// The hash of some words: each is mixed in by a multiplication whose two halves are folded.
    fn hash(&self, words: &[u32]) -> u64 {
        words.iter().fold(self.seed, |hash, word| {
            let product = u128::from(hash ^ u64::from(*word)) * 0x9e37_79b9_7f4a_7c15;
            (product >> 64) as u64 ^ product as u64
        })
    }
}

#[cfg(test)]
mod tests {
    use super::Records;

    #[test]
    fn equal_records_have_one_number() {
        let mut records = Records::new();
        for round in 0..2 {
            for number in 0..10_000_u32 {
                let words = vec![number % 97; number as usize % 5].into_iter().chain([number]).collect::<Vec<u32>>();
                assert_eq!(records.add(&words), (number, round == 0));
                assert_eq!(records.get(number), words);
            }
        }
        assert_eq!(records.len(), 10_000);
    }
}
