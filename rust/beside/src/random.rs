//! Numbers that look random and that a seed decides.

/// A source of numbers (xorshift).
#[derive(Debug, Clone)]
pub struct Random(u64);

impl Random {
    /// The source of a seed.
    pub fn new(seed: u64) -> Self {
        let mut random = Random(seed.wrapping_mul(0x9e37_79b9_7f4a_7c15) ^ 0x2545_f491_4f6c_dd1d);
        // Of 0 nothing comes but 0.
        random.0 = random.0.max(1);
        for _ in 0..8 {
            random.next();
        }
        random
    }

    /// The next number.
    fn next(&mut self) -> u64 {
        self.0 ^= self.0 << 13;
        self.0 ^= self.0 >> 7;
        self.0 ^= self.0 << 17;
        self.0
    }

    /// A number under a bound that is not 0.
    pub fn under(&mut self, bound: usize) -> usize {
        let bound = u64::try_from(bound).expect("64 bits");
        usize::try_from((self.next() >> 20) % bound).expect("64 bits")
    }

    /// True so many times in a hundred.
    pub fn percent(&mut self, percent: usize) -> bool {
        self.under(100) < percent
    }

    /// One of some values, of which there is one at least.
    pub fn of<'a, T>(&mut self, values: &'a [T]) -> &'a T {
        &values[self.under(values.len())]
    }
}
