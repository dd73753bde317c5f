//! What several tests use.

#![allow(dead_code)]

pub mod explained;

use napsilo::{Lent, Name, Refusal, judge_into};

/// The bytes of a hexadecimal text; blanks are passed over.
pub fn bytes(hex: &str) -> Vec<u8> {
    let digits: Vec<u32> =
        hex.chars().filter(|c| !c.is_whitespace()).map(|c| c.to_digit(16).expect("a hexadecimal digit")).collect();
    assert!(digits.len().is_multiple_of(2), "two digits a byte");
    let byte = |pair: &[u32]| u8::try_from(pair[0] * 16 + pair[1]).expect("a byte");
    digits.chunks(2).map(byte).collect()
}

/// Bytes in hexadecimal.
pub fn hex(bytes: &[u8]) -> String {
    bytes.iter().map(|byte| format!("{byte:02x}")).collect()
}

/// A name by its number.
pub fn n(number: u16) -> Name {
    Name::new(number)
}

/// What the library says to a sheet, without a look at its rows.
pub fn outcome(sheet: &[u8]) -> Result<(), Refusal> {
    let lent = Lent::PROGRAM;
    judge_into(
        sheet,
        &mut vec![0; lent.records],
        &mut vec![0; lent.places],
        &mut vec![0; lent.rows],
        &mut vec![0; lent.answers],
    )
}

/// Numbers that look random and come from a seed (xorshift).
pub struct Random(u64);

impl Random {
    /// The numbers of a seed.
    pub fn new(seed: u64) -> Self {
        Random(seed.wrapping_mul(0x9e37_79b9_7f4a_7c15) | 1)
    }

    /// A number under a bound.
    pub fn under(&mut self, bound: usize) -> usize {
        self.0 ^= self.0 << 13;
        self.0 ^= self.0 >> 7;
        self.0 ^= self.0 << 17;
        usize::try_from(self.0 >> 33).expect("31 bits") % bound
    }

    /// True once in so many times.
    pub fn once_in(&mut self, times: usize) -> bool {
        self.under(times) == 0
    }

    /// One of these.
    pub fn of<T: Copy>(&mut self, from: &[T]) -> T {
        from[self.under(from.len())]
    }
}
