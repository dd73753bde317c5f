//! Stands in for the crate `rug`: the few operations on integers and rationals that the files of carcara use.
//!
//! rug's numbers have no bound; these are held in 128 bits, and an operation that would pass them panics with a message of its
//! own. A sheet's numbers have 32 bits and a vector's width 16, so the only product that sort inference forms (`repeat`) stays
//! under 48 bits.

use std::fmt;
use std::ops::{Div, Mul, Neg};

/// What an operation past 128 bits panics with.
const PAST: &str = "the number stand-in holds 128 bits only";

/// An integer.
#[derive(Debug, Clone, PartialEq, Eq, PartialOrd, Ord, Hash)]
pub struct Integer(i128);

impl Integer {
    /// The value as a `usize`, or nothing if it does not fit.
    pub fn to_usize(&self) -> Option<usize> {
        usize::try_from(self.0).ok()
    }

    /// Whether the value is zero.
    pub fn is_zero(&self) -> bool {
        self.0 == 0
    }
}

impl From<u32> for Integer {
    fn from(value: u32) -> Self {
        Integer(value.into())
    }
}

impl Mul<&usize> for Integer {
    type Output = Integer;

    fn mul(self, other: &usize) -> Integer {
        let other = i128::try_from(*other).expect(PAST);
        Integer(self.0.checked_mul(other).expect(PAST))
    }
}

impl Neg for Integer {
    type Output = Integer;

    fn neg(self) -> Integer {
        Integer(self.0.checked_neg().expect(PAST))
    }
}

impl fmt::Display for Integer {
    fn fmt(&self, f: &mut fmt::Formatter) -> fmt::Result {
        self.0.fmt(f)
    }
}

/// A rational in lowest terms, its denominator positive.
#[derive(Debug, Clone, PartialEq, Eq, Hash)]
pub struct Rational {
    numerator: i128,
    denominator: i128,
}

/// The greatest common divisor of two numbers that are not negative.
fn divisor(a: i128, b: i128) -> i128 {
    if b == 0 { a } else { divisor(b, a % b) }
}

impl Rational {
    /// A quotient in lowest terms. Panics for the denominator 0.
    fn reduced(numerator: i128, denominator: i128) -> Self {
        assert!(denominator != 0, "division by zero");
        let sign = if denominator < 0 { -1 } else { 1 };
        let common = sign * divisor(numerator.checked_abs().expect(PAST), denominator.checked_abs().expect(PAST));
        Rational { numerator: numerator / common, denominator: denominator / common }
    }

    /// Whether the value is zero.
    pub fn is_zero(&self) -> bool {
        self.numerator == 0
    }
}

impl From<u32> for Rational {
    fn from(value: u32) -> Self {
        Integer::from(value).into()
    }
}

impl From<Integer> for Rational {
    fn from(value: Integer) -> Self {
        Rational { numerator: value.0, denominator: 1 }
    }
}

impl Neg for Rational {
    type Output = Rational;

    fn neg(self) -> Rational {
        Rational { numerator: self.numerator.checked_neg().expect(PAST), denominator: self.denominator }
    }
}

impl Div for Rational {
    type Output = Rational;

    fn div(self, other: Rational) -> Rational {
        Rational::reduced(
            self.numerator.checked_mul(other.denominator).expect(PAST),
            self.denominator.checked_mul(other.numerator).expect(PAST),
        )
    }
}
