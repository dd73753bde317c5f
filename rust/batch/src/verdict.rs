//! Verdicts: what a batch says of a term in a row.

use napsilo::{Cause, Refusal};
use std::error::Error;
use std::fmt;

/// Why a term has no sort in a row.
#[derive(Debug, Clone, Copy, PartialEq, Eq, Hash)]
pub enum Refused {
    /// The row is refused, by the library or for a term below (20).
    Row(Cause),
    /// No sheet can say the term: the smallest that would have it is refused. 5 for a list over 64, a width over 65,535, a repeated or
    /// missing parameter, or an index that is too large; 9 for the tree size of a sort; 1 and 2 if it needs too many bytes, sorts or terms;
    /// 10 if the library's store cannot hold its sorts.
    Sheet(Refusal),
}

impl Refused {
    /// The specification's number.
    pub const fn number(self) -> u32 {
        match self {
            Refused::Row(cause) => cause.number(),
            Refused::Sheet(refusal) => refusal.number(),
        }
    }
}

/// The number, then what it means.
impl fmt::Display for Refused {
    fn fmt(&self, f: &mut fmt::Formatter<'_>) -> fmt::Result {
        match self {
            Refused::Row(cause) => write!(f, "{cause}"),
            Refused::Sheet(refusal) => write!(f, "{refusal}; no sheet can say the term"),
        }
    }
}

impl Error for Refused {}

/// The two rows of a term.
#[derive(Debug, Clone, Copy, PartialEq, Eq, Hash)]
pub enum Row {
    /// What carcara's `Pool::compute_sort` gives.
    Inferred,
    /// What the ranks of SMT-LIB give.
    Checked,
}

/// The place of the checked row among the two.
pub const CHECKED: usize = Row::Checked as usize;

/// A verdict in one word: the number of a sort, a refusal, or nothing yet.
#[derive(Debug, Clone, Copy, PartialEq, Eq)]
pub struct Word(u32);

/// Words from here on are refusals, and the last one is nothing.
const FIRST_REFUSAL: u32 = 0xffff_ff00;

impl Word {
    /// Nothing is known yet.
    pub const OPEN: Word = Word(u32::MAX);

    /// A sort of the batch.
    pub const fn sort(sort: u32) -> Word {
        assert!(sort < FIRST_REFUSAL);
        Word(sort)
    }

    /// A refusal with its number, from 1 to 254.
    pub const fn refused(number: u32) -> Word {
        assert!(0 < number && number < 255);
        Word(FIRST_REFUSAL + number)
    }

    /// Whether nothing is known yet.
    pub const fn is_open(self) -> bool {
        self.0 == u32::MAX
    }

    /// Whether it is a refusal.
    pub const fn is_refused(self) -> bool {
        self.0 >= FIRST_REFUSAL && !self.is_open()
    }

    /// The sort, if it is one.
    pub const fn as_sort(self) -> Option<u32> {
        if self.0 < FIRST_REFUSAL { Some(self.0) } else { None }
    }

    /// The sort or the refusal; nothing if nothing is known yet.
    ///
    /// # Panics
    /// If the refusal has a number that no refusal has.
    pub fn verdict(self) -> Option<Result<u32, Refused>> {
        match self.0.checked_sub(FIRST_REFUSAL) {
            None => Some(Ok(self.0)),
            Some(_) if self.is_open() => None,
            Some(number) => {
                let row = Cause::from_number(number).map(Refused::Row);
                let refused = row.or_else(|| Refusal::from_number(number).map(Refused::Sheet));
                Some(Err(refused.expect("a number of the specification's")))
            }
        }
    }
}
