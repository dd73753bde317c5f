//! Why a record is not added to a sheet, and the limits behind it.

use crate::{Name, Refusal, SortId, TermId};
use std::error::Error;
use std::fmt;

/// The most sorts of a sheet.
pub const MOST_SORTS: usize = 2_048;

/// The most terms of a sheet.
pub const MOST_TERMS: usize = 4_096;

/// The most questions of a sheet.
pub const MOST_QUESTIONS: usize = 1_024;

/// The longest list of a record.
pub const LONGEST_LIST: usize = 64;

/// The greatest width of a bit vector.
pub const GREATEST_WIDTH: u32 = 65_535;

/// The most bytes of a sheet.
pub const MOST_BYTES: usize = 65_536;

/// Why a record is not added to a sheet: the reader would refuse the sheet with it, or its ids are another sheet's.
#[derive(Debug, Clone, Copy, PartialEq, Eq, Hash)]
pub enum WriteError {
    /// The sheet would be over 65,536 bytes.
    TooLong,
    /// It would be the 2,049th sort.
    TooManySorts,
    /// It would be the 4,097th term.
    TooManyTerms,
    /// It would be the 1,025th question.
    TooManyQuestions,
    /// A list would have this length, over 64. The list of an App has the head in it, that of a Let the inner term, that of a Match the
    /// subject, that of the question `Apply` the sort.
    LongList(usize),
    /// The width of a bit vector is over 65,535.
    Width(u32),
    /// A Par has no parameter.
    NoParameter,
    /// A name stands twice in the parameters of a Par, in the names of a question or in what a question gives.
    RepeatedName(Name),
    /// A question gives a sort for this name, which is none of those that may be assigned.
    NoSuchParameter(Name),
    /// The sort is not of this sheet: another writer gave the id.
    ForeignSort(SortId),
    /// The term is not of this sheet: another writer gave the id.
    ForeignTerm(TermId),
    /// All names of a table are given out.
    TooManyNames,
}

impl WriteError {
    /// The refusal that the reader gives for a sheet with that record behind those that were added; none for an id of another sheet and
    /// for [`TooManyNames`](WriteError::TooManyNames), since there is no such record.
    pub const fn refusal(self) -> Option<Refusal> {
        match self {
            WriteError::TooLong => Some(Refusal::Length),
            WriteError::TooManySorts | WriteError::TooManyTerms | WriteError::TooManyQuestions => Some(Refusal::Header),
            WriteError::LongList(_) | WriteError::Width(_) | WriteError::NoParameter => Some(Refusal::Value),
            WriteError::RepeatedName(_) | WriteError::NoSuchParameter(_) => Some(Refusal::Value),
            WriteError::ForeignSort(_) | WriteError::ForeignTerm(_) | WriteError::TooManyNames => None,
        }
    }
}

impl fmt::Display for WriteError {
    fn fmt(&self, f: &mut fmt::Formatter<'_>) -> fmt::Result {
        match self {
            WriteError::TooLong => write!(f, "the sheet would be over {MOST_BYTES} bytes"),
            WriteError::TooManySorts => write!(f, "over {MOST_SORTS} sorts"),
            WriteError::TooManyTerms => write!(f, "over {MOST_TERMS} terms"),
            WriteError::TooManyQuestions => write!(f, "over {MOST_QUESTIONS} questions"),
            WriteError::LongList(length) => {
                write!(f, "a list of {length}, over {LONGEST_LIST}")
            }
            WriteError::Width(width) => write!(f, "width {width}, over {GREATEST_WIDTH}"),
            WriteError::NoParameter => write!(f, "a Par without a parameter"),
            WriteError::RepeatedName(name) => write!(f, "the name {name} stands twice"),
            WriteError::NoSuchParameter(name) => write!(f, "a sort is given for {name}, which is no parameter"),
            WriteError::ForeignSort(sort) => write!(f, "sort {} is of another sheet", sort.number()),
            WriteError::ForeignTerm(term) => write!(f, "term {} is of another sheet", term.number()),
            WriteError::TooManyNames => write!(f, "all 65,535 names are given out"),
        }
    }
}

impl Error for WriteError {}
