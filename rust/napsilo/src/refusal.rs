//! Why a sheet, a row or an answer is refused, with the specification's numbers.

use std::error::Error;
use std::fmt;

/// Makes an enum of refusals from its cases, each with its number and its meaning.
macro_rules! refusals {
    ($(#[$doc:meta])* $name:ident { $($case:ident = $number:literal, $meaning:literal;)* }) => {
        $(#[$doc])*
        #[derive(Debug, Clone, Copy, PartialEq, Eq, PartialOrd, Ord, Hash)]
        #[repr(u8)]
        pub enum $name {
            $(
                #[doc = concat!($number, ": ", $meaning, ".")]
                $case = $number,
            )*
        }

        impl $name {
            /// All cases in the order of their numbers.
            pub const ALL: &'static [$name] = &[$($name::$case,)*];

            /// The specification's number.
            pub const fn number(self) -> u32 {
                self as u32
            }

            /// The case with this number, if there is one.
            pub const fn from_number(number: u32) -> Option<Self> {
                match number {
                    $($number => Some($name::$case),)*
                    _ => None,
                }
            }

            /// What it means, in a few words.
            pub const fn meaning(self) -> &'static str {
                match self {
                    $($name::$case => $meaning,)*
                }
            }
        }

        /// The number, then what it means.
        impl fmt::Display for $name {
            fn fmt(&self, f: &mut fmt::Formatter<'_>) -> fmt::Result {
                write!(f, "{}: {}", self.number(), self.meaning())
            }
        }

        impl Error for $name {}
    };
}

refusals! {
    /// Why a whole sheet is refused (1 to 10, and 34).
    Refusal {
        Length = 1, "the sheet is under 6 or over 65,536 bytes";
        Header = 2, "a count of the header is over its limit";
        PastEnd = 3, "a record runs past the end";
        Map = 4, "the bit of the kind is missing, the kind unknown, or the bit map not the kind's";
        Value = 5, "a list length, a number or a name list is outside what its kind takes";
        Reference = 6, "a reference is not to an earlier record";
        Trailing = 7, "bytes stand after the last record";
        Lent = 8, "fewer rows than two a term or fewer answers than questions are lent";
        TreeSize = 9, "a sort's tree size is over 4,096";
        Store = 10, "the store cannot hold the sheet's sorts";
        WrittenSize = 34, "a tree size that is written in a sort record is not the sort's";
    }
}

refusals! {
    /// Why a row or an answer is refused (20 to 29).
    Cause {
        Below = 20, "a term that it refers to is refused in the same row";
        Panics = 21, "carcara's Rust panics here";
        Limit = 22, "the answer's width, list or tree is over its limit";
        Full = 23, "the store cannot hold the answer's sorts";
        NoRank = 24, "the operator has no rank";
        Count = 25, "a wrong count of arguments, bindings or indices, or an index that is no integer constant or out of range";
        Misfit = 26, "an argument's sort fits no rank, the head is no function, or the sort of a `const` is no Array, \
            of a `set.empty` or `set.universe` no Set";
        Unassigned = 27, "the result keeps an unassigned parameter";
        Barred = 28, "a sort holds what it may not hold here, or a question to match is outside its premise";
        NoAssignment = 29, "no assignment that keeps what is given turns the pattern into the target";
    }
}
