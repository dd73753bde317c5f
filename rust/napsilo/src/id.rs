//! Ids: the sorts, terms and questions of a sheet, each with the mark of the writer that added it.
//!
//! Every writer has a mark of its own, and so has every judgement of bytes that no writer of this process made. An id belongs to the sheets
//! of the writer that gave it, and to copies of that writer made after it was given. Anything else refuses it: a writer with
//! [`WriteError`](crate::WriteError), a judgement with [`ForeignId`].

use std::error::Error;
use std::fmt;
use std::ops::Deref;
use std::sync::atomic::{AtomicU64, Ordering};

/// The parts of a sheet.
pub const SORTS: usize = 0;
pub const TERMS: usize = 1;
pub const QUESTIONS: usize = 2;

/// Makes the id of a record of one part of a sheet.
macro_rules! ids {
    ($($(#[$doc:meta])* $name:ident, $part:ident;)*) => {
        $(
            $(#[$doc])*
            #[derive(Debug, Clone, Copy, PartialEq, Eq, PartialOrd, Ord, Hash)]
            pub struct $name {
                mark: u64,
                number: u16,
            }

            impl $name {
                /// The number, counted from 0 in its part of the sheet.
                pub const fn number(self) -> u16 {
                    self.number
                }

                /// The number as an index.
                pub const fn index(self) -> usize {
                    self.number as usize
                }

                /// The id of the record with this number on a sheet of this origin.
                pub(crate) fn of(origin: &Origin, number: u16) -> Self {
                    Self { mark: origin.mark($part, number), number }
                }

                /// Whether a sheet of this origin may have the record; its count is looked at elsewhere.
                pub(crate) fn is_of(self, origin: &Origin) -> bool {
                    origin.mark($part, self.number) == self.mark
                }
            }
        )*
    };
}

ids! {
    /// A sort of a sheet. A [`SheetWriter`](crate::SheetWriter) gives it.
    SortId, SORTS;
    /// A term of a sheet. A [`SheetWriter`](crate::SheetWriter) gives it, or a [`Judged`](crate::Judged) by its number.
    TermId, TERMS;
    /// A question of a sheet. A [`SheetWriter`](crate::SheetWriter) gives it, or a [`Judged`](crate::Judged) by its number.
    QuestionId, QUESTIONS;
}

/// An id was asked about that is not of the sheet: another writer gave it, or it was added after the sheet was finished.
#[derive(Debug, Clone, Copy, PartialEq, Eq, Hash)]
pub struct ForeignId;

impl fmt::Display for ForeignId {
    fn fmt(&self, f: &mut fmt::Formatter<'_>) -> fmt::Result {
        f.write_str("the id belongs to another sheet")
    }
}

impl Error for ForeignId {}

/// Whose records a sheet has: stretches of them, each with the mark of the writer that added it, the first from 0 on.
#[derive(Debug, Clone)]
pub struct Origin(Vec<Stretch>);

/// The records of one writer.
#[derive(Debug, Clone, Copy)]
struct Stretch {
    /// The first of them in each part.
    from: [u16; 3],
    /// The writer's mark.
    mark: u64,
}

impl Origin {
    /// An origin with a mark that nothing else has.
    pub fn new() -> Self {
        Origin(vec![Stretch { from: [0; 3], mark: next_mark() }])
    }

    /// The origin of a copy that has so many records in each part: what it adds has a new mark.
    pub fn copied(&self, counts: [u16; 3]) -> Self {
        let mut stretches = self.0.clone();
        // What added nothing needs no stretch.
        stretches.retain(|stretch| stretch.from != counts);
        stretches.push(Stretch { from: counts, mark: next_mark() });
        Origin(stretches)
    }

    /// The mark of the record with this number in a part.
    fn mark(&self, part: usize, number: u16) -> u64 {
        let of = self.0.iter().rfind(|stretch| stretch.from[part] <= number);
        of.expect("the first stretch is from 0 on").mark
    }
}

/// A mark that was never given before in this process.
fn next_mark() -> u64 {
    static NEXT: AtomicU64 = AtomicU64::new(0);
    NEXT.fetch_add(1, Ordering::Relaxed)
}

/// A sheet that a [`SheetWriter`](crate::SheetWriter) finished: its bytes, and whose ids belong to it.
///
/// It can be used like its bytes. Two sheets are equal if their bytes are.
#[derive(Debug, Clone)]
pub struct Sheet {
    bytes: Vec<u8>,
    origin: Origin,
}

impl Sheet {
    /// The sheet with these bytes and this origin.
    pub(crate) fn new(bytes: Vec<u8>, origin: Origin) -> Self {
        Sheet { bytes, origin }
    }

    /// The bytes alone. A judgement of them has ids of its own.
    pub fn into_bytes(self) -> Vec<u8> {
        self.bytes
    }
}

impl Deref for Sheet {
    type Target = [u8];

    fn deref(&self) -> &[u8] {
        &self.bytes
    }
}

impl AsRef<[u8]> for Sheet {
    fn as_ref(&self) -> &[u8] {
        &self.bytes
    }
}

impl From<Sheet> for Vec<u8> {
    fn from(sheet: Sheet) -> Self {
        sheet.bytes
    }
}

impl PartialEq for Sheet {
    fn eq(&self, other: &Self) -> bool {
        self.bytes == other.bytes
    }
}

impl Eq for Sheet {}

/// A sheet that is lent to be judged. It is made of a reference to a [`Sheet`], whose writer's ids belong to the judgement, or to bytes,
/// whose judgement has ids of its own.
#[derive(Debug, Clone, Copy)]
pub struct SheetRef<'a> {
    pub(crate) bytes: &'a [u8],
    origin: Option<&'a Origin>,
}

impl SheetRef<'_> {
    /// Whose ids belong to the judgement.
    pub(crate) fn origin(&self) -> Origin {
        self.origin.cloned().unwrap_or_else(Origin::new)
    }
}

impl<'a> From<&'a Sheet> for SheetRef<'a> {
    fn from(sheet: &'a Sheet) -> Self {
        SheetRef { bytes: &sheet.bytes, origin: Some(&sheet.origin) }
    }
}

impl<'a> From<&'a [u8]> for SheetRef<'a> {
    fn from(bytes: &'a [u8]) -> Self {
        SheetRef { bytes, origin: None }
    }
}

impl<'a> From<&'a Vec<u8>> for SheetRef<'a> {
    fn from(bytes: &'a Vec<u8>) -> Self {
        SheetRef { bytes, origin: None }
    }
}

impl<'a, const N: usize> From<&'a [u8; N]> for SheetRef<'a> {
    fn from(bytes: &'a [u8; N]) -> Self {
        SheetRef { bytes, origin: None }
    }
}
