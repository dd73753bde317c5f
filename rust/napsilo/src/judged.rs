//! Judging a sheet, and what the library says to it.

use crate::explain::{self, Term};
use crate::id::Origin;
use crate::{Cause, ForeignId, QuestionId, Refusal, SheetRef, Sort, TermId, bytes, ffi};
use std::sync::{Arc, OnceLock};

/// The lengths of the buffers that are lent to the library.
#[derive(Debug, Clone, Copy, PartialEq, Eq)]
pub struct Lent {
    /// Bytes of the store's records.
    pub records: usize,
    /// Entries of the store's places.
    pub places: usize,
    /// Rows: two a term.
    pub rows: usize,
    /// Answers: one a question.
    pub answers: usize,
}

impl Lent {
    /// What the program lends: enough rows and answers for every sheet, so that 8 does not happen. Each sort takes two bytes more in the
    /// store than in a record without its size, so 10 happens only to a sheet of more than 61,446 bytes.
    pub const PROGRAM: Lent = Lent { records: 65_536, places: 4_096, rows: 8_192, answers: 1_024 };
}

impl Default for Lent {
    /// What the program lends.
    fn default() -> Self {
        Lent::PROGRAM
    }
}

/// A row: the sort of a term, or why there is none.
pub type Row = Result<Arc<Sort>, Cause>;

/// The kind of a question.
#[derive(Debug, Clone, Copy, PartialEq, Eq, Hash)]
pub enum QuestionKind {
    /// Are two sorts compatible?
    Compatible,
    /// What does a sort become by a match?
    Match,
    /// What does a sort become by a substitution?
    Apply,
    /// What does a sort become by a match that keeps what is given?
    Continue,
}

impl QuestionKind {
    /// The kind with this number.
    pub(crate) fn from_number(number: u8) -> Option<Self> {
        match number {
            0 => Some(QuestionKind::Compatible),
            1 => Some(QuestionKind::Match),
            2 => Some(QuestionKind::Apply),
            3 => Some(QuestionKind::Continue),
            _ => None,
        }
    }
}

/// The answer to a question.
#[derive(Debug, Clone, PartialEq, Eq)]
pub enum Answer {
    /// Whether two sorts are compatible.
    Compatible(bool),
    /// What a sort becomes by a match or a substitution, or why there is no answer.
    Sort(Row),
}

impl Answer {
    /// Whether two sorts are compatible, if that was the question.
    pub fn yes_or_no(&self) -> Option<bool> {
        match self {
            Answer::Compatible(yes) => Some(*yes),
            Answer::Sort(_) => None,
        }
    }

    /// What a sort becomes, if that was the question.
    pub fn sort(&self) -> Option<&Row> {
        match self {
            Answer::Compatible(_) => None,
            Answer::Sort(row) => Some(row),
        }
    }
}

/// What the library says to an accepted sheet: two rows for each term, and an answer to each question.
///
/// It takes the ids of the sheet that was judged. Two are equal if they say the same: rows, answers and store.
#[derive(Debug, Clone)]
pub struct Judged {
    sheet: Vec<u8>,
    /// The sheet's terms, once they were read back.
    terms: OnceLock<Vec<Term>>,
    origin: Origin,
    store: Vec<Arc<Sort>>,
    inferred: Vec<Row>,
    checked: Vec<Row>,
    answers: Vec<Answer>,
}

impl PartialEq for Judged {
    fn eq(&self, other: &Self) -> bool {
        let rows = self.inferred == other.inferred && self.checked == other.checked;
        rows && self.answers == other.answers && self.store == other.store
    }
}

impl Eq for Judged {}

impl Judged {
    /// The inferred sort of a term: what carcara's `Pool::compute_sort` gives. An error if the term is not of this sheet.
    pub fn inferred(&self, term: TermId) -> Result<&Row, ForeignId> {
        Ok(&self.inferred[self.place(term)?])
    }

    /// The checked sort of a term: what the ranks of SMT-LIB give. An error if the term is not of this sheet.
    pub fn checked(&self, term: TermId) -> Result<&Row, ForeignId> {
        Ok(&self.checked[self.place(term)?])
    }

    /// The answer to a question. An error if the question is not of this sheet.
    pub fn answer(&self, question: QuestionId) -> Result<&Answer, ForeignId> {
        let answer = self.answers.get(question.index()).filter(|_| question.is_of(&self.origin));
        answer.ok_or(ForeignId)
    }

    /// The term with this number, counted from 0, if the sheet has one.
    pub fn term(&self, number: usize) -> Option<TermId> {
        self.checked.get(number)?;
        Some(TermId::of(&self.origin, u16::try_from(number).ok()?))
    }

    /// The terms in order.
    pub fn terms(&self) -> impl ExactSizeIterator<Item = TermId> {
        let count = u16::try_from(self.checked.len()).expect("a sheet has at most 4,096 terms");
        (0..count).map(|number| TermId::of(&self.origin, number))
    }

    /// The question with this number, counted from 0, if the sheet has one.
    pub fn question(&self, number: usize) -> Option<QuestionId> {
        self.answers.get(number)?;
        Some(QuestionId::of(&self.origin, u16::try_from(number).ok()?))
    }

    /// The place of a term's rows; an error if it is not of this sheet.
    pub(crate) fn place(&self, term: TermId) -> Result<usize, ForeignId> {
        let own = term.index() < self.checked.len() && term.is_of(&self.origin);
        own.then_some(term.index()).ok_or(ForeignId)
    }

    /// The sheet's terms.
    pub(crate) fn term_records(&self) -> &[Term] {
        self.terms.get_or_init(|| explain::terms(&self.sheet).expect("the library accepted the sheet"))
    }

    /// The inferred rows in order.
    pub(crate) fn inferred_rows(&self) -> &[Row] {
        &self.inferred
    }

    /// The checked rows in order.
    pub(crate) fn checked_rows(&self) -> &[Row] {
        &self.checked
    }

    /// The inferred and the checked row of each term, in order.
    pub fn rows(&self) -> impl ExactSizeIterator<Item = (&Row, &Row)> {
        self.inferred.iter().zip(&self.checked)
    }

    /// The answers, in order.
    pub fn answers(&self) -> &[Answer] {
        &self.answers
    }

    /// The sorts of the store: each distinct sort of the sheet, the rows and the answers once, in the order in which they were made.
    pub fn store(&self) -> &[Arc<Sort>] {
        &self.store
    }
}

/// Judges a sheet with the buffers that the program lends.
///
/// The sheet is a [`Sheet`](crate::Sheet) of a writer's, whose ids the judgement takes; or bytes, of which the judgement gives ids by their
/// numbers ([`Judged::term`]). The library runs on the stack of the caller, of which [`STACK`] bytes must be left.
///
/// # Panics
/// If what the library wrote is no store or no row; it is proved to write none such.
pub fn judge<'a>(sheet: impl Into<SheetRef<'a>>) -> Result<Judged, Refusal> {
    judge_with(sheet, Lent::PROGRAM)
}

/// Judges a sheet with buffers of these lengths.
///
/// # Panics
/// As [`judge`].
pub fn judge_with<'a>(sheet: impl Into<SheetRef<'a>>, lent: Lent) -> Result<Judged, Refusal> {
    let sheet = sheet.into();
    let mut records = vec![0; lent.records];
    let mut places = vec![0; lent.places];
    let mut rows = vec![0; lent.rows];
    let mut answers = vec![0; lent.answers];
    judge_into(sheet.bytes, &mut records, &mut places, &mut rows, &mut answers)?;
    Ok(decode(sheet, &records, &places, &rows, &answers).expect("the library writes a store, rows and answers"))
}

/// Judges a sheet into lent buffers of any lengths, whatever they hold.
///
/// If the sheet is accepted, `records` and `places` hold the store, `rows` two rows for each term and `answers` one for each question, each
/// with zeros behind; a row or an answer is 65,536 times the number of its cause and the store number of its sort, and the answer to a
/// question for compatibility is 1 or 0. If it is refused, all four are zeros.
///
/// The library runs on the stack of the caller, of which [`STACK`] bytes must be left.
///
/// # Panics
/// If the library gives no number of a refusal; it is proved to give none such.
pub fn judge_into(
    sheet: &[u8],
    records: &mut [u8],
    places: &mut [u32],
    rows: &mut [u32],
    answers: &mut [u32],
) -> Result<(), Refusal> {
    match ffi::judge(sheet, records, places, rows, answers) {
        0 => Ok(()),
        number => Err(Refusal::from_number(number).expect("the library gives 0 or a refusal")),
    }
}

/// The bytes of stack on which every sheet can be judged and printed: a thread of Rust's has 2 MiB, and the first one mostly 8.
///
/// What the library needs grows with the depth of the sorts that it goes through, and no sort is deeper than 4,096. How deep each walk goes
/// and what a level takes, as compiled, is in docs/DECISIONS.md; the most that was measured is in docs/PERFORMANCE.md, and the tests run
/// the deepest sheets on a thread of this size. It is measured, not proved. With less stack than this left the process may end, as at
/// every overflow of a stack in Rust.
pub const STACK: usize = 1792 << 10;

/// Reads what the library wrote for an accepted sheet; nothing if it is no store, no row or no answer.
fn decode(sheet: SheetRef<'_>, records: &[u8], places: &[u32], rows: &[u32], answers: &[u32]) -> Option<Judged> {
    let own = bytes::records(sheet.bytes)?;
    let store = bytes::store(records, places)?;
    let sort = |word: u32| -> Option<Row> {
        match word >> 16 {
            0 => Some(Ok(store.get(usize::try_from(word).ok()?)?.clone())),
            number if word.trailing_zeros() >= 16 => Some(Err(Cause::from_number(number)?)),
            _ => None,
        }
    };
    let rows = rows.get(..2 * own.terms.len())?;
    let column = |first: usize| -> Option<Vec<Row>> {
        let words = rows.iter().skip(first).step_by(2);
        words.map(|word| sort(*word)).collect()
    };
    let answers = answers.get(..own.questions.len())?;
    let answers = answers.iter().zip(&own.questions);
    let answers = answers.map(|(word, question)| match (QuestionKind::from_number(question.kind)?, word) {
        (QuestionKind::Compatible, 0 | 1) => Some(Answer::Compatible(*word == 1)),
        (QuestionKind::Compatible, _) => None,
        (QuestionKind::Match | QuestionKind::Apply | QuestionKind::Continue, _) => Some(Answer::Sort(sort(*word)?)),
    });
    let answers = answers.collect::<Option<_>>()?;
    let (inferred, checked) = (column(0)?, column(1)?);
    let (sheet, origin) = (sheet.bytes.to_vec(), sheet.origin());
    Some(Judged { sheet, terms: OnceLock::new(), origin, inferred, checked, answers, store })
}
