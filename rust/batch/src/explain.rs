//! Why a row is refused, in words.
//!
//! The term that the refusal comes from is put on a small sheet of its own, and [`napsilo`] explains its row there. First its parts are
//! variables of their sorts, where these fit, which finds the part that is concerned. Then some of what is below is put as well, for the
//! text, that part before others; what is left out is a variable with dots for a name. What is replaced is what [`crate::put`] may replace,
//! so by the law of variable abstraction the row is the same. A sheet that has no room, or says another cause than the batch, is not
//! listened to; if there is no other, the cause stands alone.

use crate::batch::{Stores, Verdicts};
use crate::names::STAND_IN;
use crate::node::BatchTerm;
use crate::sheet::{NONE, Sheet, Stop};
use crate::terms::{kind, kind_of, parts, sheet_parts};
use crate::verdict::{Refused, Row};
use napsilo::{Cause, Explanation, Found, Name, Names, Role, judge};
use std::fmt;

/// Why a row of a term is refused.
///
/// Its text is one line, with the number at its end: `(locked current): argument 1, current, has sort Session, expected Account (!26)`. A
/// name is in bars if it could be taken for something else. Terms far inside, and integers that no sheet can hold, are dots.
#[derive(Debug, Clone, PartialEq, Eq)]
pub struct Explained {
    /// The term that is refused for its own sake: the one that was asked about, or one below it ([`Verdicts::source`]).
    pub term: BatchTerm,
    /// Why it is refused; never [`Cause::Below`].
    pub refused: Refused,
    /// What the part that is concerned is to the term, and which one of those it is, counted from 1; nothing if no part is.
    pub part: Option<(Role, usize)>,
    text: String,
}

impl fmt::Display for Explained {
    fn fmt(&self, f: &mut fmt::Formatter<'_>) -> fmt::Result {
        f.write_str(&self.text)
    }
}

impl Verdicts<'_> {
    /// Why a row of a term is refused; nothing if it is a sort.
    ///
    /// The number is always the batch's. The library is asked on the stack of the caller, of which [`napsilo::STACK`] bytes must be left.
    pub fn explain(&self, term: BatchTerm, row: Row) -> Option<Explained> {
        let term = self.source(term, row)?;
        let refused = self.verdict(term, row).err()?;
        let told = match refused {
            Refused::Row(cause) => told(&self.batch().stores, term.number, row, cause),
            Refused::Sheet(_) => None,
        };
        let (part, text) = match told {
            Some(told) => (told.part(), told.text()),
            None => (None, alone(refused, row)),
        };
        Some(Explained { term, refused, part, text })
    }
}

/// The text of a refusal of which nothing else is told.
fn alone(refused: Refused, row: Row) -> String {
    let words = match refused {
        Refused::Row(cause) => cause.meaning().to_owned(),
        Refused::Sheet(refusal) => format!("no sheet can say the term: {}", refusal.meaning()),
    };
    let column = if row == Row::Inferred { ", inferred" } else { "" };
    format!("{words} (!{}{column})", refused.number())
}

/// The most levels below a term that are put on a sheet for its text.
const LEVELS: usize = 2;

/// How many terms with parts are put on a sheet for a text. The text of a term on a sheet has as many and as many levels, so it has them all.
const MOST: usize = 12;

/// What is told of a term that is refused in a row for its own sake, with this cause; nothing if no small sheet says so. A fuller sheet must
/// tell of the same part and the same sort, which it does unless something else than the library judged the terms below.
fn told(stores: &Stores, term: u32, row: Row, cause: Cause) -> Option<Told> {
    let over = |levels: usize, first: Option<usize>| Excerpt::new(stores, row).told(term, levels, first, cause);
    let found = (0..=LEVELS).find_map(|levels| over(levels, None))?;
    let same = |told: &Told| told.part() == found.part() && told.sort() == found.sort();
    let fuller = (1..=LEVELS).rev().find_map(|levels| over(levels, found.at).filter(same));
    Some(fuller.unwrap_or(found))
}

/// What a small sheet tells of the last of its terms.
struct Told {
    explanation: Explanation,
    /// The place of the part that is concerned among those of the term, if one is.
    at: Option<usize>,
    /// The strings of the sheet's names.
    names: Names,
}

impl Told {
    /// The part that is concerned.
    fn part(&self) -> Option<(Role, usize)> {
        self.explanation.argument.map(|argument| (argument.role, argument.position))
    }

    /// The text of the sort that came, if one did.
    fn sort(&self) -> Option<String> {
        match &self.explanation.found {
            Some(Found::Sort(sort)) => Some(sort.with_names(&self.names).to_string()),
            _ => None,
        }
    }

    /// The text of one line.
    fn text(&self) -> String {
        self.explanation.unnumbered(&self.names).to_string()
    }
}

/// A small sheet in the making, for one row of one term.
struct Excerpt<'a> {
    stores: &'a Stores,
    row: Row,
    sheet: Sheet,
    /// How many more terms with parts may be put.
    left: usize,
}

impl<'a> Excerpt<'a> {
    /// A sheet without a record.
    fn new(stores: &'a Stores, row: Row) -> Self {
        let mut sheet = Sheet::default();
        sheet.start();
        Excerpt { stores, row, sheet, left: MOST }
    }

    /// Puts a term over so many levels, the part at this place before the others, and judges it. What is told of it; nothing if it has
    /// no room or the library says another cause.
    fn told(mut self, term: u32, levels: usize, first: Option<usize>, cause: Cause) -> Option<Told> {
        let records = self.term(term, levels, first).ok()?;
        let mut bytes = Vec::new();
        self.sheet.write(&mut bytes);
        let judged = judge(&bytes).ok()?;
        let own = judged.term(self.sheet.terms() - 1)?;
        let explanation = match self.row {
            Row::Inferred => judged.explain_inferred(own),
            Row::Checked => judged.explain(own),
        };
        let explanation = explanation.ok()?.filter(|told| told.term == own && told.cause == cause)?;
        let part = explanation.argument.and_then(|argument| argument.term);
        let at = part.and_then(|part| records.iter().position(|record| *record == part.number()));
        Some(Told { explanation, at, names: self.names() })
    }

    /// Puts a term over so many levels, the part at this place before the others; the records of its parts, in the order of a sheet.
    fn term(&mut self, term: u32, levels: usize, first: Option<usize>) -> Result<Vec<u16>, Stop> {
        let words = self.stores.terms.get(term);
        let below: Vec<u32> = sheet_parts(words).collect();
        let mut records = vec![NONE; below.len()];
        self.left -= 1;
        for at in first.into_iter().chain(0..below.len()) {
            if records[at] == NONE {
                records[at] = self.part(below[at], levels)?;
            }
        }
        self.sheet.term(&self.stores.sorts, words, &records)?;
        Ok(records)
    }

    /// Puts a part over so many levels; its record, which it shares with no other. What lies deeper, what is one too many, and an integer that
    /// no sheet can hold are variables of their sorts.
    fn part(&mut self, term: u32, levels: usize) -> Result<u16, Stop> {
        let words = self.stores.terms.get(term);
        let has_parts = parts(words).next().is_some();
        let is_left_out = has_parts && (levels == 0 || self.left == 0);
        if is_left_out || kind_of(words) == kind::LARGE_INTEGER {
            let sort = self.stores.rows[term as usize][self.row as usize].as_sort();
            let sort = sort.expect("no part is refused of what is refused for its own sake, nor of what has a sort");
            return self.sheet.term(&self.stores.sorts, &[kind::VAR, STAND_IN, sort], &[]);
        }
        self.left -= usize::from(has_parts);
        let records = sheet_parts(words).map(|part| self.part(part, levels - 1)).collect::<Result<Vec<_>, _>>()?;
        self.sheet.term(&self.stores.sorts, words, &records)
    }

    /// The strings of the sheet's names, dots for that of the variables.
    fn names(&self) -> Names {
        let mut names = Names::new();
        for (number, name) in self.sheet.names().iter().enumerate() {
            let given = match *name {
                STAND_IN => names.name(&self.stores.names.dots()),
                name => names.name(self.stores.names.string(name)),
            };
            assert_eq!(given.ok().map(Name::number).map(usize::from), Some(number), "each name has its own string");
        }
        names
    }
}
