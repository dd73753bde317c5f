//! A batch: any number of sorts and terms, and what is said of them.

use crate::names::Names;
use crate::node::{BatchName, BatchSort, BatchTerm, SortNode, TermNode};
use crate::records::Records;
use crate::run::{Judge, Library, Run};
use crate::scope::VarSorts;
use crate::sheet::Limits;
use crate::sorts::{self, Sorts};
use crate::terms::{self, Terms};
use crate::text::Text;
use crate::verdict::{Refused, Row, Word};
use std::fmt;
use std::sync::atomic::{AtomicU32, Ordering};

/// The sorts and terms of a batch, and what is known of them.
#[derive(Debug, Clone)]
pub struct Stores {
    pub names: Names,
    pub sorts: Sorts,
    pub terms: Terms,
    /// The rows of each term, the inferred one first.
    pub rows: Vec<[Word; 2]>,
    pub vars: VarSorts,
}

/// Any number of sorts and terms, each distinct one once, which are judged on as many sheets as it takes.
///
/// A name, a sort or a term of one batch is none of another's: every function here panics that gets such a one.
#[derive(Debug)]
pub struct Batch {
    /// What the names, sorts and terms of this batch have and no other's.
    mark: u32,
    pub(crate) stores: Stores,
    /// How many terms are judged.
    judged: u32,
    /// How many sheets were judged.
    sheets: u64,
    /// The words of a record in the making.
    words: Vec<u32>,
}

/// What is said of the terms of a batch.
#[derive(Debug, Clone, Copy)]
pub struct Verdicts<'a> {
    batch: &'a Batch,
}

/// What is said of a term in a row: its sort, or why there is none.
pub type Verdict = Result<BatchSort, Refused>;

impl Default for Batch {
    fn default() -> Self {
        Batch::new()
    }
}

impl Batch {
    /// A batch without sorts and terms.
    ///
    /// # Panics
    /// If there were 2^32 batches.
    pub fn new() -> Self {
        static MARKS: AtomicU32 = AtomicU32::new(0);
        let mark = MARKS.fetch_add(1, Ordering::Relaxed).checked_add(1).expect("under 2^32 batches");
        let mut sorts = Sorts::new();
        assert_eq!(sorts.add(&[sorts::kind::INT]), INT);
        let stores =
            Stores { names: Names::new(), sorts, terms: Records::new(), rows: Vec::new(), vars: VarSorts::default() };
        Batch { mark, stores, judged: 0, sheets: 0, words: Vec::new() }
    }

    /// The name of a string. `?` is the name of the sort variable that carcara makes up for an empty `rare-list`.
    pub fn name(&mut self, string: &str) -> BatchName {
        BatchName { number: self.stores.names.number(string), mark: self.mark }
    }

    /// The string of a name.
    pub fn string(&self, name: BatchName) -> &str {
        self.stores.names.string(name.own(self.mark))
    }

    /// Adds a sort, unless it is there.
    ///
    /// Every sort is taken. One that no sheet can hold is told with the terms that have it ([`Refused::Sheet`]).
    pub fn sort(&mut self, sort: &SortNode) -> BatchSort {
        self.words.clear();
        sort.write(self.mark, &mut self.words);
        BatchSort { number: self.stores.sorts.add(&self.words), mark: self.mark }
    }

    /// What a sort is made of.
    pub fn sort_node(&self, sort: BatchSort) -> SortNode {
        SortNode::read(&self.stores.sorts.get(sort.own(self.mark)), self.mark)
    }

    /// The text of a sort, as the program prints it but with the strings of its names.
    pub fn text(&self, sort: BatchSort) -> impl fmt::Display + '_ {
        Text { names: &self.stores.names, sorts: &self.stores.sorts, sort: sort.own(self.mark) }
    }

    /// Adds a term, unless it is there.
    ///
    /// Every term is taken. One that no sheet can say is told when it is judged ([`Refused::Sheet`]).
    pub fn term(&mut self, term: TermNode<'_>) -> BatchTerm {
        self.words.clear();
        term.write(self.mark, &mut self.words);
        let (number, new) = self.stores.terms.add(&self.words);
        if new {
            self.note();
        }
        BatchTerm { number, mark: self.mark }
    }

    /// Notes what is known from the start of the term whose words were added last.
    fn note(&mut self) {
        let words = &self.words;
        let known = match terms::kind_of(words) {
            terms::kind::LARGE_INTEGER => Word::sort(INT),
            _ => match terms::fault(words, &self.stores.terms, &self.stores.sorts) {
                0 => Word::OPEN,
                fault => Word::refused(u32::from(fault)),
            },
        };
        if let [terms::kind::VAR, name, sort] = words[..] {
            self.stores.vars.note(name, sort);
        }
        self.stores.rows.push([known; 2]);
    }

    /// How many distinct terms there are.
    pub fn terms(&self) -> usize {
        self.stores.terms.len()
    }

    /// How many distinct sorts there are, those counted that terms turned out to have, and Int.
    pub fn sorts(&self) -> usize {
        self.stores.sorts.len()
    }

    /// How many sheets were judged so far.
    pub fn sheets(&self) -> u64 {
        self.sheets
    }

    /// The terms that a term is made of: head, arguments, body, values and inner term, subject and bodies, indices; of a Let the inner term
    /// first, of a ParamOp the arguments first.
    pub fn parts(&self, term: BatchTerm) -> impl Iterator<Item = BatchTerm> + '_ {
        let words = self.stores.terms.get(term.own(self.mark));
        terms::parts(words).map(|number| BatchTerm { number: *number, mark: self.mark })
    }

    /// Judges all terms that were added since the last time. What was said before stays.
    ///
    /// The library runs on the stack of the caller, of which [`napsilo::STACK`] bytes must be left.
    pub fn judge(&mut self) -> Verdicts<'_> {
        self.judge_by(&mut Library, Limits::SHEET)
    }

    /// The same by something else than the library, and with less on a sheet: a sheet that has more than one term to ask keeps to `limits`.
    ///
    /// # Panics
    /// If what judges writes no rows or no store as the library does.
    pub fn judge_by(&mut self, judge: &mut impl Judge, limits: Limits) -> Verdicts<'_> {
        let mut run = Run::new(&mut self.stores, judge, limits);
        run.all(self.judged);
        self.sheets += run.sheets;
        self.judged = self.stores.terms.len() as u32;
        Verdicts { batch: self }
    }
}

/// The number of the sort Int, which every batch has.
const INT: u32 = 0;

impl<'a> Verdicts<'a> {
    /// The inferred sort of a term: what carcara's `Pool::compute_sort` gives.
    pub fn inferred(&self, term: BatchTerm) -> Verdict {
        self.verdict(term, Row::Inferred)
    }

    /// The checked sort of a term: what the ranks of SMT-LIB give.
    pub fn checked(&self, term: BatchTerm) -> Verdict {
        self.verdict(term, Row::Checked)
    }

    /// What is said of a term in a row.
    pub fn verdict(&self, term: BatchTerm, row: Row) -> Verdict {
        let word = self.batch.stores.rows[term.own(self.batch.mark) as usize][row as usize];
        let verdict = word.verdict().expect("every term is judged");
        verdict.map(|number| BatchSort { number, mark: self.batch.mark })
    }

    /// Where a refusal of a term in a row comes from: a term at or below it that is refused there, and none of whose parts is. At each step the
    /// first refused part in the order of a sheet is gone into, where the inner term of a Let is the last. Nothing if the term is not refused.
    pub fn source(&self, term: BatchTerm, row: Row) -> Option<BatchTerm> {
        self.verdict(term, row).err()?;
        let stores = &self.batch.stores;
        let mut source = term.number;
        let refused = |part: &u32| stores.rows[*part as usize][row as usize].is_refused();
        while let Some(below) = terms::sheet_parts(stores.terms.get(source)).find(refused) {
            source = below;
        }
        Some(BatchTerm { number: source, mark: self.batch.mark })
    }

    /// The terms of the batch, in the order in which they were added; each comes after those that it is made of.
    pub fn terms(&self) -> impl Iterator<Item = BatchTerm> + use<> {
        let mark = self.batch.mark;
        (0..self.batch.judged).map(move |number| BatchTerm { number, mark })
    }

    /// The batch.
    pub fn batch(&self) -> &'a Batch {
        self.batch
    }
}
