//! Putting terms on a sheet: a part that was judged on an earlier sheet as a variable of its sort.
//!
//! What may be replaced is what the law of variable abstraction asks for (`Abstracts` of crates/abstraction, with `abstraction-checked` and
//! `abstraction-inferred`), for each row by itself:
//!
//! - a part is replaced in a row only if it has a sort in that row, by a variable of that sort (`has`). Where the two sorts differ, or one
//!   is refused, the term over it gets a record for each row;
//! - integer constants are looked at among the indices of a ParamOp (`readsIndices`) and, in the inferred row, among the arguments of
//!   BvConst (`readsArguments`). They are never replaced here, and neither is any other constant or a variable: their records are put
//!   again. So the head of an App keeps its Par, and the constants that a verdict looks at are the same;
//! - the variable has a name that no string has, so nothing binds it;
//! - under a Binder or Let no part is replaced in which a variable is free that has another sort than is bound ([`crate::scope`]).

use crate::batch::Stores;
use crate::scope::{Assumed, Bound, Free, Under};
use crate::sheet::{NONE, Sheet, Stop};
use crate::terms::{is_leaf, kind, kind_of, parts, sheet_parts};
use crate::verdict::CHECKED;
use napsilo::MOST_TERMS;
use std::collections::HashMap;

/// Which parts that were judged before are replaced.
#[derive(Debug, Clone, Copy, PartialEq, Eq)]
pub enum Replace {
    /// All.
    All,
    /// Those whose sorts fit the sheet.
    Fitting,
    /// None.
    Nothing,
}

/// What was put on a sheet for a term.
pub struct Put {
    /// The records of the inferred and of the checked row; [`NONE`] of a row that is not wanted.
    pub records: [u16; 2],
    /// What must turn out of values on the same sheet for the checked row to be the term's: if they have a sort there, it is this one.
    pub assumed: Vec<Assumed>,
}

/// What puts one term on a sheet.
pub struct Putter<'a> {
    /// The sorts and terms, and what is known of them.
    stores: &'a Stores,
    /// The sheet in the making.
    sheet: &'a mut Sheet,
    /// The free variables that were asked for.
    free: &'a mut Free,
    /// Which parts are replaced.
    replace: Replace,
    /// The records of parts that were put again, by term and row.
    again: HashMap<(u32, usize), u16>,
}

impl<'a> Putter<'a> {
    /// What puts one term on a sheet.
    pub fn new(stores: &'a Stores, sheet: &'a mut Sheet, free: &'a mut Free, replace: Replace) -> Self {
        Putter { stores, sheet, free, replace, again: HashMap::new() }
    }

    /// Puts a term for the rows that are wanted, in which no part of it is known to be refused. `alone` says that nothing else is asked on the
    /// sheet, so all below is judged. The two lists are for its parts, whatever they hold.
    pub fn put(&mut self, term: u32, wanted: [bool; 2], alone: bool, parts: &mut [Vec<u16>; 2]) -> Result<Put, Stop> {
        let words = self.stores.terms.get(term);
        for row in [0, CHECKED].into_iter().filter(|row| wanted[*row]) {
            parts[row].clear();
            for part in sheet_parts(words) {
                let record = self.record(part, row)?;
                parts[row].push(record);
            }
        }
        let assumed = match kind_of(words) {
            kind::BINDER | kind::LET if wanted[CHECKED] => self.keep_loose(words, &mut parts[CHECKED], alone)?,
            _ => Vec::new(),
        };
        let mut records = [NONE; 2];
        for row in [0, CHECKED].into_iter().filter(|row| wanted[*row]) {
            let same = row == CHECKED && wanted[0] && parts[0] == parts[CHECKED];
            records[row] = match same {
                true => records[0],
                false => self.sheet.term(&self.stores.sorts, words, &parts[row])?,
            };
        }
        Ok(Put { records, assumed })
    }

    /// The record of a part in a row: the one that it has on the sheet; its own, if it is a constant or a variable; else that of a variable of
    /// its sort. Such a part has a sort in this row, or its row is open and it is on the sheet.
    fn record(&mut self, part: u32, row: usize) -> Result<u16, Stop> {
        let there = self.sheet.records(part)[row];
        if there != NONE {
            return Ok(there);
        }
        let words = self.stores.terms.get(part);
        if is_leaf(words) {
            let record = self.sheet.term(&self.stores.sorts, words, &[])?;
            self.sheet.set_records(part, [record; 2]);
            return Ok(record);
        }
        match self.replace {
            Replace::All => self.stand_in(part, row),
            Replace::Fitting | Replace::Nothing => self.whole(part, row),
        }
    }

    /// The record of the variable of a part's sort in a row.
    fn stand_in(&mut self, part: u32, row: usize) -> Result<u16, Stop> {
        let sort = self.stores.rows[part as usize][row].as_sort().expect("a part that is not on the sheet has a sort");
        self.sheet.stand_in(&self.stores.sorts, sort)
    }

    /// The record of a part that is not replaced if that can be: it is put again over its parts, and so on down to what is replaced.
    fn whole(&mut self, part: u32, row: usize) -> Result<u16, Stop> {
        let mut left = vec![(part, false)];
        let mut depth = 0;
        while let Some((term, parts_are_there)) = left.pop() {
            let words = self.stores.terms.get(term);
            if is_leaf(words) || self.again.contains_key(&(term, row)) {
                continue;
            }
            let record = match parts_are_there {
                false => self.replaced(term, row)?,
                true => {
                    depth -= 1;
                    let records =
                        sheet_parts(words).map(|part| self.there(part, row)).collect::<Result<Vec<_>, _>>()?;
                    Some(self.sheet.term(&self.stores.sorts, words, &records)?)
                }
            };
            if let Some(record) = record {
                self.again.insert((term, row), record);
                continue;
            }
            // Each of these takes a record of its own.
            depth += 1;
            if depth > MOST_TERMS {
                return Err(Stop::Count);
            }
            left.push((term, true));
            left.extend(parts(words).map(|part| (*part, false)));
        }
        self.there(part, row)
    }

    /// The record of a constant or a variable, or of a term that was put again.
    fn there(&mut self, term: u32, row: usize) -> Result<u16, Stop> {
        match self.again.get(&(term, row)) {
            Some(record) => Ok(*record),
            None => self.record(term, row),
        }
    }

    /// The record of the variable that replaces a part, if it must or may be replaced and the variable's sort fits the sheet.
    fn replaced(&mut self, term: u32, row: usize) -> Result<Option<u16>, Stop> {
        if kind_of(self.stores.terms.get(term)) == kind::LARGE_INTEGER {
            return self.stand_in(term, row).map(Some);
        }
        if self.replace == Replace::Nothing {
            return Ok(None);
        }
        let mark = self.sheet.mark();
        Ok(self.stand_in(term, row).inspect_err(|_| self.sheet.back(mark)).ok())
    }

    /// Sees that under a Binder or Let no variable is lost that has another sort than is bound; what must hold for it. `parts` are the records
    /// of its parts, the body last.
    fn keep_loose(&mut self, words: &[u32], parts: &mut [u16], alone: bool) -> Result<Vec<Assumed>, Stop> {
        let [.., last] = parts else { unreachable!("a Binder and a Let have a body") };
        if !self.sheet.is_cut(*last) {
            return Ok(Vec::new());
        }
        let bound = Bound::of(words, &self.stores.rows, &self.stores.vars);
        if let Some(assumed) = bound.assumed(self.free, &self.stores.terms, words[1]) {
            return Ok(assumed);
        }
        if !alone {
            return Err(Stop::Later);
        }
        let loose = bound.loose(self.free, &self.stores.terms, words[1])?;
        *last = self.kept(&bound, &loose)?;
        Ok(Vec::new())
    }

    /// The record of a body whose parts with loose variables are put again, each after those below it; the last is the body. All else is as
    /// elsewhere.
    fn kept(&mut self, bound: &Bound, loose: &[Under]) -> Result<u16, Stop> {
        let mut kept: HashMap<Under, u16> = HashMap::new();
        let mut last = NONE;
        for under in loose {
            let words = self.stores.terms.get(under.0);
            let mut records = Vec::new();
            for part in bound.below(words, under.1) {
                records.push(match kept.get(&part) {
                    Some(record) => *record,
                    None => self.record(part.0, CHECKED)?,
                });
            }
            if kind_of(words) == kind::LET {
                // The inner term comes last on a sheet.
                records.rotate_left(1);
            }
            last = self.sheet.term(&self.stores.sorts, words, &records)?;
            kept.insert(*under, last);
        }
        Ok(last)
    }
}
