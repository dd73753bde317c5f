//! A sheet in the making: its bytes, the numbers that sorts, names and terms of the batch have on it, and the way back from what does not
//! fit.
//!
//! Whatever ends with a [`Stop`] leaves the sheet with a piece of what was to be put; the caller goes back to a mark.

use crate::names::{STAND_IN, UNKNOWN};
use crate::sorts::{self, Sorts};
use crate::terms::{self, kind};
use napsilo::{MOST_BYTES, MOST_SORTS, MOST_TERMS, Refusal};

/// How much a batch puts on one sheet.
#[derive(Debug, Clone, Copy, PartialEq, Eq)]
pub struct Limits {
    /// The most sorts.
    pub sorts: usize,
    /// The most terms, those counted that stand for terms of other sheets.
    pub terms: usize,
    /// The most bytes.
    pub bytes: usize,
}

impl Limits {
    /// What a sheet can hold.
    pub const SHEET: Limits = Limits { sorts: MOST_SORTS, terms: MOST_TERMS, bytes: MOST_BYTES };
}

/// Why something is not put on the sheet in the making.
#[derive(Debug, Clone, Copy, PartialEq, Eq)]
pub enum Stop {
    /// There would be too many sorts or terms.
    Count,
    /// There would be too many bytes.
    Bytes,
    /// It needs what is not judged yet.
    Later,
}

impl Stop {
    /// The refusal of the sheet that would have it all.
    pub fn refusal(self) -> Refusal {
        match self {
            Stop::Bytes => Refusal::Length,
            Stop::Count | Stop::Later => Refusal::Header,
        }
    }
}

/// The bytes of the header.
const HEADER: usize = 6;

/// Says that there is no record.
pub const NONE: u16 = u16::MAX;

/// Numbers on the sheet by numbers of the batch. What was put for an earlier sheet counts as not there.
#[derive(Debug, Default)]
struct Numbers(Vec<(u32, u32)>);

impl Numbers {
    /// The number on the sheet of this turn.
    fn get(&self, of: u32, turn: u32) -> Option<u32> {
        self.0.get(of as usize).filter(|(put, _)| *put == turn).map(|(_, number)| *number)
    }

    /// Sets a number for the sheet of this turn.
    fn set(&mut self, of: u32, turn: u32, number: u32) {
        let at = of as usize;
        if self.0.len() <= at {
            self.0.resize((at + 1).next_power_of_two(), (0, 0));
        }
        self.0[at] = (turn, number);
    }

    /// Takes a number away.
    fn unset(&mut self, of: u32) {
        self.0[of as usize].0 = 0;
    }
}

/// A sheet in the making.
#[derive(Debug, Default)]
pub struct Sheet {
    /// Which sheet of the batch it is, counted from 1.
    turn: u32,
    /// How much may be put on it.
    limits: Limits,
    /// The records of the sorts and of the terms.
    sort_bytes: Vec<u8>,
    term_bytes: Vec<u8>,
    /// The sorts of the batch, in the order of the sheet.
    sorts: Vec<u32>,
    /// The names of the batch, each at its number on the sheet.
    names: Vec<u32>,
    /// Of each term whether a variable for a term of another sheet stands in it.
    cuts: Vec<bool>,
    /// Where each sort, each name, each term by its two rows, and each sort's variable is.
    sort_at: Numbers,
    name_at: Numbers,
    term_at: Numbers,
    stand_in_at: Numbers,
    /// The terms and the sorts for which the last two have numbers, in the order in which they came.
    term_log: Vec<u32>,
    stand_in_log: Vec<u32>,
    /// Sorts that are to be put; empty between calls.
    left: Vec<(u32, bool)>,
}

/// How much is on a sheet.
#[derive(Debug, Clone, Copy)]
pub struct Mark {
    sort_bytes: usize,
    term_bytes: usize,
    sorts: usize,
    names: usize,
    terms: usize,
    term_log: usize,
    stand_in_log: usize,
}

impl Default for Limits {
    /// What a sheet can hold.
    fn default() -> Self {
        Limits::SHEET
    }
}

impl Sheet {
    /// Starts the next sheet, without a record.
    pub fn start(&mut self) {
        self.turn = self.turn.checked_add(1).expect("under 2^32 sheets");
        self.sort_bytes.clear();
        self.term_bytes.clear();
        self.sorts.clear();
        self.names.clear();
        self.names.push(UNKNOWN);
        self.name_at.set(UNKNOWN, self.turn, 0);
        self.cuts.clear();
        self.term_log.clear();
        self.stand_in_log.clear();
    }

    /// Says how much may be put on it from now on.
    pub fn limit(&mut self, limits: Limits) {
        self.limits = limits;
    }

    /// The sorts of the batch, in the order of the sheet.
    pub fn sorts(&self) -> &[u32] {
        &self.sorts
    }

    /// How many terms it has.
    pub fn terms(&self) -> usize {
        self.cuts.len()
    }

    /// The names of the batch, each at its number on the sheet.
    pub fn names(&self) -> &[u32] {
        &self.names
    }

    /// The name of the batch that has this number on the sheet.
    pub fn name(&self, number: u16) -> u32 {
        self.names[usize::from(number)]
    }

    /// How much is on it.
    pub fn mark(&self) -> Mark {
        Mark {
            sort_bytes: self.sort_bytes.len(),
            term_bytes: self.term_bytes.len(),
            sorts: self.sorts.len(),
            names: self.names.len(),
            terms: self.cuts.len(),
            term_log: self.term_log.len(),
            stand_in_log: self.stand_in_log.len(),
        }
    }

    /// Takes away what came after a mark.
    pub fn back(&mut self, mark: Mark) {
        self.sort_bytes.truncate(mark.sort_bytes);
        self.term_bytes.truncate(mark.term_bytes);
        self.cuts.truncate(mark.terms);
        self.sorts.drain(mark.sorts..).for_each(|sort| self.sort_at.unset(sort));
        self.names.drain(mark.names..).for_each(|name| self.name_at.unset(name));
        self.term_log.drain(mark.term_log..).for_each(|term| self.term_at.unset(term));
        self.stand_in_log.drain(mark.stand_in_log..).for_each(|sort| self.stand_in_at.unset(sort));
    }

    /// Writes the whole sheet.
    pub fn write(&self, bytes: &mut Vec<u8>) {
        bytes.clear();
        for count in [self.sorts.len(), self.cuts.len(), 0] {
            bytes.extend((count as u16).to_le_bytes());
        }
        bytes.extend_from_slice(&self.sort_bytes);
        bytes.extend_from_slice(&self.term_bytes);
    }

    /// The records of a term for its inferred and its checked row.
    pub fn records(&self, term: u32) -> [u16; 2] {
        let both = self.term_at.get(term, self.turn).unwrap_or(u32::MAX);
        [both as u16, (both >> 16) as u16]
    }

    /// Sets the records of a term that has none.
    pub fn set_records(&mut self, term: u32, [inferred, checked]: [u16; 2]) {
        self.term_at.set(term, self.turn, u32::from(checked) << 16 | u32::from(inferred));
        self.term_log.push(term);
    }

    /// Whether a variable for a term of another sheet stands in a record.
    pub fn is_cut(&self, record: u16) -> bool {
        self.cuts[usize::from(record)]
    }

    /// The number of a name.
    fn name_number(&mut self, name: u32) -> u16 {
        let number = match self.name_at.get(name, self.turn) {
            Some(number) => number,
            None => {
                let next = self.names.len() as u32;
                self.names.push(name);
                self.name_at.set(name, self.turn, next);
                next
            }
        };
        u16::try_from(number).expect("each name takes two of at most 65,536 bytes")
    }

    /// Puts a sort with all its parts on the sheet, if it is not there; its number.
    pub fn sort(&mut self, sorts: &Sorts, sort: u32) -> Result<u16, Stop> {
        let mut left = std::mem::take(&mut self.left);
        left.clear();
        left.push((sort, false));
        let mut put = Ok(());
        while let Some((sort, parts_are_there)) = left.pop() {
            if self.sort_at.get(sort, self.turn).is_some() {
                continue;
            }
            let parts = sorts.get(sort).parts;
            if !parts_are_there && !parts.is_empty() {
                left.push((sort, true));
                left.extend(parts.iter().rev().map(|part| (*part, false)));
                continue;
            }
            put = self.sort_record(sorts, sort);
            if put.is_err() {
                break;
            }
        }
        self.left = left;
        put.map(|()| self.sort_at.get(sort, self.turn).expect("it was put") as u16)
    }

    /// Puts the record of a sort whose parts are there.
    fn sort_record(&mut self, sorts: &Sorts, sort: u32) -> Result<(), Stop> {
        if self.sorts.len() >= self.limits.sorts {
            return Err(Stop::Count);
        }
        let made = sorts.get(sort);
        let map = SORT_MAPS[made.kind as usize];
        self.sort_bytes.extend([map, made.kind as u8]);
        if let Some(name) = made.name {
            let number = self.name_number(name);
            self.sort_bytes.extend(number.to_le_bytes());
        }
        if made.kind == sorts::kind::BIT_VEC {
            self.sort_bytes.extend((made.width as u32).to_le_bytes());
        }
        if map & 16 != 0 {
            self.sort_bytes.push(made.parts.len() as u8);
            for part in made.parts {
                let number = self.sort_at.get(*part, self.turn).expect("parts are put first") as u16;
                self.sort_bytes.extend(number.to_le_bytes());
            }
        }
        if made.kind == sorts::kind::PAR {
            self.sort_bytes.push(made.parameters.len() as u8);
            for name in made.parameters {
                let number = self.name_number(*name);
                self.sort_bytes.extend(number.to_le_bytes());
            }
        }
        if self.length() > self.limits.bytes {
            return Err(Stop::Bytes);
        }
        self.sort_at.set(sort, self.turn, self.sorts.len() as u32);
        self.sorts.push(sort);
        Ok(())
    }

    /// The length of the sheet in bytes.
    fn length(&self) -> usize {
        HEADER + self.sort_bytes.len() + self.term_bytes.len()
    }

    /// Puts the variable of a sort that stands for terms of other sheets, if it is not there; its record.
    pub fn stand_in(&mut self, sorts: &Sorts, sort: u32) -> Result<u16, Stop> {
        if let Some(record) = self.stand_in_at.get(sort, self.turn) {
            return Ok(record as u16);
        }
        let record = self.term(sorts, &[kind::VAR, STAND_IN, sort], &[])?;
        self.cuts[usize::from(record)] = true;
        self.stand_in_at.set(sort, self.turn, u32::from(record));
        self.stand_in_log.push(sort);
        Ok(record)
    }

    /// Puts the record of a term over the records of its parts, which come in the order of the sheet; its number.
    pub fn term(&mut self, sorts: &Sorts, words: &[u32], parts: &[u16]) -> Result<u16, Stop> {
        if self.cuts.len() >= self.limits.terms {
            return Err(Stop::Count);
        }
        let kind = terms::kind_of(words);
        self.term_bytes.extend([TERM_MAPS[kind as usize], kind as u8]);
        self.fields(sorts, words, parts)?;
        if self.length() > self.limits.bytes {
            return Err(Stop::Bytes);
        }
        self.cuts.push(parts.iter().any(|part| self.cuts[usize::from(*part)]));
        Ok(self.cuts.len() as u16 - 1)
    }

    /// Adds the fields of a term's record.
    fn fields(&mut self, sorts: &Sorts, words: &[u32], parts: &[u16]) -> Result<(), Stop> {
        match terms::kind_of(words) {
            kind::INTEGER | kind::BIT_VEC => self.long(words[1]),
            kind::VAR => {
                self.name_field(words[1]);
                self.sort_field(sorts, words[2])?;
            }
            kind::APP | kind::MATCH => self.list(parts),
            kind::OP => {
                self.long(terms::operator_of(words));
                self.list(parts);
            }
            kind::BINDER => {
                self.long(terms::operator_of(words));
                self.list(parts);
                self.bindings(sorts, terms::bindings(words))?;
            }
            kind::LET => {
                self.list(parts);
                self.term_bytes.push(terms::bindings(words).len() as u8);
                terms::bindings(words).iter().for_each(|[name, _]| self.name_field(*name));
            }
            kind::PARAM_OP => {
                let (arguments, indices) = parts.split_at(words[1] as usize);
                self.long(terms::operator_of(words));
                self.list(arguments);
                self.list(indices);
            }
            kind::AS_OP => {
                self.long(terms::operator_of(words));
                self.sort_field(sorts, words[1])?;
                self.list(parts);
            }
            _ => (),
        }
        Ok(())
    }

    /// Adds a number to the term's record.
    fn long(&mut self, number: u32) {
        self.term_bytes.extend(number.to_le_bytes());
    }

    /// Adds a name to the term's record.
    fn name_field(&mut self, name: u32) {
        let number = self.name_number(name);
        self.term_bytes.extend(number.to_le_bytes());
    }

    /// Adds a sort to the term's record.
    fn sort_field(&mut self, sorts: &Sorts, sort: u32) -> Result<(), Stop> {
        let number = self.sort(sorts, sort)?;
        self.term_bytes.extend(number.to_le_bytes());
        Ok(())
    }

    /// Adds a list of terms to the term's record.
    fn list(&mut self, parts: &[u16]) {
        self.term_bytes.push(parts.len() as u8);
        parts.iter().for_each(|part| self.term_bytes.extend(part.to_le_bytes()));
    }

    /// Adds the bindings of a Binder to its record.
    fn bindings(&mut self, sorts: &Sorts, bindings: &[[u32; 2]]) -> Result<(), Stop> {
        self.term_bytes.push(bindings.len() as u8);
        for [name, sort] in bindings {
            self.name_field(*name);
            self.sort_field(sorts, *sort)?;
        }
        Ok(())
    }
}

/// The bit maps of the sort records, by kind.
const SORT_MAPS: [u8; 16] = [17, 19, 3, 1, 1, 1, 1, 1, 17, 5, 1, 19, 81, 1, 17, 17];

/// The bit maps of the term records, by kind.
const TERM_MAPS: [u8; 13] = [5, 1, 1, 1, 5, 11, 17, 21, 53, 81, 17, 85, 29];
