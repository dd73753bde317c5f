//! Judging what is open in a batch, sheet by sheet.

use crate::batch::Stores;
use crate::put::{Put, Putter, Replace};
use crate::scope::Free;
use crate::sheet::{Limits, NONE, Sheet, Stop};
use crate::sorts::{self, kind};
use crate::terms::parts;
use crate::verdict::{CHECKED, Word};
use napsilo::{Cause, Lent, Refusal, judge_into};
use std::collections::VecDeque;

/// What judges a sheet into lent buffers: `judge_into` of [`napsilo`] without questions.
pub trait Judge {
    /// Judges a sheet; see [`judge_into`].
    fn judge(&mut self, sheet: &[u8], records: &mut [u8], places: &mut [u32], rows: &mut [u32]) -> Result<(), Refusal>;
}

/// The proved library.
#[derive(Debug, Clone, Copy, Default)]
pub struct Library;

impl Judge for Library {
    fn judge(&mut self, sheet: &[u8], records: &mut [u8], places: &mut [u32], rows: &mut [u32]) -> Result<(), Refusal> {
        judge_into(sheet, records, places, rows, &mut [])
    }
}

/// A term of which rows are asked on the sheet in the making.
struct Asked {
    term: u32,
    put: Put,
}

/// Judges what is open.
pub struct Run<'a, J> {
    stores: &'a mut Stores,
    judge: &'a mut J,
    /// How much is put on a sheet that has more than one term to ask.
    limits: Limits,
    /// The most terms to ask on the sheet in the making: half of the last one's, if less than half of those could be settled for want of room.
    most: usize,
    sheet: Sheet,
    asked: Vec<Asked>,
    /// The terms that come next, before all others.
    queue: VecDeque<u32>,
    /// The free variables that were asked for.
    free: Free,
    /// Lists for the parts of a term.
    parts: [Vec<u16>; 2],
    /// The bytes of the sheet, and what is lent.
    bytes: Vec<u8>,
    records: Vec<u8>,
    places: Vec<u32>,
    rows: Vec<u32>,
    /// The sorts of the library's store that were read, by their numbers in the batch.
    store: Vec<u32>,
    /// How many sheets were judged.
    pub sheets: u64,
}

impl<'a, J: Judge> Run<'a, J> {
    /// Judges by `judge`, with at most so much on a sheet; a single term may take as much as a sheet can hold.
    pub fn new(stores: &'a mut Stores, judge: &'a mut J, limits: Limits) -> Self {
        let lent = Lent::PROGRAM;
        let limits = Limits {
            sorts: limits.sorts.min(Limits::SHEET.sorts),
            terms: limits.terms.min(Limits::SHEET.terms),
            bytes: limits.bytes.min(Limits::SHEET.bytes),
        };
        let mut run = Run {
            stores,
            judge,
            limits,
            most: usize::MAX,
            sheet: Sheet::default(),
            asked: Vec::new(),
            queue: VecDeque::new(),
            free: Free::default(),
            parts: Default::default(),
            bytes: Vec::new(),
            records: vec![0; lent.records],
            places: vec![0; lent.places],
            rows: vec![0; lent.rows],
            store: Vec::new(),
            sheets: 0,
        };
        run.sheet.start();
        run
    }

    /// Judges all terms from this one on.
    pub fn all(&mut self, from: u32) {
        let mut next = from..self.stores.terms.len() as u32;
        loop {
            if let Some(term) = self.queue.pop_front().or_else(|| next.next()) {
                self.place(term);
            } else if self.asked.is_empty() {
                return;
            } else {
                self.settle();
            }
        }
    }

    /// Puts a term on the sheet in the making, or settles what can be said without a sheet. If it does not fit, the sheet is judged and the term
    /// comes again, after what must be judged again before it.
    fn place(&mut self, term: u32) {
        if self.below_refused(term) {
            return;
        }
        if self.asked.is_empty() {
            return self.place_alone(term);
        }
        let open = self.stores.rows[term as usize].map(|word| word.is_open());
        let room = self.asked.len() < self.most;
        if !room || self.ask(term, open, self.limits, Replace::All).is_err() {
            self.queue.push_front(term);
            self.settle();
        }
    }

    /// Puts a term on a sheet that asks nothing else: both rows if they are open, else each by itself. A row that fits no sheet is refused.
    fn place_alone(&mut self, term: u32) {
        let open = self.stores.rows[term as usize].map(|word| word.is_open());
        if self.ask_alone(term, open).is_ok() {
            return;
        }
        for row in (0..2).filter(|row| open[*row]) {
            match self.ask_alone(term, [row == 0, row == CHECKED]) {
                Ok(()) => {
                    self.queue.push_front(term);
                    return self.settle();
                }
                Err(stop) => self.stores.rows[term as usize][row] = Word::refused(stop.refusal().number()),
            }
        }
    }

    /// Asks for rows of a term on a sheet that asks nothing else, with fewer and fewer parts replaced until it fits; why it does not at first, if
    /// it never does.
    fn ask_alone(&mut self, term: u32, rows: [bool; 2]) -> Result<(), Stop> {
        let first = self.ask(term, rows, Limits::SHEET, Replace::All);
        let other = || [Replace::Fitting, Replace::Nothing].into_iter();
        match first.is_ok() || other().any(|replace| self.ask(term, rows, Limits::SHEET, replace).is_ok()) {
            true => Ok(()),
            false => first,
        }
    }

    /// Puts a term on the sheet and asks for rows of it that are open; the sheet is as it was if it does not fit.
    fn ask(&mut self, term: u32, rows: [bool; 2], limits: Limits, replace: Replace) -> Result<(), Stop> {
        let mark = self.sheet.mark();
        let alone = self.asked.is_empty();
        self.sheet.limit(limits);
        let mut putter = Putter::new(self.stores, &mut self.sheet, &mut self.free, replace);
        match putter.put(term, rows, alone, &mut self.parts) {
            Ok(put) => {
                self.sheet.set_records(term, put.records);
                self.asked.push(Asked { term, put });
                Ok(())
            }
            Err(stop) => {
                self.sheet.back(mark);
                Err(stop)
            }
        }
    }

    /// Refuses the open rows of a term in which one of its parts is known to be refused (20). Whether no row is left.
    fn below_refused(&mut self, term: u32) -> bool {
        for row in 0..2 {
            if self.stores.rows[term as usize][row].is_open() && self.refused_part(term, row) {
                self.stores.rows[term as usize][row] = Word::refused(Cause::Below.number());
            }
        }
        self.stores.rows[term as usize].iter().all(|word| !word.is_open())
    }

    /// Whether a part of a term is known to be refused in a row.
    fn refused_part(&self, term: u32, row: usize) -> bool {
        parts(self.stores.terms.get(term)).any(|part| self.stores.rows[*part as usize][row].is_refused())
    }

    /// Judges the sheet in the making, takes what it says and starts the next one. What could not be said for want of room comes first in
    /// the queue.
    fn settle(&mut self) {
        self.sheet.write(&mut self.bytes);
        let rows = &mut self.rows[..2 * self.sheet.terms()];
        let judged = self.judge.judge(&self.bytes, &mut self.records, &mut self.places, rows);
        self.sheets += 1;
        self.store.clear();
        self.store.extend_from_slice(self.sheet.sorts());
        let asked = std::mem::take(&mut self.asked);
        let mut settled = 0;
        let mut again = Vec::new();
        for asked in &asked {
            let [inferred, checked] = [0, CHECKED].map(|row| judged.is_ok() && self.take(asked, row));
            settled += usize::from(inferred || checked);
            if self.stores.rows[asked.term as usize].iter().any(|word| word.is_open()) {
                again.push(asked.term);
            }
        }
        match asked.as_slice() {
            [only] if settled == 0 => {
                // It was alone, so no other sheet has more room for it.
                let number = judged.map_or_else(Refusal::number, |()| Cause::Full.number());
                for row in (0..2).filter(|row| only.put.records[*row] != NONE) {
                    self.stores.rows[only.term as usize][row] = Word::refused(number);
                }
                again.clear();
            }
            _ => (),
        }
        self.most = if 2 * settled < asked.len() { (asked.len() / 2).max(1) } else { usize::MAX };
        again.into_iter().rev().for_each(|term| self.queue.push_front(term));
        self.asked = asked;
        self.asked.clear();
        self.sheet.start();
    }

    /// Takes what a judged sheet says of a term in a row, if the row was asked and the sheet says what the row is; whether it does.
    ///
    /// It does not where a term had no room, this one or one below, or where a value turned out to have another sort than was assumed.
    fn take(&mut self, asked: &Asked, row: usize) -> bool {
        let Put { records, assumed } = &asked.put;
        if records[row] == NONE {
            return false;
        }
        let said = self.rows[2 * usize::from(records[row]) + row];
        let number = said >> 16;
        let sort_of = |value: u32| self.stores.rows[value as usize][CHECKED];
        let differs = |(value, sort): &(u32, u32)| sort_of(*value).as_sort().is_some_and(|other| other != *sort);
        let stands = match self.refused_part(asked.term, row) {
            true => number == Cause::Below.number(),
            false => {
                let settled = |part: &u32| !self.stores.rows[*part as usize][row].is_open();
                ![Cause::Below.number(), Cause::Full.number()].contains(&number)
                    && parts(self.stores.terms.get(asked.term)).all(settled)
                    && (row != CHECKED || !assumed.iter().any(differs))
            }
        };
        if !stands {
            return false;
        }
        let word = match number {
            0 => Word::sort(self.stored(said as usize)),
            number => Word::refused(number),
        };
        self.stores.rows[asked.term as usize][row] = word;
        true
    }

    /// The sort of the batch that has this number in the library's store. The sheet's sorts come first there, in their order.
    fn stored(&mut self, number: usize) -> u32 {
        while self.store.len() <= number {
            let sort = self.read(self.places[self.store.len()] as usize);
            self.store.push(sort);
        }
        self.store[number]
    }

    /// The sort of the batch for a record of the library's store, whose parts were read.
    fn read(&mut self, place: usize) -> u32 {
        let bytes = &self.records[place..];
        let short = |at: usize| u16::from_le_bytes([bytes[at], bytes[at + 1]]);
        let list = |at: usize| (0..usize::from(bytes[at])).map(move |entry| short(at + 1 + 2 * entry));
        let part = |number: u16| self.store[usize::from(number)];
        let sort_kind = u32::from(bytes[1]);
        let mut words = vec![sort_kind];
        match sort_kind {
            kind::VAR => words.push(self.sheet.name(short(2))),
            kind::ATOM | kind::DATATYPE => {
                words.push(self.sheet.name(short(2)));
                words.extend(list(4).map(part));
            }
            kind::BIT_VEC => words.extend([u32::from(short(4)) << 16 | u32::from(short(2)), 0]),
            kind::PAR => {
                words.push(part(short(3)));
                words.extend(list(5).map(|name| self.sheet.name(name)));
            }
            _ if sorts::has_parts_alone(sort_kind) => words.extend(list(2).map(part)),
            _ => (),
        }
        self.stores.sorts.add(&words)
    }
}
