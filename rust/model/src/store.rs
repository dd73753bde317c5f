//! The store: each distinct sort once, as records back to back, each with its tree size.

use crate::reader::{SORT_MAPS, field};
use crate::sort::{Sort, Tree};
use std::collections::HashMap;

/// The most sorts that a store holds.
pub const MOST: usize = 4_096;

/// The store.
///
/// A sort's record refers to its parts by their store numbers, and parts are stored first, so two sorts have the same record exactly
/// when they are equal.
#[derive(Debug, Clone)]
pub struct Store {
    /// How many bytes of records are lent.
    bytes: usize,
    /// How many sorts may stand in it: the lent places, and never more than [`MOST`].
    most: usize,
    /// The records so far.
    records: Vec<u8>,
    /// Where each record starts.
    places: Vec<u32>,
    /// The number of each record.
    numbers: HashMap<Vec<u8>, u16>,
}

impl Store {
    /// An empty store with this much room.
    pub fn new(bytes: usize, places: usize) -> Store {
        Store { bytes, most: places.min(MOST), records: Vec::new(), places: Vec::new(), numbers: HashMap::new() }
    }

    /// The bytes of the records.
    pub fn records(&self) -> &[u8] {
        &self.records
    }

    /// The places of the records.
    pub fn places(&self) -> &[u32] {
        &self.places
    }

    /// The store number of a sort within the limits, which is added with all its parts if it is not there. Nothing if there is no room
    /// for all that is new; the store is then as it was.
    pub fn put(&mut self, sort: &Tree) -> Option<u16> {
        let (sorts, bytes) = (self.places.len(), self.records.len());
        let number = self.put_parts_first(sort);
        if number.is_none() {
            self.places.truncate(sorts);
            self.records.truncate(bytes);
            self.numbers.retain(|_, number| usize::from(*number) < sorts);
        }
        number
    }

    /// Adds the parts from left to right, then the sort; nothing as soon as one finds no room.
    fn put_parts_first(&mut self, sort: &Sort) -> Option<u16> {
        let mut parts = Vec::new();
        for part in &sort.parts {
            parts.push(self.put_parts_first(part)?);
        }
        let record = record(sort, &parts);
        if let Some(number) = self.numbers.get(&record) {
            return Some(*number);
        }
        let room = self.places.len() < self.most && self.records.len() + record.len() <= self.bytes;
        if !room {
            return None;
        }
        let number = u16::try_from(self.places.len()).ok()?;
        self.places.push(u32::try_from(self.records.len()).ok()?);
        self.records.extend(&record);
        self.numbers.insert(record, number);
        Some(number)
    }
}

/// The record of a sort whose parts have these store numbers.
fn record(sort: &Sort, parts: &[u16]) -> Vec<u8> {
    let kind = sort.kind as u8;
    let map = SORT_MAPS[usize::from(kind)] | field::SIZE;
    let mut record = vec![map, kind];
    if map & field::NAME != 0 {
        record.extend(sort.name.to_le_bytes());
    }
    if map & field::NUMBER != 0 {
        let width = u32::try_from(sort.width).expect("a width within its limit");
        record.extend(width.to_le_bytes());
    }
    if map & field::LIST != 0 {
        list(&mut record, parts);
    }
    if map & field::SECOND != 0 {
        list(&mut record, &sort.names);
    }
    let size = u16::try_from(sort.size()).expect("a tree size within its limit");
    record.extend(size.to_le_bytes());
    record
}

/// Writes a list field.
fn list(record: &mut Vec<u8>, numbers: &[u16]) {
    record.push(u8::try_from(numbers.len()).expect("a list within its limit"));
    for number in numbers {
        record.extend(number.to_le_bytes());
    }
}
