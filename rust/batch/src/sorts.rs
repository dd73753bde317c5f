//! The sorts of a batch: each distinct one once, with its tree size and with what a sheet would be refused for that holds it.
//!
//! A sort is a record of words: its kind, which is its number on a sheet, and then
//!
//! - the numbers of its parts (Function, Array, Set, Tuple);
//! - its name, then the numbers of its parts (Atom, Datatype), or its name alone (Var);
//! - its width in two words, the low one first (BitVec);
//! - the number of its part, then its parameters (Par);
//! - nothing (all others).

use crate::records::Records;
use napsilo::{GREATEST_WIDTH, LONGEST_LIST, Refusal};

/// The kinds of sorts that have more than parts.
pub mod kind {
    pub const ATOM: u32 = 1;
    pub const VAR: u32 = 2;
    pub const INT: u32 = 4;
    pub const BIT_VEC: u32 = 9;
    pub const DATATYPE: u32 = 11;
    pub const PAR: u32 = 12;
}

/// Whether a sort of this kind has parts and nothing else.
pub fn has_parts_alone(kind: u32) -> bool {
    matches!(kind, 0 | 8 | 14 | 15)
}

/// The greatest tree size of a sort on a sheet.
const GREATEST_TREE: u32 = 4_096;

/// The sorts of a batch.
#[derive(Debug, Clone)]
pub struct Sorts {
    records: Records,
    /// The tree size of each sort; what is greater than a number can be is the greatest number.
    sizes: Vec<u32>,
    /// The number of the refusal of every sheet that holds the sort; 0 if there is no such.
    faults: Vec<u8>,
}

/// What a sort is made of, by its words.
pub struct Made<'a> {
    /// The kind.
    pub kind: u32,
    /// The name of an Atom, a Var or a Datatype.
    pub name: Option<u32>,
    /// The width of a BitVec, else 0.
    pub width: u64,
    /// The numbers of the parts.
    pub parts: &'a [u32],
    /// The parameters of a Par, else none.
    pub parameters: &'a [u32],
}

/// What the sort with these words is made of.
pub fn made(words: &[u32]) -> Made<'_> {
    let kind = words[0];
    let mut made = Made { kind, name: None, width: 0, parts: &[], parameters: &[] };
    match kind {
        kind::ATOM | kind::VAR | kind::DATATYPE => {
            made.name = Some(words[1]);
            made.parts = &words[2..];
        }
        kind::BIT_VEC => made.width = u64::from(words[2]) << 32 | u64::from(words[1]),
        kind::PAR => {
            made.parts = &words[1..2];
            made.parameters = &words[2..];
        }
        _ => made.parts = &words[1..],
    }
    made
}

impl Sorts {
    /// No sorts.
    pub fn new() -> Self {
        Sorts { records: Records::new(), sizes: Vec::new(), faults: Vec::new() }
    }

    /// How many there are.
    pub fn len(&self) -> usize {
        self.records.len()
    }

    /// What a sort is made of.
    pub fn get(&self, sort: u32) -> Made<'_> {
        made(self.records.get(sort))
    }

    /// The number of the refusal of every sheet that holds the sort; 0 if there is no such.
    pub fn fault(&self, sort: u32) -> u8 {
        self.faults[sort as usize]
    }

    /// The sort with these words.
    pub fn add(&mut self, words: &[u32]) -> u32 {
        let (sort, new) = self.records.add(words);
        if new {
            let made = made(words);
            let size = made.parts.iter().fold(1_u32, |sum, part| sum.saturating_add(self.sizes[*part as usize]));
            // A sheet has the parts first, so a part's fault is met before the sort's own.
            let of_part = made.parts.iter().map(|part| self.faults[*part as usize]).find(|fault| *fault != 0);
            let fault = of_part.unwrap_or_else(|| own_fault(&made, size));
            self.sizes.push(size);
            self.faults.push(fault);
        }
        sort
    }
}

/// What a sheet would be refused for at the record of a sort; 0 if for nothing.
fn own_fault(made: &Made, size: u32) -> u8 {
    let names = made.parameters;
    let repeated = || names.iter().enumerate().any(|(at, name)| names[..at].contains(name));
    let wide = made.width > u64::from(GREATEST_WIDTH);
    let long = made.parts.len() > LONGEST_LIST || names.len() > LONGEST_LIST;
    let outside = wide || long || made.kind == kind::PAR && (names.is_empty() || repeated());
    match (outside, size > GREATEST_TREE) {
        (true, _) => Refusal::Value as u8,
        (_, true) => Refusal::TreeSize as u8,
        _ => 0,
    }
}
