//! Writes sheets.

/// A sheet in the making.
#[derive(Debug, Clone, Default)]
pub struct Writer {
    /// The sort records.
    pub sorts: Vec<Vec<u8>>,
    /// The term records.
    pub terms: Vec<Vec<u8>>,
    /// The questions.
    pub questions: Vec<Vec<u8>>,
}

/// The fields of a record. A field that is there is written, and its bit stands in the map.
#[derive(Debug, Clone, Copy, Default)]
pub struct Fields<'a> {
    /// The kind.
    pub kind: u8,
    /// The name.
    pub name: Option<u16>,
    /// The number.
    pub number: Option<u32>,
    /// The number of a sort.
    pub sort: Option<u16>,
    /// The list.
    pub list: Option<&'a [u16]>,
    /// The pairs of names and sorts.
    pub pairs: Option<&'a [(u16, u16)]>,
    /// The second list.
    pub second: Option<&'a [u16]>,
}

impl Fields<'_> {
    /// The record.
    pub fn record(&self) -> Vec<u8> {
        let mut map = 1;
        let mut bytes = vec![0, self.kind];
        if let Some(name) = self.name {
            map |= 2;
            bytes.extend(name.to_le_bytes());
        }
        if let Some(number) = self.number {
            map |= 4;
            bytes.extend(number.to_le_bytes());
        }
        if let Some(sort) = self.sort {
            map |= 8;
            bytes.extend(sort.to_le_bytes());
        }
        if let Some(list) = self.list {
            map |= 16;
            shorts(&mut bytes, list);
        }
        if let Some(pairs) = self.pairs {
            map |= 32;
            bytes.push(pairs.len() as u8);
            for (name, sort) in pairs {
                bytes.extend(name.to_le_bytes());
                bytes.extend(sort.to_le_bytes());
            }
        }
        if let Some(second) = self.second {
            map |= 64;
            shorts(&mut bytes, second);
        }
        bytes[0] = map;
        bytes
    }
}

/// Writes a list field.
fn shorts(bytes: &mut Vec<u8>, list: &[u16]) {
    bytes.push(list.len() as u8);
    for number in list {
        bytes.extend(number.to_le_bytes());
    }
}

impl Writer {
    /// Adds a sort; its number.
    pub fn sort(&mut self, fields: Fields) -> u16 {
        self.sorts.push(fields.record());
        self.sorts.len() as u16 - 1
    }

    /// Adds a sort of a kind without fields; its number.
    pub fn plain(&mut self, kind: u8) -> u16 {
        self.sort(Fields { kind, ..Fields::default() })
    }

    /// Adds a sort of a kind that has a list; its number.
    pub fn parts(&mut self, kind: u8, list: &[u16]) -> u16 {
        self.sort(Fields { kind, list: Some(list), ..Fields::default() })
    }

    /// Adds a sort variable; its number.
    pub fn variable(&mut self, name: u16) -> u16 {
        self.sort(Fields { kind: 2, name: Some(name), ..Fields::default() })
    }

    /// Adds a bit-vector sort; its number.
    pub fn vector(&mut self, width: u32) -> u16 {
        self.sort(Fields { kind: 9, number: Some(width), ..Fields::default() })
    }

    /// Adds a parametric sort; its number.
    pub fn par(&mut self, part: u16, names: &[u16]) -> u16 {
        self.sort(Fields { kind: 12, list: Some(&[part]), second: Some(names), ..Fields::default() })
    }

    /// Adds a term; its number.
    pub fn term(&mut self, fields: Fields) -> u16 {
        self.terms.push(fields.record());
        self.terms.len() as u16 - 1
    }

    /// Adds a term that is a variable of this sort; its number.
    pub fn var(&mut self, sort: u16) -> u16 {
        self.term(Fields { kind: 5, name: Some(9), sort: Some(sort), ..Fields::default() })
    }

    /// Adds an integer constant; its number.
    pub fn integer(&mut self, number: u32) -> u16 {
        self.term(Fields { kind: 0, number: Some(number), ..Fields::default() })
    }

    /// Adds a question.
    pub fn question(&mut self, fields: Fields) {
        self.questions.push(fields.record());
    }

    /// How many bytes the sheet has.
    pub fn len(&self) -> usize {
        let parts = [&self.sorts, &self.terms, &self.questions];
        6 + parts.iter().flat_map(|part| part.iter()).map(Vec::len).sum::<usize>()
    }

    /// Whether there is no record.
    pub fn is_empty(&self) -> bool {
        self.len() == 6
    }

    /// The sheet.
    pub fn bytes(&self) -> Vec<u8> {
        let parts = [&self.sorts, &self.terms, &self.questions];
        let counts = parts.iter().flat_map(|part| (part.len() as u16).to_le_bytes());
        let records = parts.iter().flat_map(|part| part.iter().flatten().copied());
        counts.chain(records).collect()
    }
}
