//! The text of a sort.

use crate::names::Names;
use crate::sorts::{Sorts, kind};
use std::fmt;

/// A sort that is shown with the strings of its names.
pub struct Text<'a> {
    pub names: &'a Names,
    pub sorts: &'a Sorts,
    pub sort: u32,
}

/// What is still to be written.
enum Piece {
    Text(&'static str),
    Sort(u32),
}

/// The texts of the kinds that have no name: before the parts, and behind them.
const AROUND: [(&str, &str); 16] = [
    ("(->", ")"),
    ("(", ")"),
    ("'", ""),
    ("Bool", ""),
    ("Int", ""),
    ("Real", ""),
    ("String", ""),
    ("RegLan", ""),
    ("(Array", ")"),
    ("(_ BitVec ", ")"),
    ("(_ BitVec ?)", ""),
    ("[", "]"),
    ("(par (", ")"),
    ("Type", ""),
    ("(Set", ")"),
    ("(Tuple", ")"),
];

impl Text<'_> {
    /// Writes what stands before the parts of a sort; what stands behind them.
    fn open(&self, f: &mut fmt::Formatter<'_>, sort: u32) -> Result<&'static str, fmt::Error> {
        let made = self.sorts.get(sort);
        let (mut before, mut behind) = AROUND[made.kind as usize];
        if made.kind == kind::ATOM && made.parts.is_empty() {
            (before, behind) = ("", "");
        }
        f.write_str(before)?;
        if let Some(name) = made.name {
            f.write_str(self.names.string(name))?;
        }
        if made.kind == kind::BIT_VEC {
            write!(f, "{}", made.width)?;
        }
        if made.kind == kind::PAR {
            for (at, name) in made.parameters.iter().enumerate() {
                f.write_str(if at == 0 { "" } else { " " })?;
                f.write_str(self.names.string(*name))?;
            }
            f.write_str(")")?;
        }
        Ok(behind)
    }
}

/// The text that the program prints, with the strings of the names. It needs no stack for the depth of the sort.
impl fmt::Display for Text<'_> {
    fn fmt(&self, f: &mut fmt::Formatter<'_>) -> fmt::Result {
        let mut left = vec![Piece::Sort(self.sort)];
        while let Some(piece) = left.pop() {
            match piece {
                Piece::Text(text) => f.write_str(text)?,
                Piece::Sort(sort) => {
                    left.push(Piece::Text(self.open(f, sort)?));
                    for part in self.sorts.get(sort).parts.iter().rev() {
                        left.extend([Piece::Sort(*part), Piece::Text(" ")]);
                    }
                }
            }
        }
        Ok(())
    }
}
