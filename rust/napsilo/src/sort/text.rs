//! The text of a sort.

use super::Sort;
use crate::{Name, Names};
use std::fmt;

impl Sort {
    /// The text of the sort with the strings of a table in place of the names that the table gave out.
    pub fn with_names<'a>(&'a self, names: &'a Names) -> impl fmt::Display + 'a {
        Named { sort: self, names }
    }

    /// Writes the text of the sort, its names as `name` writes them.
    fn write(&self, f: &mut fmt::Formatter<'_>, name: WriteName<'_>) -> fmt::Result {
        // What is still to be written, the next piece last.
        enum Piece<'a> {
            Text(&'static str),
            Sort(&'a Sort),
        }
        let mut left = vec![Piece::Sort(self)];
        while let Some(piece) = left.pop() {
            let sort = match piece {
                Piece::Text(text) => {
                    f.write_str(text)?;
                    continue;
                }
                Piece::Sort(sort) => sort,
            };
            left.push(Piece::Text(sort.write_opening(f, name)?));
            for part in sort.parts().rev() {
                left.push(Piece::Sort(part));
                left.push(Piece::Text(" "));
            }
        }
        Ok(())
    }

    /// Writes what stands before the parts; gives what stands behind them.
    fn write_opening(&self, f: &mut fmt::Formatter<'_>, name: WriteName<'_>) -> Result<&'static str, fmt::Error> {
        let plain = match self {
            Sort::Bool => "Bool",
            Sort::Int => "Int",
            Sort::Real => "Real",
            Sort::String => "String",
            Sort::RegLan => "RegLan",
            Sort::ParamBitVec => "(_ BitVec ?)",
            Sort::Type => "Type",
            Sort::Function(_) => "(->",
            Sort::Array(..) => "(Array",
            Sort::Set(_) => "(Set",
            Sort::Tuple(_) => "(Tuple",
            Sort::Par(..) => "(par (",
            Sort::Var(_) => "'",
            Sort::Atom(_, args) if args.is_empty() => "",
            Sort::Atom(..) => "(",
            Sort::Datatype { .. } => "[",
            Sort::BitVec(_) => "(_ BitVec ",
        };
        f.write_str(plain)?;
        match self {
            Sort::Var(own) | Sort::Atom(own, _) | Sort::Datatype { name: own, .. } => name(f, *own)?,
            Sort::BitVec(width) => write!(f, "{width}")?,
            Sort::Par(parameters, _) => write_parameters(f, parameters, name)?,
            _ => (),
        }
        Ok(match self {
            Sort::Datatype { .. } => "]",
            Sort::Atom(_, args) if args.is_empty() => "",
            Sort::Atom(..) | Sort::BitVec(_) => ")",
            Sort::Function(_) | Sort::Array(..) | Sort::Set(_) | Sort::Tuple(_) | Sort::Par(..) => ")",
            _ => "",
        })
    }
}

/// Writes a name.
type WriteName<'a> = &'a dyn Fn(&mut fmt::Formatter<'_>, Name) -> fmt::Result;

/// Writes the parameters of a Par and the bracket behind them.
fn write_parameters(f: &mut fmt::Formatter<'_>, parameters: &[Name], name: WriteName<'_>) -> fmt::Result {
    for (at, parameter) in parameters.iter().enumerate() {
        f.write_str(if at == 0 { "" } else { " " })?;
        name(f, *parameter)?;
    }
    f.write_str(")")
}

/// The printout's text: `(-> Int Bool)`, `n5` or `(n5 Int)`, `'n5`, `(_ BitVec 8)`, `[n5 Int]`, `(par (n1) (Set 'n1))` and so on.
impl fmt::Display for Sort {
    fn fmt(&self, f: &mut fmt::Formatter<'_>) -> fmt::Result {
        self.write(f, &|f, name| fmt::Display::fmt(&name, f))
    }
}

/// The printout's text.
impl fmt::Debug for Sort {
    fn fmt(&self, f: &mut fmt::Formatter<'_>) -> fmt::Result {
        fmt::Display::fmt(self, f)
    }
}

/// A sort with a table for its names.
struct Named<'a> {
    sort: &'a Sort,
    names: &'a Names,
}

impl fmt::Display for Named<'_> {
    fn fmt(&self, f: &mut fmt::Formatter<'_>) -> fmt::Result {
        self.sort.write(f, &|f, name| self.names.write(f, name))
    }
}
