//! Names: numbers on a sheet, strings elsewhere.

use crate::{Binder, Operator, ParamOperator, QualifiedOperator, WriteError};
use std::collections::HashMap;
use std::fmt;

/// A name on a sheet: of a sort, of a sort variable, or of a variable.
///
/// It is a number. As text, number 0 is `?`, any other number k is `n` and then k in decimal.
#[derive(Debug, Clone, Copy, PartialEq, Eq, PartialOrd, Ord, Hash)]
pub struct Name(u16);

impl Name {
    /// The name `?`, which carcara gives to the sort variable that it makes up for an empty `rare-list`.
    pub const UNKNOWN: Name = Name(0);

    /// The name with this number.
    pub const fn new(number: u16) -> Self {
        Name(number)
    }

    /// The number of the name.
    pub const fn number(self) -> u16 {
        self.0
    }
}

impl fmt::Display for Name {
    fn fmt(&self, f: &mut fmt::Formatter<'_>) -> fmt::Result {
        match self.0 {
            0 => f.write_str("?"),
            number => write!(f, "n{number}"),
        }
    }
}

/// A table that gives each string a name of its own.
///
/// Sorts depend on names only by their being equal or not, but for `?`, which is always [`Name::UNKNOWN`].
///
/// Texts with names have a string as it is where nothing else is written so, and else in bars: a sort with the name `Bool` is `|Bool|`.
#[derive(Debug, Clone, Default)]
pub struct Names {
    /// The strings from name 1 on.
    strings: Vec<String>,
    /// How each of them is written in a text.
    written: Vec<String>,
    /// The name of each of them.
    names: HashMap<String, Name>,
}

impl Names {
    /// A table without strings.
    pub fn new() -> Self {
        Self::default()
    }

    /// The name of a string: the one it has, else the next one. Refused when all 65,535 are given out.
    pub fn name(&mut self, string: &str) -> Result<Name, WriteError> {
        if string == "?" {
            return Ok(Name::UNKNOWN);
        }
        if let Some(name) = self.names.get(string) {
            return Ok(*name);
        }
        let next = u16::try_from(self.strings.len() + 1).map_err(|_| WriteError::TooManyNames)?;
        self.strings.push(string.to_owned());
        self.written.push(written(string, Name(next)));
        self.names.insert(string.to_owned(), Name(next));
        Ok(Name(next))
    }

    /// The string that has this name, if the table gave it out.
    pub fn string(&self, name: Name) -> Option<&str> {
        match name.0 {
            0 => Some("?"),
            number => self.strings.get(usize::from(number) - 1).map(String::as_str),
        }
    }

    /// Writes a name: its string if the table gave it out, in bars if it could be taken for something else; else as the printout does.
    pub(crate) fn write(&self, f: &mut fmt::Formatter<'_>, name: Name) -> fmt::Result {
        let place = usize::from(name.0).checked_sub(1);
        match place.and_then(|place| self.written.get(place)) {
            Some(written) => f.write_str(written),
            None => fmt::Display::fmt(&name, f),
        }
    }
}

/// How the string of a name is written in a text: as it is, in bars if it could be taken for something else.
fn written(string: &str, name: Name) -> String {
    match string == name.to_string() || is_plain(string) {
        true => string.to_owned(),
        false => barred(string),
    }
}

/// Words of the texts of sorts and terms that are no operators.
const WORDS: [&str; 15] = [
    "Bool", "Int", "Real", "String", "RegLan", "Type", "Array", "BitVec", "Set", "Tuple", "par", "->", "as", "let",
    "match",
];

/// Whether a string is one word that stands for nothing else in a text: no number, sort, operator, refusal, constant or other name.
fn is_plain(string: &str) -> bool {
    let mark = |c: char| c.is_alphanumeric() || "~!@$%^&*_-+=<>.?/".contains(c);
    let word = string.chars().all(mark) && !string.starts_with(|c: char| c.is_numeric());
    // `n5`, another name; `T5`, a term; `!26`, a refusal; `<Real>`, a constant.
    let numbered = string.strip_prefix(['n', 'T', '!']).is_some_and(is_number);
    let constant = string.starts_with('<') && string.ends_with('>');
    let operator = Operator::ALL.iter().any(|op| op.symbol() == string)
        || ParamOperator::ALL.iter().any(|op| op.symbol() == string)
        || QualifiedOperator::ALL.iter().any(|op| op.symbol() == string)
        || Binder::ALL.iter().any(|binder| binder.symbol() == string);
    let taken = numbered || constant || operator || WORDS.contains(&string) || ["", "_", "?"].contains(&string);
    word && !taken
}

/// Whether a string is a number in decimal.
fn is_number(string: &str) -> bool {
    !string.is_empty() && string.chars().all(|c| c.is_ascii_digit())
}

/// A string in bars, with a backslash before a bar and a backslash in it, and characters that do not print by their numbers.
fn barred(string: &str) -> String {
    let mut text = String::from("|");
    for c in string.chars() {
        match c {
            '|' | '\\' => text.extend(['\\', c]),
            c if c.is_control() => text.extend(c.escape_default()),
            c => text.push(c),
        }
    }
    text + "|"
}
