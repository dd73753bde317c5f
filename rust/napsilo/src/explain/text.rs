//! The text of an explanation.

use super::phrase::{write_name, write_sort};
use super::{Argument, Column, Expected, Explanation, Found, Role};
use crate::{Cause, Name, Names, Sort};
use std::fmt::{self, Display, Formatter};

impl Explanation {
    /// The text with the strings of a table in place of the names that the table gave out.
    pub fn with_names<'a>(&'a self, names: &'a Names) -> impl Display + 'a {
        Named { explanation: self, names, numbered: true }
    }

    /// The same without the numbers of the two terms, for who has numbered them otherwise:
    /// `(locked current): argument 1, current, has sort Session, expected Account (!26)`.
    pub fn unnumbered<'a>(&'a self, names: &'a Names) -> impl Display + 'a {
        Named { explanation: self, names, numbered: false }
    }

    /// Writes the text: the numbers of the terms, then all else.
    fn write(&self, f: &mut Formatter<'_>, names: Option<&Names>) -> fmt::Result {
        if self.asked != self.term {
            write!(f, "T{} holds ", self.asked.number())?;
        }
        write!(f, "T{} ", self.term.number())?;
        self.write_unnumbered(f, names)
    }

    /// Writes the term, what is wrong with it, and the number of the cause.
    fn write_unnumbered(&self, f: &mut Formatter<'_>, names: Option<&Names>) -> fmt::Result {
        self.shown.write(f, names)?;
        f.write_str(": ")?;
        if self.cause == Cause::Panics {
            f.write_str("carcara's Rust panics: ")?;
        }
        self.write_reason(f, names)?;
        write!(f, " (!{}", self.cause.number())?;
        f.write_str(if self.column == Column::Inferred { ", inferred)" } else { ")" })
    }

    /// Writes what is wrong, in words.
    fn write_reason(&self, f: &mut Formatter<'_>, names: Option<&Names>) -> fmt::Result {
        match (&self.found, &self.expected) {
            (Some(Found::Sort(sort)), Some(Expected::Assigned(name))) => {
                f.write_str("no argument assigns the parameter ")?;
                write_name(f, *name, names)?;
                f.write_str(", which stands in the result ")?;
                write_sort(f, sort, names)
            }
            (Some(Found::Sort(sort)), Some(Expected::Without(part))) => {
                self.write_argument(f, names)?;
                f.write_str(" is ")?;
                write_sort(f, sort, names)?;
                if sort != part {
                    f.write_str(", which holds ")?;
                    write_sort(f, part, names)?;
                }
                f.write_str(", and that may not stand here")
            }
            (Some(Found::Sort(sort)), Some(expected)) if self.is_about_a_sort() => {
                self.write_argument(f, names)?;
                f.write_str(" is ")?;
                write_sort(f, sort, names)?;
                f.write_str(", expected ")?;
                expected.write(f, names)
            }
            (Some(found), Some(expected)) => {
                self.write_argument(f, names)?;
                found.write(f, names)?;
                f.write_str(", expected ")?;
                expected.write(f, names)
            }
            _ => f.write_str(self.cause_alone()),
        }
    }

    /// Whether the part that is concerned is a sort of the record's own.
    fn is_about_a_sort(&self) -> bool {
        self.argument.is_some_and(|argument| matches!(argument.role, Role::Sort | Role::Binding))
    }

    /// What is said where the cause stands alone.
    fn cause_alone(&self) -> &'static str {
        match self.cause {
            Cause::Panics => "it has no case for this term",
            cause => cause.meaning(),
        }
    }

    /// Writes which part is concerned; nothing if none is.
    fn write_argument(&self, f: &mut Formatter<'_>, names: Option<&Names>) -> fmt::Result {
        let Some(Argument { role, position, term }) = self.argument else {
            return Ok(());
        };
        match role {
            Role::Head | Role::Body | Role::Inner => write!(f, "the {}", role.word())?,
            Role::Sort => f.write_str("its sort")?,
            Role::Binding => write!(f, "the sort of {} {position}", role.word())?,
            _ => write!(f, "{} {position}", role.word())?,
        }
        // An index is told by its value.
        let valued = matches!(self.found, Some(Found::Number(_)));
        if term.is_some() && !valued {
            f.write_str(", ")?;
            self.shown_argument.write(f, names)?;
            f.write_str(",")?;
        }
        Ok(())
    }
}

impl Found {
    /// Writes what came, as the end of a sentence about a part.
    fn write(&self, f: &mut Formatter<'_>, names: Option<&Names>) -> fmt::Result {
        match self {
            Found::Sort(sort) => {
                f.write_str(" has sort ")?;
                write_sort(f, sort, names)
            }
            Found::Count(count) => write!(f, "found {count}"),
            Found::NoConstant => f.write_str(" is no integer constant"),
            Found::Number(number) => write!(f, " is {number}"),
            Found::Width(width) => write!(f, "the answer would be {width} bits wide"),
            Found::List(length) => write!(f, "the answer would have a list of {length}"),
            Found::Tree(size) => write!(f, "the answer would have a tree of {size} nodes"),
        }
    }
}

impl Role {
    /// A word for the role.
    pub(super) fn word(self) -> &'static str {
        match self {
            Role::Head => "head",
            Role::Argument => "argument",
            Role::Index => "index",
            Role::Body => "body",
            Role::Value => "value",
            Role::Inner => "inner term",
            Role::Binding => "binding",
            Role::Case => "case",
            Role::Sort => "sort",
        }
    }

    /// A word for several.
    fn words(self) -> &'static str {
        match self {
            Role::Argument => "arguments",
            Role::Index => "indices",
            Role::Value => "values",
            Role::Binding => "bindings",
            Role::Case => "cases",
            other => other.word(),
        }
    }
}

impl Expected {
    /// The text with the strings of a table in place of the names that the table gave out.
    pub fn with_names<'a>(&'a self, names: &'a Names) -> impl Display + 'a {
        NamedExpected { expected: self, names }
    }

    /// Writes what was asked for.
    fn write(&self, f: &mut Formatter<'_>, names: Option<&Names>) -> fmt::Result {
        match self {
            Expected::Sort(sort) => write_sort(f, sort, names),
            Expected::IntOrReal => f.write_str("Int or Real"),
            Expected::Form(sort, parameters) => form(f, sort, parameters, names),
            Expected::BitVec => f.write_str("a bit vector"),
            Expected::Array => f.write_str("an array"),
            Expected::Set => f.write_str("a set"),
            Expected::Function => f.write_str("a function"),
            Expected::Taking(1) => f.write_str("a function that takes an argument"),
            Expected::Taking(count) => write!(f, "a function that takes {count} arguments"),
            Expected::Relation(0) => f.write_str("a set of tuples"),
            Expected::Relation(1) => f.write_str("a set of tuples with at least 1 entry"),
            Expected::Relation(columns) => write!(f, "a set of tuples with at least {columns} entries"),
            Expected::Starting(sort) => {
                f.write_str("a set of tuples whose first entry has sort ")?;
                write_sort(f, sort, names)
            }
            Expected::Pairs => f.write_str("a set of pairs of one sort"),
            Expected::NotPar => f.write_str("a sort that is not parametric"),
            Expected::Count(role, least, most) => count(f, *role, *least, *most),
            Expected::Constant => f.write_str("an integer constant"),
            Expected::Number(least, most) => number(f, *least, *most),
            Expected::Assigned(name) => {
                f.write_str("an argument that assigns ")?;
                write_name(f, *name, names)
            }
            Expected::Without(sort) => {
                f.write_str("a sort without ")?;
                write_sort(f, sort, names)
            }
            Expected::AtMost(most) => write!(f, "at most {most}"),
        }
    }
}

/// Writes a sort, and the parameters in it that may be any sort.
fn form(f: &mut Formatter<'_>, sort: &Sort, parameters: &[Name], names: Option<&Names>) -> fmt::Result {
    write_sort(f, sort, names)?;
    f.write_str(" for some ")?;
    for (at, name) in parameters.iter().enumerate() {
        f.write_str(if at == 0 { "'" } else { ", '" })?;
        write_name(f, *name, names)?;
    }
    Ok(())
}

/// Writes how many parts were asked for.
fn count(f: &mut Formatter<'_>, role: Role, least: usize, most: Option<usize>) -> fmt::Result {
    let words = |count: usize| if count == 1 { role.word() } else { role.words() };
    match most {
        None => write!(f, "at least {least} {}", words(least)),
        Some(most) if most == least => write!(f, "{most} {}", words(most)),
        Some(most) if most == least + 1 => write!(f, "{least} or {most} {}", role.words()),
        Some(most) => write!(f, "{least} to {most} {}", role.words()),
    }
}

/// Writes from what number to what number was asked for.
fn number(f: &mut Formatter<'_>, least: u64, most: Option<u64>) -> fmt::Result {
    match most {
        None => write!(f, "at least {least}"),
        Some(most) if most == least => write!(f, "{least}"),
        Some(most) => write!(f, "{least} to {most}"),
    }
}

/// The text of one line: `T5 (n5 n3): argument 1, n3, has sort n1, expected n2 (!26)`.
impl Display for Explanation {
    fn fmt(&self, f: &mut Formatter<'_>) -> fmt::Result {
        self.write(f, None)
    }
}

impl Display for Expected {
    fn fmt(&self, f: &mut Formatter<'_>) -> fmt::Result {
        self.write(f, None)
    }
}

/// An explanation with a table for its names.
struct Named<'a> {
    explanation: &'a Explanation,
    names: &'a Names,
    /// Whether the numbers of the terms are written.
    numbered: bool,
}

impl Display for Named<'_> {
    fn fmt(&self, f: &mut Formatter<'_>) -> fmt::Result {
        match self.numbered {
            true => self.explanation.write(f, Some(self.names)),
            false => self.explanation.write_unnumbered(f, Some(self.names)),
        }
    }
}

/// What was asked for, with a table for its names.
struct NamedExpected<'a> {
    expected: &'a Expected,
    names: &'a Names,
}

impl Display for NamedExpected<'_> {
    fn fmt(&self, f: &mut Formatter<'_>) -> fmt::Result {
        self.expected.write(f, Some(self.names))
    }
}
