//! Texts whose names are still to be written: as the printout writes them, or as the user's table does.

use super::term::Term;
use crate::{Name, Names, Sort};
use std::fmt;
use std::sync::Arc;

/// A piece of a text.
#[derive(Debug, Clone, PartialEq, Eq)]
pub enum Piece {
    Text(String),
    Name(Name),
    Sort(Arc<Sort>),
}

/// A text in pieces.
#[derive(Debug, Clone, PartialEq, Eq, Default)]
pub struct Phrase(Vec<Piece>);

/// How deep a term is written; what lies deeper is named by its number.
const DEPTH: usize = 3;

/// How many terms with parts are written in one text; the others are named by their numbers.
const MOST: usize = 12;

impl Phrase {
    /// The text of a term of a sheet: names and operators in full, constants by their sorts where the sheet has no value, and terms far
    /// inside by their numbers, as `T3`.
    pub fn term(terms: &[Term], number: usize) -> Phrase {
        let mut writer = Writer { terms, left: MOST, phrase: Phrase::default() };
        writer.term(number, DEPTH);
        writer.phrase
    }

    /// Writes the text, its names by a table if there is one.
    pub fn write(&self, f: &mut fmt::Formatter<'_>, names: Option<&Names>) -> fmt::Result {
        for piece in &self.0 {
            match piece {
                Piece::Text(text) => f.write_str(text)?,
                Piece::Name(name) => write_name(f, *name, names)?,
                Piece::Sort(sort) => write_sort(f, sort, names)?,
            }
        }
        Ok(())
    }

    /// The text, its names by a table if there is one.
    pub fn shown<'a>(&'a self, names: Option<&'a Names>) -> impl fmt::Display + 'a {
        Shown { phrase: self, names }
    }

    /// Adds text.
    fn text(&mut self, text: &str) {
        self.0.push(Piece::Text(text.to_owned()));
    }
}

/// A text with a table for its names, if there is one.
struct Shown<'a> {
    phrase: &'a Phrase,
    names: Option<&'a Names>,
}

impl fmt::Display for Shown<'_> {
    fn fmt(&self, f: &mut fmt::Formatter<'_>) -> fmt::Result {
        self.phrase.write(f, self.names)
    }
}

/// Writes a name, by a table if there is one, else as the printout does.
pub fn write_name(f: &mut fmt::Formatter<'_>, name: Name, names: Option<&Names>) -> fmt::Result {
    match names {
        Some(names) => names.write(f, name),
        None => fmt::Display::fmt(&name, f),
    }
}

/// Writes a sort, its names by a table if there is one.
pub fn write_sort(f: &mut fmt::Formatter<'_>, sort: &Sort, names: Option<&Names>) -> fmt::Result {
    match names {
        Some(names) => fmt::Display::fmt(&sort.with_names(names), f),
        None => fmt::Display::fmt(sort, f),
    }
}

/// Writes a term into a phrase.
struct Writer<'a> {
    terms: &'a [Term],
    /// How many more terms with parts may be written.
    left: usize,
    phrase: Phrase,
}

impl Writer<'_> {
    fn text(&mut self, text: &str) {
        self.phrase.text(text);
    }

    /// A constant without a value: its sort in angle brackets.
    fn constant(&mut self, sort: &str) {
        self.text(&format!("<{sort}>"));
    }

    /// Terms, each behind a blank.
    fn list(&mut self, numbers: &[usize], depth: usize) {
        for number in numbers {
            self.text(" ");
            self.term(*number, depth);
        }
    }

    /// A term, whose parts may be so deep.
    fn term(&mut self, number: usize, depth: usize) {
        let term = &self.terms[number];
        let has_parts = !term.parts().is_empty();
        if has_parts && (depth == 0 || self.left == 0) {
            self.text(&format!("T{number}"));
            return;
        }
        self.left -= usize::from(has_parts);
        match term {
            Term::Integer(value) => self.text(&value.to_string()),
            Term::Real => self.constant("Real"),
            Term::String => self.constant("String"),
            Term::RegLan => self.constant("RegLan"),
            Term::BitVec(width) => self.constant(&format!("(_ BitVec {width})")),
            Term::Var(name, _) => self.phrase.0.push(Piece::Name(*name)),
            compound => self.compound(compound, depth.saturating_sub(1)),
        }
    }

    /// A term that is no constant and no variable; its parts may be so deep.
    fn compound(&mut self, term: &Term, depth: usize) {
        match term {
            Term::App(head, args) => {
                self.text("(");
                self.term(*head, depth);
                self.list(args, depth);
                self.text(")");
            }
            Term::Op(op, args) => self.applied(op.symbol(), args, depth),
            Term::Match(subject, bodies) => self.applied("match", &[&[*subject], bodies.as_slice()].concat(), depth),
            Term::Binder(binder, bindings, body) => {
                let sort = |this: &mut Self, sort: &Arc<Sort>| this.phrase.0.push(Piece::Sort(sort.clone()));
                self.bound(binder.symbol(), bindings, sort, *body, depth);
            }
            Term::Let(values, inner) => {
                let value = |this: &mut Self, value: &usize| this.term(*value, depth);
                self.bound("let", values, value, *inner, depth);
            }
            Term::ParamOp { op, op_args, args } => self.qualified(args, depth, |this| {
                this.text(&format!("(_ {op}"));
                this.list(op_args, depth);
                this.text(")");
            }),
            Term::AsOp(op, sort, args) => self.qualified(args, depth, |this| {
                this.text(&format!("(as {op} "));
                this.phrase.0.push(Piece::Sort(sort.clone()));
                this.text(")");
            }),
            _ => (),
        }
    }

    /// A symbol, names with what they are bound to, and a term over them.
    fn bound<T>(
        &mut self,
        symbol: &str,
        bindings: &[(Name, T)],
        to: impl Fn(&mut Self, &T),
        body: usize,
        depth: usize,
    ) {
        self.text(&format!("({symbol} ("));
        for (at, (name, value)) in bindings.iter().enumerate() {
            self.text(if at == 0 { "(" } else { " (" });
            self.phrase.0.push(Piece::Name(*name));
            self.text(" ");
            to(self, value);
            self.text(")");
        }
        self.text(") ");
        self.term(body, depth);
        self.text(")");
    }

    /// A symbol at arguments; alone if there are none.
    fn applied(&mut self, symbol: &str, args: &[usize], depth: usize) {
        if args.is_empty() {
            self.text(symbol);
            return;
        }
        self.text(&format!("({symbol}"));
        self.list(args, depth);
        self.text(")");
    }

    /// What stands in a symbol's place at arguments; alone if there are none.
    fn qualified(&mut self, args: &[usize], depth: usize, symbol: impl FnOnce(&mut Self)) {
        if args.is_empty() {
            symbol(self);
            return;
        }
        self.text("(");
        symbol(self);
        self.list(args, depth);
        self.text(")");
    }
}
