//! Explanations of refused rows, held to the rows and followed.
//!
//! Of every refused row the explanation must name the cause that the library gave to the term that it names, a part that the term has, and
//! the sort that the part has. Then it is followed: the named part gets what was expected, on a sheet with nothing else, and the library
//! judges again. The complaint must be gone, or be one that comes later in the order of the causes and of the parts.

use crate::case::{self, Case};
use crate::mend::{Place, exact, mend, place};
use crate::{Difference, differ};
use model::reader::{self, Term};
use model::sort::{Kind, LARGEST, LONGEST, WIDEST};
use napsilo::{Argument, Cause, Column, Expected, Explanation, Found, Judged, Lent, Role, Row, Sort, TermId, judge};
use std::fmt::Write;
use std::sync::Arc;

/// What was held so far.
#[derive(Debug, Clone, Default)]
pub struct Explained {
    /// Rows by column and cause, and how many of those of their own sake have more than the cause.
    pub rows: [[(usize, usize); 30]; 2],
    /// Explanations that were followed: those that ended in a sort, and all.
    pub followed: (usize, usize),
    /// One in so many rows is followed; 0 follows none.
    pub every: usize,
}

impl Explained {
    /// What follows one in so many rows.
    pub fn new(every: usize) -> Self {
        Explained { every, ..Explained::default() }
    }

    /// Looks at all rows of a sheet; nothing is done for a refused one.
    pub fn sheet(&mut self, sheet: &[u8]) -> Result<(), Difference> {
        let Lent { records, places, rows, answers } = Lent::PROGRAM;
        let Ok((read, _)) = reader::read(sheet, &reader::Lent { records, places, rows, answers }) else {
            return Ok(());
        };
        let judged = judge(sheet).map_err(|refusal| differ(sheet, &refusal.to_string()))?;
        for term in judged.terms() {
            for column in [Column::Inferred, Column::Checked] {
                let look = Look { judged: &judged, terms: &read.terms, column };
                self.row(&look, term).map_err(|how| differ(sheet, &format!("T{} {column:?}: {how}", term.number())))?;
            }
        }
        Ok(())
    }

    /// Looks at one row.
    fn row(&mut self, look: &Look<'_>, term: TermId) -> Result<(), String> {
        let explanation = look.explain(term);
        let cause = match (look.row(term), &explanation) {
            (Ok(_), None) => return Ok(()),
            (Err(cause), Some(_)) => *cause,
            _ => return Err("an explanation of a sort, or none of a refusal".to_owned()),
        };
        let explanation = explanation.ok_or("none")?;
        look.agrees(term, cause, &explanation)?;
        let counted = &mut self.rows[explanation.column as usize][cause.number() as usize];
        counted.0 += 1;
        if cause == Cause::Below {
            return Ok(());
        }
        let more = explanation.expected.is_some() && explanation.found.is_some();
        counted.1 += usize::from(more);
        if !more && !says_all(cause, &look.terms[term.index()]) {
            return Err(format!("it says no more than the cause: {explanation}"));
        }
        if more && counted.0.is_multiple_of(self.every) {
            self.follow(look, term, &explanation)?;
        }
        Ok(())
    }

    /// Follows an explanation until the complaint is gone or nothing is left to follow.
    fn follow(&mut self, look: &Look<'_>, term: TermId, first: &Explanation) -> Result<(), String> {
        let sort_of = |number: usize| look.row(look.judged.term(number)?).as_ref().ok().cloned();
        let mut case = Case::new(look.terms, term.index(), sort_of).ok_or("a part without a sort")?;
        let mut last: Option<Place> = None;
        let mut current = first.clone();
        self.followed.1 += 1;
        for _ in 0..500 {
            let Some((judged, own)) = case.judge() else {
                return Ok(());
            };
            let look = Look { judged: &judged, terms: &[], column: look.column };
            let Some(next) = look.explain(own) else {
                self.followed.0 += 1;
                return if last.is_some() { Ok(()) } else { Err("refused among others and not alone".to_owned()) };
            };
            if last.is_none() && !same(first, &next) {
                return Err(format!("alone it is another complaint: {first}, then {next}"));
            }
            let place = place(&next);
            // A sort may hold several that it may not hold.
            let moves_on = |before: &Place| place > *before || place == *before && next.cause == Cause::Barred;
            if last.is_some_and(|before| !moves_on(&before)) {
                return Err(format!("it was done as asked, and the complaint did not move on: {current}, then {next}"));
            }
            last = Some(place);
            exact(&case, &next)?;
            if !mend(&mut case, &next) {
                let last = next.cause != Cause::Misfit || case.kind == 11;
                return if last { Ok(()) } else { Err(format!("nothing can be done: {next}")) };
            }
            current = next;
        }
        Err(format!("there is no end to it: {current}"))
    }

    /// The counts.
    pub fn summary(&self) -> String {
        let mut summary = String::new();
        for (name, rows) in ["inferred", "checked"].iter().zip(&self.rows) {
            write!(summary, "{name}:").expect("a string takes all");
            for (number, (all, told)) in rows.iter().enumerate().filter(|(_, (all, _))| *all != 0) {
                write!(summary, " !{number} {all} ({told} with more than the cause)").expect("as above");
            }
            summary.push('\n');
        }
        let (sorts, all) = self.followed;
        writeln!(summary, "followed: {all}, to a sort {sorts}").expect("as above");
        summary
    }
}

/// A column of a judgement, with the sheet's terms as the model reads them.
struct Look<'a> {
    judged: &'a Judged,
    terms: &'a [Term],
    column: Column,
}

impl Look<'_> {
    /// The row of a term.
    fn row(&self, term: TermId) -> &Row {
        let row = match self.column {
            Column::Inferred => self.judged.inferred(term),
            Column::Checked => self.judged.checked(term),
        };
        row.expect("a term of this sheet")
    }

    /// The explanation of a term's row.
    fn explain(&self, term: TermId) -> Option<Explanation> {
        let explanation = match self.column {
            Column::Inferred => self.judged.explain_inferred(term),
            Column::Checked => self.judged.explain(term),
        };
        explanation.expect("a term of this sheet")
    }

    /// An explanation must agree with the rows and with the record of the term that it names.
    fn agrees(&self, asked: TermId, cause: Cause, explanation: &Explanation) -> Result<(), String> {
        let named = explanation.term;
        let own = self.row(named).as_ref().err() == Some(&explanation.cause) && explanation.cause != Cause::Below;
        let reached = if cause == Cause::Below { self.below(asked, named) } else { asked == named };
        if !own || !reached || explanation.asked != asked || explanation.column != self.column {
            return Err(format!("it names another term or cause: {explanation}"));
        }
        let there = match explanation.cause {
            Cause::Limit => self.passes(named.index(), explanation),
            Cause::Unassigned => self.unassigned(named.index(), explanation),
            _ => explanation.argument.is_none_or(|argument| self.has(named.index(), argument, explanation)),
        };
        if there { Ok(()) } else { Err(format!("it names what is not there: {explanation}")) }
    }

    /// Whether a term has the named part, and that is as the explanation says.
    fn has(&self, number: usize, argument: Argument, explanation: &Explanation) -> bool {
        match named(&self.terms[number], argument) {
            Some(Named::Term(part)) => {
                let sort = || self.row(argument.term?).as_ref().ok();
                let found = match &explanation.found {
                    Some(Found::Sort(found)) => sort() == Some(found),
                    Some(Found::Number(value)) => u64::from(self.terms[part].number) == *value,
                    Some(Found::NoConstant) => self.terms[part].kind != 0,
                    _ => false,
                };
                argument.term.map(TermId::index) == Some(part) && found
            }
            Some(Named::Sort(sort)) => {
                argument.term.is_none() && explanation.found == Some(Found::Sort(case::sort(&sort)))
            }
            None => false,
        }
    }

    /// Whether the model's answer passes its limit as the explanation of a 22 says.
    fn passes(&self, number: usize, explanation: &Explanation) -> bool {
        let term = &self.terms[number];
        let sort = |part: &usize| Some(case::tree(self.row(self.judged.term(*part)?).as_ref().ok()?));
        let Some(below) = term.list.iter().map(sort).collect::<Option<Vec<_>>>() else {
            return false;
        };
        let answer = match self.column {
            Column::Inferred => model::inferred::infer(self.terms, term, &below),
            Column::Checked => model::checked::check(self.terms, term, &below),
        };
        let (Ok(answer), Some(found)) = (answer, &explanation.found) else {
            return false;
        };
        let (value, most) = match found {
            Found::Width(width) if answer.kind == Kind::BitVec && answer.width == *width => (*width, WIDEST),
            Found::List(length) if answer.holds(&|sort| sort.parts.len() == *length) => {
                (*length as u64, LONGEST as u64)
            }
            Found::Tree(size) if answer.size() == *size as u64 => (answer.size(), LARGEST),
            _ => return false,
        };
        value > most && explanation.expected == Some(Expected::AtMost(most))
    }

    /// Whether a parameter stands in the result and in no taken entry of the head's list, as the explanation of a 27 says.
    fn unassigned(&self, number: usize, explanation: &Explanation) -> bool {
        let term = &self.terms[number];
        let head = term.list.first().and_then(|head| self.judged.term(*head));
        let head = head.and_then(|head| self.row(head).as_ref().ok());
        let (Some(Sort::Par(parameters, part)), Some(Expected::Assigned(name)), Some(Found::Sort(result))) =
            (head.map(Arc::as_ref), &explanation.expected, &explanation.found)
        else {
            return false;
        };
        let stands = |sort: &Sort| case::tree(sort).holds(&|part| part.kind == Kind::Var && part.name == name.number());
        let entries: Vec<&Arc<Sort>> = part.parts().collect();
        let (taken, rest) = entries.split_at((term.list.len() - 1).min(entries.len()));
        let rest = match rest {
            [last] => Arc::clone(last),
            rest => Arc::new(Sort::Function(rest.iter().map(|sort| Arc::clone(sort)).collect())),
        };
        let kept = stands(&rest) && !taken.iter().any(|sort| stands(sort));
        parameters.contains(name) && kept && *result == rest
    }

    /// Whether a term is reached from another by going to a refused part again and again.
    fn below(&self, from: TermId, to: TermId) -> bool {
        let mut reached = vec![false; from.index() + 1];
        reached[from.index()] = true;
        for number in (to.index()..=from.index()).rev().filter(|_| to < from) {
            let id = self.judged.term(number).expect("a term of this sheet");
            if !reached[number] || *self.row(id) != Err(Cause::Below) {
                continue;
            }
            for part in self.terms[number].list.iter().chain(&self.terms[number].indices) {
                reached[*part] = true;
            }
        }
        reached[to.index()]
    }
}

/// Whether a cause says all: no room, no rank, and the one operator for which carcara has no case.
fn says_all(cause: Cause, term: &Term) -> bool {
    matches!(cause, Cause::Full | Cause::NoRank) || cause == Cause::Panics && (term.kind, term.number) == (11, 8)
}

/// What an argument is in the record of its term.
enum Named {
    /// The term with this number.
    Term(usize),
    /// A sort of the record's own.
    Sort(model::sort::Tree),
}

/// What an argument is in the record of its term; nothing if there is no such part.
fn named(term: &Term, argument: Argument) -> Option<Named> {
    let at = argument.position.checked_sub(1)?;
    let behind_first = matches!(term.kind, 6 | 10);
    let single = at == 0;
    let number = match argument.role {
        Role::Head => *term.list.first().filter(|_| single && term.kind == 6)?,
        Role::Argument | Role::Case => *term.list.get(at + usize::from(behind_first))?,
        Role::Index => *term.indices.get(at)?,
        Role::Body => *term.list.first().filter(|_| single && term.kind == 8)?,
        Role::Value => *term.list.get(at).filter(|_| term.kind == 9 && at + 1 < term.list.len())?,
        Role::Inner => *term.list.last().filter(|_| single && term.kind == 9)?,
        Role::Binding => return Some(Named::Sort(term.bindings.get(at)?.clone())),
        Role::Sort if term.kind == 4 => return Some(Named::Sort(model::sort::Sort::bit_vec(term.number.into()))),
        Role::Sort => return Some(Named::Sort(term.sort.clone().filter(|_| single)?)),
    };
    Some(Named::Term(number))
}

/// Whether two explanations say the same of two terms.
fn same(one: &Explanation, two: &Explanation) -> bool {
    let part = |explanation: &Explanation| explanation.argument.map(|argument| (argument.role, argument.position));
    one.cause == two.cause && part(one) == part(two) && one.found == two.found && one.expected == two.expected
}
