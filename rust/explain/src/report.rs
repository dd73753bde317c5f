//! What is printed of a sheet: the lines of the program's printout with names, and under a refused row or answer why it is refused.

use crate::fault;
use napsilo::{Answer, Cause, Judged, Names, QuestionId, Refusal, Row, TermId};
use std::io::{self, Write};

/// How words are set off.
#[derive(Debug, Clone, Copy, PartialEq, Eq)]
pub enum Style {
    /// Not at all.
    Plain,
    /// By the colours of a terminal.
    Colored,
}

impl Style {
    /// The number of a term or question, as `T5`.
    fn number(self, text: &str) -> String {
        self.set("1", text)
    }

    /// A refusal, as `!26`.
    fn refusal(self, number: u32) -> String {
        self.set("1;31", &format!("!{number}"))
    }

    /// Text between the codes of an attribute and of none.
    fn set(self, attribute: &str, text: &str) -> String {
        match self {
            Style::Plain => text.to_owned(),
            Style::Colored => format!("\x1b[{attribute}m{text}\x1b[0m"),
        }
    }
}

/// Where and how a sheet is reported.
pub struct Report<'a, W> {
    pub out: W,
    pub names: &'a Names,
    pub style: Style,
    pub only_refused: bool,
}

impl<W: Write> Report<'_, W> {
    /// Reports a refused sheet: why, and where.
    pub fn refused(&mut self, sheet: &[u8], refusal: Refusal) -> io::Result<()> {
        writeln!(self.out, "{}", self.style.refusal(refusal.number()))?;
        writeln!(self.out, "  {}: {}", refusal.meaning(), fault::place(sheet, refusal))
    }

    /// Reports a judged sheet. Gives whether every checked row is a sort.
    pub fn judged(&mut self, judged: &Judged) -> io::Result<bool> {
        for term in judged.terms() {
            self.term(judged, term)?;
        }
        for number in 0..judged.answers().len() {
            let question = judged.question(number).expect("each answer is to a question of the sheet");
            self.question(judged, question)?;
        }
        Ok(judged.rows().all(|(_, checked)| checked.is_ok()))
    }

    /// The text of a row.
    fn row(&self, row: &Row) -> String {
        match row {
            Ok(sort) => sort.with_names(self.names).to_string(),
            Err(cause) => self.style.refusal(cause.number()),
        }
    }

    /// Reports a term: its line, and why its inferred and its checked row are refused, if they are.
    fn term(&mut self, judged: &Judged, term: TermId) -> io::Result<()> {
        let own = "a term of the sheet";
        let [inferred, checked] = [judged.inferred(term), judged.checked(term)].map(|row| row.expect(own));
        if self.only_refused && inferred.is_ok() && checked.is_ok() {
            return Ok(());
        }
        let number = self.style.number(&format!("T{}", term.number()));
        writeln!(self.out, "{number} {} {}", self.row(inferred), self.row(checked))?;
        for why in [judged.explain_inferred(term), judged.explain(term)] {
            if let Some(explanation) = why.expect(own) {
                writeln!(self.out, "  {}", explanation.with_names(self.names))?;
            }
        }
        Ok(())
    }

    /// Reports a question: the line of its answer, and why it is refused, if it is.
    fn question(&mut self, judged: &Judged, question: QuestionId) -> io::Result<()> {
        let answer = judged.answer(question).expect("a question of the sheet");
        let refused = match answer {
            Answer::Sort(Err(cause)) => Some(*cause),
            _ => None,
        };
        if self.only_refused && refused.is_none() {
            return Ok(());
        }
        let text = match answer {
            Answer::Compatible(true) => "yes".to_owned(),
            Answer::Compatible(false) => "no".to_owned(),
            Answer::Sort(row) => self.row(row),
        };
        writeln!(self.out, "{} {text}", self.style.number(&format!("Q{}", question.number())))?;
        match refused {
            Some(cause) => writeln!(self.out, "  {} (!{})", why_no_answer(cause), cause.number()),
            None => Ok(()),
        }
    }
}

/// Why a question has no answer. Of [`Cause::Barred`] only what can be true of a question.
fn why_no_answer(cause: Cause) -> &'static str {
    match cause {
        Cause::Barred => {
            "pattern, target or a given sort holds a par or a bit vector of unknown width, \
                or the target or a given sort a listed name"
        }
        other => other.meaning(),
    }
}
