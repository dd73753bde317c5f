//! The printout: sorts, refusals and lines.

use crate::ask::{Answer, Row, Said, parts};
use crate::ast::Sort;

/// The lines for a sheet: a line per term with its inferred row, then a line per question.
pub fn lines(said: &Said) -> Vec<String> {
    let rows = said.rows.iter().enumerate();
    let answers = said.answers.iter().enumerate();
    rows.map(|(k, said)| format!("T{k} {}", row(said)))
        .chain(answers.map(|(k, said)| format!("Q{k} {}", answer(said))))
        .collect()
}

/// The text of an answer.
pub fn answer(answer: &Answer) -> String {
    match answer {
        Answer::Compatible(true) => "yes".to_owned(),
        Answer::Compatible(false) => "no".to_owned(),
        Answer::Row(said) => row(said),
    }
}

/// The text of a row.
pub fn row(row: &Row) -> String {
    match row {
        Row::Sort(sort) => {
            let mut text = String::new();
            write_sort(&mut text, sort);
            text
        }
        Row::Refused(number) => format!("!{number}"),
    }
}

/// Writes a sort.
fn write_sort(text: &mut String, sort: &Sort) {
    match sort {
        Sort::Function(_) => write_parts(text, "(->", sort, ")"),
        Sort::Atom(name, args) if args.is_empty() => text.push_str(name),
        Sort::Atom(name, _) => write_parts(text, &format!("({name}"), sort, ")"),
        Sort::Var(name) => {
            text.push('\'');
            text.push_str(name);
        }
        Sort::Bool => text.push_str("Bool"),
        Sort::Int => text.push_str("Int"),
        Sort::Real => text.push_str("Real"),
        Sort::String => text.push_str("String"),
        Sort::RegLan => text.push_str("RegLan"),
        Sort::Array(..) => write_parts(text, "(Array", sort, ")"),
        Sort::BitVec(width) => text.push_str(&format!("(_ BitVec {width})")),
        Sort::ParamBitVec => text.push_str("(_ BitVec ?)"),
        Sort::Datatype { name, .. } => write_parts(text, &format!("[{name}"), sort, "]"),
        Sort::Par(names, _) => write_parts(text, &format!("(par ({})", names.join(" ")), sort, ")"),
        Sort::Type => text.push_str("Type"),
        Sort::Set(_) => write_parts(text, "(Set", sort, ")"),
        Sort::Tuple(_) => write_parts(text, "(Tuple", sort, ")"),
    }
}

/// Writes an opening, the parts of a sort with a blank before each, and a closing.
fn write_parts(text: &mut String, open: &str, sort: &Sort, close: &str) {
    text.push_str(open);
    for part in parts(sort) {
        text.push(' ');
        write_sort(text, part);
    }
    text.push_str(close);
}
