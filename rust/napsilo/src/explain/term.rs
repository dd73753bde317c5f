//! The terms of an accepted sheet, read back from its bytes.

use crate::bytes::{self, Record};
use crate::{Binder, Name, Operator, ParamOperator, QualifiedOperator, Sort};
use std::sync::Arc;

/// A term: its kind, with its parts by their numbers.
#[derive(Debug, Clone)]
pub enum Term {
    Integer(u32),
    Real,
    String,
    RegLan,
    BitVec(u32),
    Var(Name, Arc<Sort>),
    App(usize, Vec<usize>),
    Op(Operator, Vec<usize>),
    Binder(Binder, Vec<(Name, Arc<Sort>)>, usize),
    Let(Vec<(Name, usize)>, usize),
    Match(usize, Vec<usize>),
    ParamOp { op: ParamOperator, op_args: Vec<usize>, args: Vec<usize> },
    AsOp(QualifiedOperator, Arc<Sort>, Vec<usize>),
}

impl Term {
    /// The terms that this one refers to, in the order of its record.
    pub fn parts(&self) -> Vec<usize> {
        match self {
            Term::App(first, others) | Term::Match(first, others) => [&[*first], others.as_slice()].concat(),
            Term::Op(_, args) | Term::AsOp(_, _, args) => args.clone(),
            Term::Binder(_, _, body) => vec![*body],
            Term::Let(values, inner) => values.iter().map(|(_, value)| *value).chain([*inner]).collect(),
            Term::ParamOp { op_args, args, .. } => [args.as_slice(), op_args].concat(),
            _ => Vec::new(),
        }
    }
}

/// The terms of an accepted sheet; nothing if it is none.
pub fn terms(sheet: &[u8]) -> Option<Vec<Term>> {
    let records = bytes::records(sheet)?;
    let sorts = bytes::trees(&records.sorts)?;
    records.terms.iter().map(|record| term(record, &sorts)).collect()
}

/// The term of a record over the sorts of the sheet.
fn term(record: &Record, sorts: &[Arc<Sort>]) -> Option<Term> {
    let name = Name::new(record.name);
    let number = record.number;
    let sort_at = |at: u16| sorts.get(usize::from(at)).cloned();
    let all = |list: &[u16]| -> Vec<usize> { list.iter().map(|at| usize::from(*at)).collect() };
    let list = all(&record.list);
    Some(match record.kind {
        0 => Term::Integer(number),
        1 => Term::Real,
        2 => Term::String,
        3 => Term::RegLan,
        4 => Term::BitVec(number),
        5 => Term::Var(name, sort_at(record.sort)?),
        6 => Term::App(*list.first()?, list[1..].to_vec()),
        7 => Term::Op(Operator::from_number(number)?, list),
        8 => {
            let binding = |(name, sort): &(u16, u16)| Some((Name::new(*name), sort_at(*sort)?));
            let bindings = record.pairs.iter().map(binding).collect::<Option<_>>()?;
            Term::Binder(Binder::from_number(number)?, bindings, *list.first()?)
        }
        9 => {
            let (inner, values) = list.split_last()?;
            let names = record.second.iter().map(|name| Name::new(*name));
            Term::Let(names.zip(values.iter().copied()).collect(), *inner)
        }
        10 => Term::Match(*list.first()?, list[1..].to_vec()),
        11 => Term::ParamOp { op: ParamOperator::from_number(number)?, op_args: all(&record.second), args: list },
        12 => Term::AsOp(QualifiedOperator::from_number(number)?, sort_at(record.sort)?, list),
        _ => return None,
    })
}
