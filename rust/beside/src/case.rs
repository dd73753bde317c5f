//! A term on a sheet of its own: its parts are variables of given sorts and integer constants, and can be changed one by one.

use model::reader;
use model::sort::{Kind, Tree};
use napsilo::{
    Binder, Judged, Lent, Name, Operator, ParamOperator, QualifiedOperator, SheetWriter, Sort, TermId, TermRecord,
    judge_with,
};
use std::sync::Arc;

/// A part of a term.
#[derive(Debug, Clone)]
pub enum Part {
    /// A variable of this sort.
    Of(Arc<Sort>),
    /// An integer constant.
    Integer(u32),
}

/// A term over such parts. Fields that its kind does not have are 0, nothing or empty.
#[derive(Debug, Clone)]
pub struct Case {
    /// The kind.
    pub kind: u8,
    /// The number.
    pub number: u32,
    /// The sort of a Var or AsOp.
    pub sort: Option<Arc<Sort>>,
    /// The parts in the list.
    pub list: Vec<Part>,
    /// The sorts of the bindings.
    pub bindings: Vec<Arc<Sort>>,
    /// The indices.
    pub indices: Vec<Part>,
}

impl Case {
    /// A term of a sheet with parts of these sorts; nothing if one has none.
    pub fn new(terms: &[reader::Term], number: usize, sort_of: impl Fn(usize) -> Option<Arc<Sort>>) -> Option<Self> {
        let part = |at: &usize| match terms[*at].kind {
            0 => Some(Part::Integer(terms[*at].number)),
            _ => Some(Part::Of(sort_of(*at)?)),
        };
        let term = &terms[number];
        Some(Case {
            kind: term.kind,
            number: term.number,
            sort: term.sort.as_ref().map(sort),
            list: term.list.iter().map(part).collect::<Option<_>>()?,
            bindings: term.bindings.iter().map(sort).collect(),
            indices: term.indices.iter().map(part).collect::<Option<_>>()?,
        })
    }

    /// The judgement of a sheet with this term, and the term; nothing if there is no room for it on a sheet.
    pub fn judge(&self) -> Option<(Judged, TermId)> {
        let mut sheet = SheetWriter::new();
        let name = Name::new(9);
        let list = parts(&mut sheet, &self.list)?;
        let indices = parts(&mut sheet, &self.indices)?;
        let sort = match &self.sort {
            Some(sort) => Some(sheet.sort(sort).ok()?),
            None => None,
        };
        let bindings = self.bindings.iter().map(|sort| Some((name, sheet.sort(sort).ok()?)));
        let bindings = bindings.collect::<Option<Vec<_>>>()?;
        let record = match self.kind {
            0 => TermRecord::Integer(self.number),
            1 => TermRecord::Real,
            2 => TermRecord::String,
            3 => TermRecord::RegLan,
            4 => TermRecord::BitVec(self.number),
            5 => TermRecord::Var(name, sort?),
            6 => TermRecord::App(list[0], &list[1..]),
            7 => TermRecord::Op(Operator::from_number(self.number)?, &list),
            8 => TermRecord::Binder(Binder::from_number(self.number)?, &bindings, list[0]),
            9 => {
                let (inner, values) = list.split_last()?;
                let values: Vec<(Name, TermId)> = values.iter().map(|value| (name, *value)).collect();
                let term = sheet.add_term(TermRecord::Let(&values, *inner)).ok()?;
                return judged(&sheet, term);
            }
            10 => TermRecord::Match(list[0], &list[1..]),
            11 => TermRecord::ParamOp { op: ParamOperator::from_number(self.number)?, op_args: &indices, args: &list },
            _ => TermRecord::AsOp(QualifiedOperator::from_number(self.number)?, sort?, &list),
        };
        let term = sheet.add_term(record).ok()?;
        judged(&sheet, term)
    }
}

/// Adds parts to a sheet.
fn parts(sheet: &mut SheetWriter, parts: &[Part]) -> Option<Vec<TermId>> {
    let add = |part: &Part| match part {
        Part::Of(sort) => {
            let sort = sheet.sort(sort).ok()?;
            sheet.term(TermRecord::Var(Name::new(9), sort)).ok()
        }
        Part::Integer(value) => sheet.term(TermRecord::Integer(*value)).ok(),
    };
    parts.iter().map(add).collect()
}

/// The judgement of a sheet; nothing if it is refused, as it is for a sort that is too large.
fn judged(sheet: &SheetWriter, term: TermId) -> Option<(Judged, TermId)> {
    let lent = Lent { rows: 2 * sheet.terms(), answers: 0, ..Lent::PROGRAM };
    Some((judge_with(&sheet.finish(), lent).ok()?, term))
}

/// The wrapper's sort of one of the model's.
pub fn sort(tree: &Tree) -> Arc<Sort> {
    let parts: Vec<Arc<Sort>> = tree.parts.iter().map(sort).collect();
    let name = Name::new(tree.name);
    let first = |at: usize| parts[at].clone();
    Arc::new(match tree.kind {
        Kind::Function => Sort::Function(parts),
        Kind::Atom => Sort::Atom(name, parts),
        Kind::Var => Sort::Var(name),
        Kind::Bool => Sort::Bool,
        Kind::Int => Sort::Int,
        Kind::Real => Sort::Real,
        Kind::String => Sort::String,
        Kind::RegLan => Sort::RegLan,
        Kind::Array => Sort::Array(first(0), first(1)),
        Kind::BitVec => Sort::BitVec(u32::try_from(tree.width).expect("a sheet's width")),
        Kind::ParamBitVec => Sort::ParamBitVec,
        Kind::Datatype => Sort::Datatype { name, args: parts },
        Kind::Par => Sort::Par(tree.names.iter().map(|name| Name::new(*name)).collect(), first(0)),
        Kind::Type => Sort::Type,
        Kind::Set => Sort::Set(first(0)),
        Kind::Tuple => Sort::Tuple(parts),
    })
}

/// The model's sort of one of the wrapper's.
pub fn tree(sort: &Sort) -> Tree {
    let parts: Vec<Tree> = sort.parts().map(|part| tree(part)).collect();
    let kind = model::sort::KINDS[usize::from(sort.kind())];
    let (name, width, names) = match sort {
        Sort::Atom(name, _) | Sort::Var(name) | Sort::Datatype { name, .. } => (name.number(), 0, vec![]),
        Sort::BitVec(width) => (0, u64::from(*width), vec![]),
        Sort::Par(names, _) => (0, 0, names.iter().map(|name| name.number()).collect()),
        _ => (0, 0, vec![]),
    };
    model::sort::Sort::new(kind, name, width, parts, names)
}
