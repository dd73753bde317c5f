//! Terms on a sheet with names, and what is said of them.

use napsilo::{Column, Explanation, Names, Operator, ParamOperator, SheetWriter, Sort, TermId, TermRecord};
use std::sync::Arc;

/// A writer with a table of names.
#[derive(Default)]
pub struct Made {
    pub sheet: SheetWriter,
    pub names: Names,
}

impl Made {
    /// A variable.
    pub fn var(&mut self, name: &str, sort: &Sort) -> TermId {
        let (name, sort) = (self.names.name(name).unwrap(), self.sheet.sort(sort).unwrap());
        self.sheet.term(TermRecord::Var(name, sort)).unwrap()
    }

    /// A term.
    pub fn term(&mut self, term: TermRecord<'_>) -> TermId {
        self.sheet.add_term(term).unwrap()
    }

    /// An integer constant.
    pub fn integer(&mut self, value: u32) -> TermId {
        self.term(TermRecord::Integer(value))
    }

    /// The explanation of a term's checked row.
    pub fn checked(&self, term: TermId) -> Explanation {
        self.sheet.judge().unwrap().explain(term).unwrap().expect("refused")
    }

    /// The explanation of a term's inferred row.
    pub fn inferred(&self, term: TermId) -> Explanation {
        self.sheet.judge().unwrap().explain_inferred(term).unwrap().expect("refused")
    }

    /// Asserts the text of the checked row of a term that is added last, without the term's number.
    pub fn says(&mut self, term: TermRecord<'_>, text: &str) {
        let term = self.term(term);
        let explanation = self.checked(term);
        assert_eq!(explanation.with_names(&self.names).to_string(), format!("T{} {text}", term.number()));
        assert_eq!(explanation.unnumbered(&self.names).to_string(), text);
    }

    /// Asserts the text of the inferred row of a term that is added last.
    pub fn panics(&mut self, term: TermRecord<'_>, text: &str) {
        let term = self.term(term);
        let explanation = self.inferred(term);
        assert_eq!(explanation.column, Column::Inferred);
        let text = format!("T{} {text} (!21, inferred)", term.number());
        assert_eq!(explanation.with_names(&self.names).to_string(), text);
    }
}

/// An operator.
pub fn op(op: Operator, args: &[TermId]) -> TermRecord<'_> {
    TermRecord::Op(op, args)
}

/// An indexed operator.
pub fn indexed<'a>(op: ParamOperator, op_args: &'a [TermId], args: &'a [TermId]) -> TermRecord<'a> {
    TermRecord::ParamOp { op, op_args, args }
}

/// A function sort.
pub fn function(sorts: &[Sort]) -> Sort {
    Sort::Function(sorts.iter().cloned().map(Arc::new).collect())
}

/// An array sort.
pub fn array(index: Sort, element: Sort) -> Sort {
    Sort::Array(Arc::new(index), Arc::new(element))
}
