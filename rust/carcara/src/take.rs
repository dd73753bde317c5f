//! Takes carcara's sorts and terms into a batch.

use crate::{Proof, Untaken};
use napsilo::{Binder, Operator, ParamOperator, QualifiedOperator};
use napsilo_batch::{BatchSort, BatchTerm, SortNode, TermNode};
use oracle::ast::lists::{BINDERS, INDEXED, OPERATORS, QUALIFIED};
use oracle::ast::{self, Constant, Rc, Sort, Term};
use std::collections::HashMap;
use std::hash::Hash;

/// The operators that sheets have, by carcara's. Both enums have the same order.
#[derive(Debug)]
pub struct Operators {
    operators: HashMap<ast::Operator, Operator>,
    indexed: HashMap<ast::ParamOperator, ParamOperator>,
}

impl Default for Operators {
    fn default() -> Self {
        Operators { operators: paired(&OPERATORS, Operator::ALL), indexed: paired(&INDEXED, ParamOperator::ALL) }
    }
}

/// Each of carcara's with ours at the same place, as far as there is one.
fn paired<A: Copy + Eq + Hash, B: Copy>(theirs: &[A], ours: &[B]) -> HashMap<A, B> {
    theirs.iter().copied().zip(ours.iter().copied()).collect()
}

/// Ours at the place of carcara's.
fn at_its_place<A: Copy + PartialEq, B: Copy>(theirs: &[A], ours: &[B], one: A) -> B {
    ours[theirs.iter().position(|other| *other == one).expect("the list has all of them")]
}

/// The terms that a term is made of: head, arguments, body, values and inner term, subject and bodies, indices.
pub fn parts(term: &Term) -> Vec<&Rc<Term>> {
    match term {
        Term::Const(_) | Term::Var(..) => Vec::new(),
        Term::App(head, args) => [head].into_iter().chain(args).collect(),
        Term::Op(_, args) | Term::AsOp(_, _, args) => args.iter().collect(),
        Term::Binder(_, _, body) => vec![body],
        Term::Let(values, inner) => values.0.iter().map(|(_, value)| value).chain([inner]).collect(),
        Term::Match(subject, cases) => [subject].into_iter().chain(cases.iter().map(|case| &case.body)).collect(),
        Term::ParamOp { op_args, args, .. } => args.iter().chain(op_args).collect(),
    }
}

/// The parts of a sort.
fn sort_parts(sort: &Sort) -> Vec<&Rc<Sort>> {
    match sort {
        Sort::Function(list) | Sort::Tuple(list) => list.iter().collect(),
        Sort::Datatype { args, .. } => args.iter().collect(),
        Sort::Atom(_, args) => args.iter().collect(),
        Sort::Array(index, element) => vec![index, element],
        Sort::Par(_, part) | Sort::Set(part) => vec![part],
        _ => Vec::new(),
    }
}

impl Proof {
    /// Takes a sort with all that it is made of.
    pub fn take_sort(&mut self, sort: &Rc<Sort>) -> BatchSort {
        let mut left = vec![(sort, false)];
        while let Some((sort, parts_are_taken)) = left.pop() {
            if self.sorts.contains_key(sort) {
                continue;
            }
            if !parts_are_taken {
                left.push((sort, true));
                left.extend(sort_parts(sort).into_iter().map(|part| (part, false)));
                continue;
            }
            let node = self.sort_node(sort);
            let own = self.batch.sort(&node);
            self.sorts.insert(sort.clone(), own);
        }
        self.sorts[sort]
    }

    /// A sort over its parts, which were taken.
    fn sort_node(&mut self, sort: &Sort) -> SortNode {
        let list = |proof: &Self, sorts: &[Rc<Sort>]| sorts.iter().map(|sort| proof.sorts[sort]).collect();
        match sort {
            Sort::Function(sorts) => SortNode::Function(list(self, sorts)),
            Sort::Atom(name, args) => SortNode::Atom(self.batch.name(name), list(self, args)),
            Sort::Var(name) => SortNode::Var(self.batch.name(name)),
            Sort::Bool => SortNode::Bool,
            Sort::Int => SortNode::Int,
            Sort::Real => SortNode::Real,
            Sort::String => SortNode::String,
            Sort::RegLan => SortNode::RegLan,
            Sort::Array(index, element) => SortNode::Array(self.sorts[index], self.sorts[element]),
            Sort::BitVec(width) => SortNode::BitVec(*width as u64),
            Sort::ParamBitVec => SortNode::ParamBitVec,
            Sort::Datatype { name, args } => SortNode::Datatype(self.batch.name(name), list(self, args)),
            Sort::Par(names, part) => {
                SortNode::Par(names.iter().map(|name| self.batch.name(name)).collect(), self.sorts[part])
            }
            Sort::Type => SortNode::Type,
            Sort::Set(part) => SortNode::Set(self.sorts[part]),
            Sort::Tuple(sorts) => SortNode::Tuple(list(self, sorts)),
        }
    }

    /// Takes a term with all that it is made of. One that a sheet cannot say is not taken, and neither is any that is made of it; what else is
    /// below is.
    pub fn take(&mut self, term: &Rc<Term>) -> Result<BatchTerm, Untaken> {
        let mut left = vec![(term, false)];
        while let Some((term, parts_are_taken)) = left.pop() {
            if self.terms.contains_key(term) {
                continue;
            }
            if !parts_are_taken {
                left.push((term, true));
                left.extend(parts(term).into_iter().rev().map(|part| (part, false)));
                continue;
            }
            let own = self.add(term);
            self.terms.insert(term.clone(), own);
        }
        self.terms[term].clone()
    }

    /// The terms of the batch for some of carcara's that were looked at.
    fn taken<'t>(&self, terms: impl IntoIterator<Item = &'t Rc<Term>>) -> Result<Vec<BatchTerm>, Untaken> {
        let own = |term: &Rc<Term>| self.terms[term].as_ref().copied().map_err(|_| Untaken::Below);
        terms.into_iter().map(own).collect()
    }

    /// Adds a term whose parts were looked at. What is told of the term itself comes before what is told of its parts.
    fn add(&mut self, term: &Term) -> Result<BatchTerm, Untaken> {
        match term {
            Term::Const(constant) => Ok(self.batch.term(constant_node(constant))),
            Term::Var(name, sort) => {
                let (name, sort) = (self.batch.name(name), self.take_sort(sort));
                Ok(self.batch.term(TermNode::Var(name, sort)))
            }
            Term::App(head, args) => {
                let (head, args) = (self.taken([head])?, self.taken(args)?);
                Ok(self.batch.term(TermNode::App(head[0], &args)))
            }
            Term::Op(op, args) => self.add_operator(*op, args),
            Term::Binder(binder, bindings, body) => {
                let body = self.taken([body])?;
                let bindings: Vec<_> =
                    bindings.0.iter().map(|(name, sort)| (self.batch.name(name), self.take_sort(sort))).collect();
                let binder = at_its_place(&BINDERS, Binder::ALL, *binder);
                Ok(self.batch.term(TermNode::Binder(binder, &bindings, body[0])))
            }
            Term::Let(values, inner) => {
                let (inner, terms) = (self.taken([inner])?, self.taken(values.0.iter().map(|(_, value)| value))?);
                let names: Vec<_> = values.0.iter().map(|(name, _)| self.batch.name(name)).collect();
                let values: Vec<_> = names.into_iter().zip(terms).collect();
                Ok(self.batch.term(TermNode::Let(&values, inner[0])))
            }
            Term::Match(subject, cases) => {
                let (subject, bodies) = (self.taken([subject])?, self.taken(cases.iter().map(|case| &case.body))?);
                Ok(self.batch.term(TermNode::Match(subject[0], &bodies)))
            }
            Term::ParamOp { op, op_args, args } => self.add_indexed(*op, op_args, args),
            Term::AsOp(op, sort, args) => {
                let (args, sort) = (self.taken(args)?, self.take_sort(sort));
                let own = at_its_place(&QUALIFIED, QualifiedOperator::ALL, *op);
                Ok(self.batch.term(TermNode::AsOp(own, sort, &args)))
            }
        }
    }

    /// Adds an operator over arguments that were looked at.
    fn add_operator(&mut self, op: ast::Operator, args: &[Rc<Term>]) -> Result<BatchTerm, Untaken> {
        let own = self.operators.operators.get(&op).copied();
        let own = own.ok_or_else(|| untaken_operator(op))?;
        let args = self.taken(args)?;
        Ok(self.batch.term(TermNode::Op(own, &args)))
    }

    /// Adds an indexed operator over indices and arguments that were looked at.
    fn add_indexed(
        &mut self,
        op: ast::ParamOperator,
        op_args: &[Rc<Term>],
        args: &[Rc<Term>],
    ) -> Result<BatchTerm, Untaken> {
        let own = self.operators.indexed.get(&op).copied();
        let own = own.ok_or_else(|| untaken_indexed(op))?;
        let (op_args, args) = (self.taken(op_args)?, self.taken(args)?);
        Ok(self.batch.term(TermNode::ParamOp { op: own, op_args: &op_args, args: &args }))
    }
}

/// A constant. Of an integer the value is kept where a sheet can hold it; no sort depends on other values.
fn constant_node(constant: &Constant) -> TermNode<'static> {
    match constant {
        Constant::Integer(value) => match value.to_usize().map(u32::try_from) {
            Some(Ok(value)) => TermNode::Integer(value),
            _ => TermNode::LargeInteger,
        },
        Constant::Real(_) => TermNode::Real,
        Constant::String(_) => TermNode::String,
        Constant::RegLan(..) => TermNode::RegLan,
        Constant::BitVec(_, width) => TermNode::BitVec(*width as u64),
    }
}

/// What is told of an operator that no sheet has.
fn untaken_operator(op: ast::Operator) -> Untaken {
    match op {
        ast::Operator::Custom(custom) => Untaken::Custom(custom.def().name.clone()),
        other => unreachable!("sheets have {other}"),
    }
}

/// What is told of an indexed operator that no sheet has.
fn untaken_indexed(op: ast::ParamOperator) -> Untaken {
    match op {
        ast::ParamOperator::Tester => Untaken::Tester,
        ast::ParamOperator::TupleSelect => Untaken::TupleSelect,
        other => unreachable!("sheets have {other}"),
    }
}
