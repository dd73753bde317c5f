//! Takes the sorts and terms of a sheet into a batch.

use crate::{Batch, BatchName, BatchSort, BatchTerm, SortNode, TermNode};
use napsilo::{Binder, Lent, Operator, ParamOperator, QualifiedOperator, Record, Records, Refusal, judge_into};

/// What the reading of an accepted sheet relies on.
const ACCEPTED: &str = "the sheet is accepted";

impl Batch {
    /// Adds the sorts and terms of a sheet; its terms, in their order. Its names have the strings that the program prints: `?` for 0, `n` and the
    /// number for others. Questions are not taken.
    ///
    /// A sheet that the library refuses is not taken; the library is asked on the stack of the caller, of which [`napsilo::STACK`] bytes
    /// must be left.
    pub fn add_sheet(&mut self, sheet: &[u8]) -> Result<Vec<BatchTerm>, Refusal> {
        let Lent { records, places, rows, answers } = Lent::PROGRAM;
        let [mut places, mut rows, mut answers] = [places, rows, answers].map(|length| vec![0; length]);
        judge_into(sheet, &mut vec![0; records], &mut places, &mut rows, &mut answers)?;
        let Records { sorts, terms, .. } = napsilo::records(sheet).expect(ACCEPTED);
        let mut taken = Taken { batch: self, sorts: Vec::new(), terms: Vec::new() };
        sorts.iter().for_each(|record| taken.sort(record));
        terms.iter().for_each(|record| taken.term(record));
        Ok(taken.terms)
    }
}

/// What is taken of a sheet so far.
struct Taken<'a> {
    batch: &'a mut Batch,
    sorts: Vec<BatchSort>,
    terms: Vec<BatchTerm>,
}

impl Taken<'_> {
    /// A name by its number.
    fn name(&mut self, number: u16) -> BatchName {
        self.batch.name(&napsilo::Name::new(number).to_string())
    }

    /// Names by their numbers.
    fn names(&mut self, numbers: &[u16]) -> Vec<BatchName> {
        numbers.iter().map(|number| self.name(*number)).collect()
    }

    /// Terms by their numbers.
    fn listed(&self, numbers: &[u16]) -> Vec<BatchTerm> {
        numbers.iter().map(|number| self.terms[usize::from(*number)]).collect()
    }

    /// Takes the sort of a record.
    fn sort(&mut self, record: &Record) {
        let list: Vec<BatchSort> = record.list.iter().map(|number| self.sorts[usize::from(*number)]).collect();
        let node = match record.kind {
            0 => SortNode::Function(list),
            1 => SortNode::Atom(self.name(record.name), list),
            2 => SortNode::Var(self.name(record.name)),
            3 => SortNode::Bool,
            4 => SortNode::Int,
            5 => SortNode::Real,
            6 => SortNode::String,
            7 => SortNode::RegLan,
            8 => SortNode::Array(list[0], list[1]),
            9 => SortNode::BitVec(record.number.into()),
            10 => SortNode::ParamBitVec,
            11 => SortNode::Datatype(self.name(record.name), list),
            12 => SortNode::Par(self.names(&record.second), list[0]),
            13 => SortNode::Type,
            14 => SortNode::Set(list[0]),
            15 => SortNode::Tuple(list),
            kind => unreachable!("no sort has the kind {kind}"),
        };
        let sort = self.batch.sort(&node);
        self.sorts.push(sort);
    }

    /// Takes the term of a record.
    fn term(&mut self, record: &Record) {
        let list = self.listed(&record.list);
        let number = record.number;
        let own = |sorts: &[BatchSort], number: u16| sorts[usize::from(number)];
        let term = match record.kind {
            0 => self.batch.term(TermNode::Integer(number)),
            1 => self.batch.term(TermNode::Real),
            2 => self.batch.term(TermNode::String),
            3 => self.batch.term(TermNode::RegLan),
            4 => self.batch.term(TermNode::BitVec(number.into())),
            5 => {
                let name = self.name(record.name);
                self.batch.term(TermNode::Var(name, own(&self.sorts, record.sort)))
            }
            6 => self.batch.term(TermNode::App(list[0], &list[1..])),
            7 => self.batch.term(TermNode::Op(Operator::from_number(number).expect(ACCEPTED), &list)),
            8 => {
                let binding = |(name, sort): &(u16, u16)| (self.name(*name), own(&self.sorts, *sort));
                let bindings: Vec<_> = record.pairs.iter().map(binding).collect();
                self.batch.term(TermNode::Binder(Binder::from_number(number).expect(ACCEPTED), &bindings, list[0]))
            }
            9 => {
                let (inner, values) = list.split_last().expect(ACCEPTED);
                let values: Vec<_> = self.names(&record.second).into_iter().zip(values.iter().copied()).collect();
                self.batch.term(TermNode::Let(&values, *inner))
            }
            10 => self.batch.term(TermNode::Match(list[0], &list[1..])),
            11 => {
                let op = ParamOperator::from_number(number).expect(ACCEPTED);
                let op_args = self.listed(&record.second);
                self.batch.term(TermNode::ParamOp { op, op_args: &op_args, args: &list })
            }
            12 => {
                let op = QualifiedOperator::from_number(number).expect(ACCEPTED);
                self.batch.term(TermNode::AsOp(op, own(&self.sorts, record.sort), &list))
            }
            kind => unreachable!("no term has the kind {kind}"),
        };
        self.terms.push(term);
    }
}
