//! Random sheets about what can go wrong when a term is put on sheets in pieces: scopes, indices, `@bv`, `str.len`, parametric heads, terms
//! that are refused.

use super::random::Random;
use napsilo::{Binder, Name, Operator, ParamOperator, SheetWriter, SortId, SortRecord, TermId, TermRecord};

/// The pools of terms by what their sorts mostly are.
const BOOL: usize = 0;
const INT: usize = 1;
const STRING: usize = 2;
const VECTOR: usize = 3;
const POOLS: usize = 4;

/// A sheet in the making.
struct Make<'a> {
    random: &'a mut Random,
    sheet: SheetWriter,
    /// A sort for each pool.
    sorts: [SortId; POOLS],
    /// A parametric function from any sort to itself.
    identity: TermId,
    /// The terms that are mostly of each sort.
    pools: [Vec<TermId>; POOLS],
}

const FITS: &str = "under the limits";

/// A random sheet of so many terms and a few more.
pub fn sheet(random: &mut Random, terms: usize) -> Vec<u8> {
    let mut sheet = SheetWriter::new();
    let mut sort = |record: SortRecord<'_>| sheet.add_sort(record).expect(FITS);
    let sorts = [sort(SortRecord::Bool), sort(SortRecord::Int), sort(SortRecord::String), sort(SortRecord::BitVec(8))];
    let var = sort(SortRecord::Var(Name::new(9)));
    let function = sort(SortRecord::Function(&[var, var]));
    let par = sort(SortRecord::Par(&[Name::new(9)], function));
    let identity = sheet.add_term(TermRecord::Var(Name::new(8), par)).expect(FITS);
    let mut make = Make { random, sheet, sorts, identity, pools: Default::default() };
    make.leaves();
    while make.sheet.terms() < terms {
        make.term();
    }
    make.sheet.finish().into_bytes()
}

impl Make<'_> {
    /// Adds a term to a pool.
    fn put(&mut self, pool: usize, term: TermRecord<'_>) {
        let id = self.sheet.add_term(term).expect(FITS);
        self.pools[pool].push(id);
    }

    /// Adds constants and variables. There are few names, so each has several sorts.
    fn leaves(&mut self) {
        self.put(INT, TermRecord::Integer(3));
        self.put(INT, TermRecord::Integer(1));
        self.put(STRING, TermRecord::String);
        self.put(VECTOR, TermRecord::BitVec(8));
        for pool in 0..POOLS {
            for name in 1..3 {
                let sort = self.sorts[pool];
                self.put(pool, TermRecord::Var(Name::new(name), sort));
            }
        }
    }

    /// A term of a pool, of any pool now and then.
    fn any(&mut self, pool: usize) -> TermId {
        let pool = if self.random.under(12) == 0 { self.random.under(POOLS) } else { pool };
        // Mostly a late one, so that terms grow deep.
        let late = self.pools[pool].len().min(4);
        let from = if self.random.under(3) == 0 { 0 } else { self.pools[pool].len() - late };
        let at = from + self.random.under(self.pools[pool].len() - from);
        self.pools[pool][at]
    }

    /// One of the names that variables have.
    fn name(&mut self) -> Name {
        Name::new(1 + self.random.under(2) as u16)
    }

    /// Adds a binder over a body of a pool.
    fn binder(&mut self) {
        let pool = self.random.one(&[BOOL, BOOL, BOOL, INT]);
        let (binder, result) = match (pool, self.random.under(4)) {
            (BOOL, 0) => (Binder::Choice, self.random.under(POOLS)),
            (BOOL, 1 | 2) => (self.random.one(&[Binder::Forall, Binder::Exists]), BOOL),
            _ => (Binder::Lambda, self.random.under(POOLS)),
        };
        let count = if binder == Binder::Choice { 1 } else { 1 + self.random.under(2) };
        let mut bindings: Vec<(Name, SortId)> = Vec::new();
        for _ in 0..count {
            let sort = self.sorts[self.random.under(POOLS)];
            bindings.push((self.name(), sort));
        }
        if binder == Binder::Choice {
            bindings[0].1 = self.sorts[result];
        }
        let body = self.any(pool);
        self.put(result, TermRecord::Binder(binder, &bindings, body));
    }

    /// Adds a Let over an inner term of a pool.
    fn letting(&mut self) {
        let pool = self.random.under(POOLS);
        let count = 1 + self.random.under(2);
        let mut values = Vec::new();
        for _ in 0..count {
            let of = self.random.under(POOLS);
            values.push((self.name(), self.any(of)));
        }
        let inner = self.any(pool);
        self.put(pool, TermRecord::Let(&values, inner));
    }

    /// Adds a term over what is there.
    fn term(&mut self) {
        let [a, b] = [INT; 2].map(|pool| self.any(pool));
        let [p, q] = [BOOL; 2].map(|pool| self.any(pool));
        let [s, t] = [STRING; 2].map(|pool| self.any(pool));
        let [v, w] = [VECTOR; 2].map(|pool| self.any(pool));
        let identity = self.identity;
        match self.random.under(19) {
            0 => self.put(BOOL, TermRecord::Op(Operator::And, &[p, q])),
            1 => self.put(BOOL, TermRecord::Op(Operator::Equals, &[a, b])),
            2 => self.put(BOOL, TermRecord::Op(Operator::Not, &[p])),
            3 => self.put(INT, TermRecord::Op(Operator::Add, &[a, b])),
            4 => self.put(INT, TermRecord::Op(Operator::Ite, &[p, a, b])),
            5 => self.put(INT, TermRecord::Op(Operator::StrLen, &[s])),
            6 => self.put(STRING, TermRecord::Op(Operator::StrConcat, &[s, t])),
            7 => self.put(VECTOR, TermRecord::Op(Operator::BvAdd, &[v, w])),
            8 => self.put(VECTOR, TermRecord::Op(Operator::BvConst, &[a, b])),
            9 => {
                let op = self.random.one(&[ParamOperator::ZeroExtend, ParamOperator::Repeat]);
                self.put(VECTOR, TermRecord::ParamOp { op, op_args: &[a], args: &[v] });
            }
            10 => {
                let op = ParamOperator::BvExtract;
                self.put(VECTOR, TermRecord::ParamOp { op, op_args: &[a, b], args: &[v] });
            }
            11 => {
                let op = ParamOperator::IntToBv;
                self.put(VECTOR, TermRecord::ParamOp { op, op_args: &[a], args: &[b] });
            }
            12 => self.put(BOOL, TermRecord::App(identity, &[p])),
            13 => self.put(INT, TermRecord::App(identity, &[a])),
            14 | 15 => self.letting(),
            _ => self.binder(),
        }
    }
}
