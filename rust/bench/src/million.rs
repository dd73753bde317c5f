//! Many terms at once: a batch beside carcara's pool, each in a process of its own, for its time and its memory.
//!
//! The terms are made while they are added, by the same choices for both sides. What the making takes by itself is measured in a third
//! process and taken off. A batch says both rows of each term, the pool says one.

use crate::commas;
use crate::system::timed;
use beside::random::Random;
use napsilo::{Binder, Operator as Op, ParamOperator};
use napsilo_batch::{Batch, BatchSort, BatchTerm, SortNode, TermNode};
use oracle::ast::lists::{BINDERS, INDEXED, OPERATORS};
use oracle::ast::{BindingList, Constant, Pool, Rc, Sort, Term};
use std::env;
use std::fs;
use std::hint::black_box;
use std::mem;
use std::process::{Command, Stdio};
use std::time::Duration;

/// A sort over those of a side.
enum Sorted<S> {
    Bool,
    Int,
    Atom,
    Array(S, S),
    BitVec(u32),
    Function(Vec<S>),
}

/// A term over those of a side.
enum Made<'a, S, T> {
    Integer(u32),
    Var(&'a str, S),
    App(T, &'a [T]),
    Op(Op, &'a [T]),
    Binder(Binder, &'a [(String, S)], T),
    Let(&'a str, T, T),
    ParamOp(ParamOperator, &'a [T], &'a [T]),
}

/// What takes terms and says their sorts.
trait Side {
    type Sort: Clone;
    type Term: Clone;
    /// Adds a sort.
    fn sort(&mut self, sort: Sorted<Self::Sort>) -> Self::Sort;
    /// Adds a term.
    fn term(&mut self, term: Made<'_, Self::Sort, Self::Term>) -> Self::Term;
    /// Says the sorts of all terms that are not said yet.
    fn judge(&mut self);
    /// How many of the terms are distinct, and how many sheets it took; 0 where that is not counted.
    fn counts(&self) -> [u64; 2] {
        [0; 2]
    }
}

/// The batch.
impl Side for Batch {
    type Sort = BatchSort;
    type Term = BatchTerm;

    fn sort(&mut self, sort: Sorted<BatchSort>) -> BatchSort {
        let node = match sort {
            Sorted::Bool => SortNode::Bool,
            Sorted::Int => SortNode::Int,
            Sorted::Atom => SortNode::Atom(self.name("U"), Vec::new()),
            Sorted::Array(index, element) => SortNode::Array(index, element),
            Sorted::BitVec(width) => SortNode::BitVec(width.into()),
            Sorted::Function(list) => SortNode::Function(list),
        };
        Batch::sort(self, &node)
    }

    fn term(&mut self, term: Made<'_, BatchSort, BatchTerm>) -> BatchTerm {
        match term {
            Made::Integer(number) => Batch::term(self, TermNode::Integer(number)),
            Made::Var(name, sort) => {
                let name = self.name(name);
                Batch::term(self, TermNode::Var(name, sort))
            }
            Made::App(head, args) => Batch::term(self, TermNode::App(head, args)),
            Made::Op(op, args) => Batch::term(self, TermNode::Op(op, args)),
            Made::Binder(binder, bindings, body) => {
                let bindings: Vec<_> = bindings.iter().map(|(name, sort)| (self.name(name), *sort)).collect();
                Batch::term(self, TermNode::Binder(binder, &bindings, body))
            }
            Made::Let(name, value, inner) => {
                let name = self.name(name);
                Batch::term(self, TermNode::Let(&[(name, value)], inner))
            }
            Made::ParamOp(op, op_args, args) => Batch::term(self, TermNode::ParamOp { op, op_args, args }),
        }
    }

    fn judge(&mut self) {
        let verdicts = Batch::judge(self);
        assert!(verdicts.terms().all(|term| verdicts.checked(term).is_ok() && verdicts.inferred(term).is_ok()));
    }

    fn counts(&self) -> [u64; 2] {
        [self.terms() as u64, self.sheets()]
    }
}

/// carcara's pool.
impl Side for Pool {
    type Sort = Rc<Sort>;
    type Term = Rc<Term>;

    fn sort(&mut self, sort: Sorted<Rc<Sort>>) -> Rc<Sort> {
        self.add_sort(match sort {
            Sorted::Bool => Sort::Bool,
            Sorted::Int => Sort::Int,
            Sorted::Atom => Sort::Atom("U".into(), Box::new([])),
            Sorted::Array(index, element) => Sort::Array(index, element),
            Sorted::BitVec(width) => Sort::BitVec(width as usize),
            Sorted::Function(list) => Sort::Function(list),
        })
    }

    fn term(&mut self, term: Made<'_, Rc<Sort>, Rc<Term>>) -> Rc<Term> {
        let term = self.add(match term {
            Made::Integer(number) => Term::Const(Constant::Integer(number.into())),
            Made::Var(name, sort) => Term::Var(name.to_owned(), sort),
            Made::App(head, args) => Term::App(head, args.to_vec()),
            Made::Op(op, args) => Term::Op(OPERATORS[usize::from(op.number())], args.to_vec()),
            Made::Binder(binder, bindings, body) => {
                Term::Binder(BINDERS[usize::from(binder.number())], BindingList(bindings.to_vec()), body)
            }
            Made::Let(name, value, inner) => Term::Let(BindingList(vec![(name.to_owned(), value)]), inner),
            Made::ParamOp(op, op_args, args) => {
                Term::ParamOp { op: INDEXED[usize::from(op.number())], op_args: op_args.to_vec(), args: args.to_vec() }
            }
        });
        black_box(Pool::sort(self, &term));
        term
    }

    /// The pool says a term's sort when the term is added.
    fn judge(&mut self) {}
}

/// Nothing but numbers: what the making of the terms takes by itself.
struct Nobody(u64);

impl Side for Nobody {
    type Sort = u64;
    type Term = u64;

    fn sort(&mut self, _: Sorted<u64>) -> u64 {
        self.0 += 1;
        self.0
    }

    fn term(&mut self, term: Made<'_, u64, u64>) -> u64 {
        black_box(&term);
        self.0 += 1;
        self.0
    }

    fn judge(&mut self) {}
}

/// The pools of terms, by their sorts.
const BOOL: usize = 0;
const INT: usize = 1;
const ATOM: usize = 2;
const ARRAY: usize = 3;
const VECTOR: usize = 4;
const POOLS: usize = 5;

/// The families by name: terms of many kinds; the same where a bound name has another sort elsewhere; a chain, each term over the one before.
const FAMILIES: [&str; 3] = ["mixed", "mixed, names with several sorts", "a chain of sums"];

/// Terms in the making.
struct Maker<'a, S: Side> {
    side: &'a mut S,
    random: Random,
    /// Whether a bound name belongs to one sort.
    own_names: bool,
    sorts: Vec<S::Sort>,
    pools: Vec<Vec<S::Term>>,
    heads: [S::Term; 2],
    /// How many terms were added.
    added: usize,
}

impl<'a, S: Side> Maker<'a, S> {
    /// The sorts and variables to start from: 100 variables of each sort, and two functions.
    fn new(side: &'a mut S, own_names: bool) -> Self {
        let [bool, int, atom] = [Sorted::Bool, Sorted::Int, Sorted::Atom].map(|sort| side.sort(sort));
        let array = side.sort(Sorted::Array(int.clone(), atom.clone()));
        let vector = side.sort(Sorted::BitVec(32));
        let unary = side.sort(Sorted::Function(vec![atom.clone(), atom.clone()]));
        let told = side.sort(Sorted::Function(vec![atom.clone(), int.clone(), bool.clone()]));
        let heads = [("f", unary), ("p", told)].map(|(name, sort)| side.term(Made::Var(name, sort)));
        let sorts = vec![bool, int, atom, array, vector];
        let mut maker =
            Maker { side, random: Random::new(17), own_names, sorts, pools: vec![Vec::new(); POOLS], heads, added: 2 };
        for pool in 0..POOLS {
            for number in 0..100 {
                let sort = maker.sorts[pool].clone();
                maker.put(pool, Made::Var(&format!("x{pool}_{number}"), sort));
            }
        }
        for number in 0..32 {
            maker.put(INT, Made::Integer(number));
        }
        maker
    }

    /// Adds a term to a pool.
    fn put(&mut self, pool: usize, term: Made<'_, S::Sort, S::Term>) {
        let term = self.side.term(term);
        self.pools[pool].push(term);
        self.added += 1;
    }

    /// A term of a pool: one of the last 1,000 mostly, as in a proof.
    fn any(&mut self, pool: usize) -> S::Term {
        let count = self.pools[pool].len();
        let from = if self.random.percent(80) { count.saturating_sub(1_000) } else { 0 };
        self.pools[pool][from + self.random.under(count - from)].clone()
    }

    /// Adds an operator over terms of pools.
    fn operator(&mut self, op: Op, arguments: &[usize], result: usize) {
        let arguments: Vec<S::Term> = arguments.iter().map(|pool| self.any(*pool)).collect();
        self.put(result, Made::Op(op, &arguments));
    }

    /// Adds a small formula about a new variable of any sort, in a quantifier over it or in a Let with a value.
    fn scope(&mut self, letting: bool) {
        let (pool, number) = (self.random.under(POOLS), self.random.under(100));
        let name = if self.own_names { format!("y{pool}_{number}") } else { format!("y{number}") };
        let sort = self.sorts[pool].clone();
        let var = self.side.term(Made::Var(&name, sort.clone()));
        let [other, told] = [pool, BOOL].map(|pool| self.pools[pool][self.random.under(100)].clone());
        let same = self.side.term(Made::Op(Op::Equals, &[var, other]));
        let body = self.side.term(Made::Op(Op::Or, &[told, same]));
        self.added += 3;
        match letting {
            true => {
                let value = self.any(pool);
                self.put(BOOL, Made::Let(&name, value, body));
            }
            false => {
                let binder = *self.random.of(&[Binder::Forall, Binder::Exists]);
                self.put(BOOL, Made::Binder(binder, &[(name, sort)], body));
            }
        }
    }

    /// Adds a term over what is there.
    fn term(&mut self) {
        const RULES: [(Op, &[usize], usize); 18] = [
            (Op::Not, &[BOOL], BOOL),
            (Op::And, &[BOOL, BOOL], BOOL),
            (Op::Or, &[BOOL, BOOL, BOOL], BOOL),
            (Op::Xor, &[BOOL, BOOL], BOOL),
            (Op::Implies, &[BOOL, BOOL], BOOL),
            (Op::Equals, &[ATOM, ATOM], BOOL),
            (Op::Equals, &[INT, INT], BOOL),
            (Op::Equals, &[VECTOR, VECTOR], BOOL),
            (Op::LessEq, &[INT, INT], BOOL),
            (Op::Add, &[INT, INT], INT),
            (Op::Sub, &[INT, INT], INT),
            (Op::Mult, &[INT, INT], INT),
            (Op::Ite, &[BOOL, ATOM, ATOM], ATOM),
            (Op::Select, &[ARRAY, INT], ATOM),
            (Op::Store, &[ARRAY, INT, ATOM], ARRAY),
            (Op::BvAdd, &[VECTOR, VECTOR], VECTOR),
            (Op::BvXor, &[VECTOR, VECTOR], VECTOR),
            (Op::BvULt, &[VECTOR, VECTOR], BOOL),
        ];
        match self.random.under(24) {
            at @ 0..18 => self.operator(RULES[at].0, RULES[at].1, RULES[at].2),
            18 | 19 => {
                let (head, argument) = (self.heads[0].clone(), self.any(ATOM));
                self.put(ATOM, Made::App(head, &[argument]));
            }
            20 => {
                let (head, arguments) = (self.heads[1].clone(), [self.any(ATOM), self.any(INT)]);
                self.put(BOOL, Made::App(head, &arguments));
            }
            21 => {
                let (index, argument) = (self.side.term(Made::Integer(32)), self.any(INT));
                self.put(VECTOR, Made::ParamOp(ParamOperator::IntToBv, &[index], &[argument]));
            }
            22 => self.scope(false),
            _ => self.scope(true),
        }
    }

    /// Adds a sum over the last one and a variable.
    fn link(&mut self) {
        let (last, other) = (self.pools[INT][self.pools[INT].len() - 1].clone(), self.pools[INT][0].clone());
        self.put(INT, Made::Op(Op::Add, &[last, other]));
    }
}

/// Adds terms of a family to a side and has them judged; what adding and judging take.
fn fill<S: Side>(side: &mut S, family: &str, terms: usize) -> [Duration; 2] {
    let (adding, pools) = timed(|| {
        let mut maker = Maker::new(side, family != FAMILIES[1]);
        while maker.added < terms {
            match family == FAMILIES[2] {
                true => maker.link(),
                false => maker.term(),
            }
        }
        maker.pools
    });
    // The end of the terms is not in the time.
    mem::forget(pools);
    [adding, timed(|| side.judge()).0]
}

/// The greatest memory that the process had, in KiB.
fn peak() -> Option<u64> {
    let status = fs::read_to_string("/proc/self/status").ok()?;
    let line = status.lines().find_map(|line| line.strip_prefix("VmHWM:"))?;
    line.split_whitespace().next()?.parse().ok()
}

/// One side of one family: prints what adding and judging take in ns, the distinct terms, the sheets, and the greatest memory in KiB.
pub fn run(side: &str, family: &str, terms: usize) -> Option<()> {
    let ([adding, judging], [distinct, sheets]) = match side {
        "batch" => told(Batch::new(), family, terms),
        "pool" => told(Pool::new(), family, terms),
        "nobody" => told(Nobody(0), family, terms),
        _ => return None,
    };
    println!("{} {} {distinct} {sheets} {}", adding.as_nanos(), judging.as_nanos(), peak()?);
    Some(())
}

/// Fills a side, which is not ended: what that takes, and what is counted.
fn told<S: Side>(mut side: S, family: &str, terms: usize) -> ([Duration; 2], [u64; 2]) {
    let took = fill(&mut side, family, terms);
    let counts = side.counts();
    mem::forget(side);
    (took, counts)
}

/// The median of so many runs of a side, by the time of both works: what they take in ms, the distinct terms, the sheets, the memory in KiB.
fn measured(side: &str, family: &str, terms: usize, runs: usize) -> Option<[f64; 5]> {
    let mut told: Vec<[f64; 5]> = Vec::new();
    for _ in 0..runs.max(1) {
        let mut child = Command::new(env::current_exe().ok()?);
        child.args(["batch-run", side, family, &terms.to_string()]).stderr(Stdio::inherit());
        let text = String::from_utf8(child.output().ok()?.stdout).ok()?;
        let numbers: Vec<f64> = text.split_whitespace().filter_map(|word| word.parse().ok()).collect();
        let [adding, judging, distinct, sheets, peak] = numbers.try_into().ok()?;
        told.push([adding / 1e6, judging / 1e6, distinct, sheets, peak]);
    }
    told.sort_by(|one, other| (one[0] + one[1]).total_cmp(&(other[0] + other[1])));
    Some(told[told.len() / 2])
}

/// Measures all families.
pub fn measure(terms: usize, runs: usize) -> Option<()> {
    println!(
        "| family | added | distinct | sheets | adding | judging | pool | ratio | batch, MiB | pool, MiB | ratio |"
    );
    println!("|---|---|---|---|---|---|---|---|---|---|---|");
    for family in FAMILIES {
        let nobody = measured("nobody", family, terms, runs)?;
        let batch = measured("batch", family, terms, runs)?;
        let pool = measured("pool", family, terms, runs)?;
        let (adding, judging) = (batch[0] - nobody[0], batch[1]);
        let theirs = pool[0] - nobody[0];
        let [ours_mib, theirs_mib] = [batch, pool].map(|side| (side[4] - nobody[4]) / 1024.0);
        println!(
            "| {family} | {} | {} | {} | {adding:.0} | {judging:.0} | {theirs:.0} | {:.2} | {ours_mib:.0} | {theirs_mib:.0} | {:.2} |",
            commas(terms),
            commas(batch[2] as usize),
            commas(batch[3] as usize),
            (adding + judging) / theirs,
            ours_mib / theirs_mib,
        );
    }
    Some(())
}
