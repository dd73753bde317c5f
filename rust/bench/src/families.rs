//! Sheets of one family of operators: leaves, then random terms over what is there. Every term has an inferred sort.

use beside::random::Random;
use napsilo::Operator as Op;
use napsilo::{Binder, Name, ParamOperator, QualifiedOperator, SheetWriter, SortId, SortRecord, TermId, TermRecord};

/// Makes a sheet of so many terms from a seed.
pub type Family = fn(usize, u64) -> Vec<u8>;

/// The families by name.
pub const FAMILIES: [(&str, Family); 12] = [
    ("integer and real arithmetic", arithmetic),
    ("integers and reals mixed", mixed),
    ("core", core),
    ("arrays", arrays),
    ("bit vectors of many widths", vectors),
    ("concat, extract, extend", slices),
    ("strings and regular expressions", strings),
    ("sets and relations", sets),
    ("binders and lambdas", binders),
    ("lets", lets),
    ("plain applications", applications),
    ("parametric applications", parametric),
];

/// A sheet in the making. Terms stand in pools; those of a pool have one sort.
pub struct Make {
    /// The sheet.
    pub sheet: SheetWriter,
    /// The source of choices.
    pub random: Random,
    /// How many terms are wanted.
    most: usize,
    /// The terms of each pool.
    pools: Vec<Vec<TermId>>,
}

/// An operator, the pools of its arguments, and the pool of the result.
type Rule = (Op, &'static [usize], usize);

impl Make {
    /// A sheet without a record.
    pub fn new(most: usize, seed: u64) -> Self {
        Make { sheet: SheetWriter::new(), random: Random::new(seed), most, pools: Vec::new() }
    }

    /// Adds a sort.
    pub fn sort(&mut self, sort: SortRecord<'_>) -> SortId {
        self.sheet.add_sort(sort).expect("a sort within the limits")
    }

    /// Adds a term.
    pub fn term(&mut self, term: TermRecord<'_>) -> TermId {
        self.sheet.add_term(term).expect("a term within the limits")
    }

    /// Adds a variable with a name of its own.
    pub fn var(&mut self, sort: SortId) -> TermId {
        let name = Name::new(u16::try_from(self.sheet.terms() + 100).expect("few"));
        self.term(TermRecord::Var(name, sort))
    }

    /// With pools of integers (0), reals (1) and what is said of them (2).
    fn of_numbers(most: usize, seed: u64) -> Self {
        let mut make = Self::new(most, seed);
        make.pool(SortRecord::Int);
        make.pool(SortRecord::Real);
        make.pool(SortRecord::Bool);
        make
    }

    /// Adds a pool with some variables of a sort; its number.
    fn pool(&mut self, sort: SortRecord<'_>) -> SortId {
        let sort = self.sort(sort);
        self.pool_of(sort);
        sort
    }

    /// Adds a pool with some variables of a sort that is there.
    fn pool_of(&mut self, sort: SortId) {
        let count = (self.most / 128).clamp(1, 16);
        let terms = (0..count).map(|_| self.var(sort)).collect();
        self.pools.push(terms);
    }

    /// A term of a pool.
    fn any(&mut self, pool: usize) -> TermId {
        *self.random.of(&self.pools[pool])
    }

    /// Adds a term to a pool.
    fn put(&mut self, pool: usize, term: TermRecord<'_>) {
        let id = self.term(term);
        self.pools[pool].push(id);
    }

    /// Adds a term by a rule.
    fn by(&mut self, (operator, arguments, result): Rule) {
        let arguments: Vec<TermId> = arguments.iter().map(|pool| self.any(*pool)).collect();
        self.put(result, TermRecord::Op(operator, &arguments));
    }

    /// Whether the sheet has fewer terms than are wanted.
    fn more(&self) -> bool {
        self.sheet.terms() < self.most
    }

    /// Fills the sheet by rules.
    fn filled(mut self, rules: &[Rule]) -> Vec<u8> {
        while self.more() {
            let rule = *self.random.of(rules);
            self.by(rule);
        }
        self.sheet.finish().into_bytes()
    }
}

/// Integers and reals, each by themselves.
fn arithmetic(most: usize, seed: u64) -> Vec<u8> {
    Make::of_numbers(most, seed).filled(&[
        (Op::Add, &[0, 0], 0),
        (Op::Add, &[0, 0, 0], 0),
        (Op::Sub, &[0, 0], 0),
        (Op::Sub, &[0], 0),
        (Op::Mult, &[0, 0], 0),
        (Op::IntDiv, &[0, 0], 0),
        (Op::Mod, &[0, 0], 0),
        (Op::Abs, &[0], 0),
        (Op::ToReal, &[0], 1),
        (Op::ToInt, &[1], 0),
        (Op::Add, &[1, 1], 1),
        (Op::Sub, &[1, 1], 1),
        (Op::Mult, &[1, 1], 1),
        (Op::RealDiv, &[1, 1], 1),
        (Op::LessThan, &[0, 0], 2),
        (Op::GreaterEq, &[1, 1], 2),
        (Op::IsInt, &[1], 2),
    ])
}

/// Integers and reals beside each other: sums, products, quotients and orders of both.
fn mixed(most: usize, seed: u64) -> Vec<u8> {
    Make::of_numbers(most, seed).filled(&[
        (Op::Add, &[0, 1], 1),
        (Op::Add, &[1, 0, 0], 1),
        (Op::Add, &[0, 0, 0, 1], 1),
        (Op::Sub, &[1, 0], 1),
        (Op::Sub, &[0, 1, 1], 1),
        (Op::Mult, &[0, 1], 1),
        (Op::Mult, &[1, 0, 1], 1),
        (Op::RealDiv, &[0, 0], 1),
        (Op::RealDiv, &[1, 0], 1),
        (Op::RealDiv, &[0, 1, 0], 1),
        (Op::ToInt, &[1], 0),
        (Op::LessThan, &[0, 1], 2),
        (Op::GreaterThan, &[1, 0, 0], 2),
        (Op::LessEq, &[0, 0, 1], 2),
        (Op::GreaterEq, &[1, 0], 2),
    ])
}

/// Bool (0) and a declared sort (1).
fn core(most: usize, seed: u64) -> Vec<u8> {
    let mut make = Make::new(most, seed);
    make.pool(SortRecord::Bool);
    make.pool(SortRecord::Atom(Name::new(1), &[]));
    make.filled(&[
        (Op::Not, &[0], 0),
        (Op::Implies, &[0, 0], 0),
        (Op::And, &[0, 0], 0),
        (Op::And, &[0, 0, 0], 0),
        (Op::Or, &[0, 0], 0),
        (Op::Xor, &[0, 0], 0),
        (Op::Equals, &[0, 0], 0),
        (Op::Equals, &[1, 1], 0),
        (Op::Distinct, &[1, 1, 1], 0),
        (Op::Ite, &[0, 1, 1], 1),
        (Op::Ite, &[0, 0, 0], 0),
    ])
}

/// Integers (0), reals (1), arrays (2), arrays of arrays (3), Bool (4), and constant arrays.
fn arrays(most: usize, seed: u64) -> Vec<u8> {
    let mut make = Make::new(most, seed);
    let int = make.pool(SortRecord::Int);
    let real = make.pool(SortRecord::Real);
    let array = make.pool(SortRecord::Array(int, real));
    make.pool(SortRecord::Array(int, array));
    make.pool(SortRecord::Bool);
    let rules: [Rule; 6] = [
        (Op::Select, &[2, 0], 1),
        (Op::Store, &[2, 0, 1], 2),
        (Op::Select, &[3, 0], 2),
        (Op::Store, &[3, 0, 2], 3),
        (Op::Equals, &[2, 2], 4),
        (Op::Ite, &[4, 2, 2], 2),
    ];
    while make.more() {
        let value = make.any(1);
        match make.random.under(8) {
            0 => make.put(2, TermRecord::AsOp(QualifiedOperator::Const, array, &[value])),
            _ => {
                let rule = *make.random.of(&rules);
                make.by(rule);
            }
        }
    }
    make.sheet.finish().into_bytes()
}

/// Vectors of up to 64 widths, a pool each, and Bool in the last pool.
fn vectors(most: usize, seed: u64) -> Vec<u8> {
    const SAME: [Op; 12] = [
        Op::BvAdd,
        Op::BvSub,
        Op::BvMul,
        Op::BvUDiv,
        Op::BvURem,
        Op::BvShl,
        Op::BvLShr,
        Op::BvAShr,
        Op::BvAnd,
        Op::BvOr,
        Op::BvXor,
        Op::BvSDiv,
    ];
    const TOLD: [Op; 4] = [Op::BvULt, Op::BvULe, Op::BvSGt, Op::BvSGe];
    let mut make = Make::new(most, seed);
    let widths = (most / 4).clamp(2, 64);
    for width in 1..=widths {
        let width = u32::try_from(width).expect("a small width");
        let sort = make.sort(SortRecord::BitVec(width));
        let var = make.var(sort);
        make.pools.push(vec![var]);
    }
    make.pool(SortRecord::Bool);
    while make.more() {
        let pool = make.random.under(widths);
        let (one, two) = (make.any(pool), make.any(pool));
        match make.random.under(8) {
            0 => make.put(pool, TermRecord::Op(Op::BvNot, &[one])),
            1 => make.put(0, TermRecord::Op(Op::BvComp, &[one, two])),
            2 => {
                let told = *make.random.of(&TOLD);
                make.put(widths, TermRecord::Op(told, &[one, two]));
            }
            _ => {
                let same = *make.random.of(&SAME);
                make.put(pool, TermRecord::Op(same, &[one, two]));
            }
        }
    }
    make.sheet.finish().into_bytes()
}

/// Vectors whose widths change from term to term, up to 2,000 bits.
fn slices(most: usize, seed: u64) -> Vec<u8> {
    const WIDEST: u32 = 2_000;
    let mut make = Make::new(most, seed);
    let indices: Vec<TermId> =
        (0..32_u32).take(most / 4).map(|number| make.term(TermRecord::Integer(number))).collect();
    let mut terms = Vec::new();
    for width in [8, 32] {
        let sort = make.sort(SortRecord::BitVec(width));
        terms.push((make.var(sort), width));
    }
    while make.more() {
        let (one, width) = *make.random.of(&terms);
        let (two, other) = *make.random.of(&terms);
        let at = make.random.under(indices.len());
        let by = u32::try_from(at).expect("few");
        let extend = *make.random.of(&[ParamOperator::ZeroExtend, ParamOperator::SignExtend]);
        let (high_low, alone, both) = ([indices[at], indices[0]], [one], [one, two]);
        let indexed = |op, count: usize| TermRecord::ParamOp { op, op_args: &high_low[..count], args: &alone };
        let (term, grown) = match make.random.under(7) {
            0 | 1 if width + other <= WIDEST => (TermRecord::Op(Op::BvConcat, &both), width + other),
            2 if by >= 1 && width * by <= WIDEST => (indexed(ParamOperator::Repeat, 1), width * by),
            3 | 4 if width + by <= WIDEST => (indexed(extend, 1), width + by),
            5 => (indexed(ParamOperator::RotateLeft, 1), width),
            _ if by < width => (indexed(ParamOperator::BvExtract, 2), by + 1),
            _ => continue,
        };
        terms.push((make.term(term), grown));
    }
    make.sheet.finish().into_bytes()
}

/// Strings (0), regular expressions (1), integers (2) and Bool (3).
fn strings(most: usize, seed: u64) -> Vec<u8> {
    let mut make = Make::new(most, seed);
    make.pool(SortRecord::String);
    make.pool(SortRecord::RegLan);
    make.pool(SortRecord::Int);
    make.pool(SortRecord::Bool);
    make.filled(&[
        (Op::StrConcat, &[0, 0], 0),
        (Op::StrConcat, &[0, 0, 0], 0),
        (Op::StrLen, &[0], 2),
        (Op::CharAt, &[0, 2], 0),
        (Op::Substring, &[0, 2, 2], 0),
        (Op::PrefixOf, &[0, 0], 3),
        (Op::Contains, &[0, 0], 3),
        (Op::IndexOf, &[0, 0, 2], 2),
        (Op::Replace, &[0, 0, 0], 0),
        (Op::ReplaceRe, &[0, 1, 0], 0),
        (Op::StrFromInt, &[2], 0),
        (Op::StrToInt, &[0], 2),
        (Op::StrToRe, &[0], 1),
        (Op::StrInRe, &[0, 1], 3),
        (Op::ReConcat, &[1, 1], 1),
        (Op::ReUnion, &[1, 1], 1),
        (Op::ReKleeneClosure, &[1], 1),
        (Op::ReRange, &[0, 0], 1),
    ])
}

/// The operators on sets and relations, over the pools of [`sets`].
const SET_RULES: [Rule; 21] = [
    (Op::SetUnion, &[1, 1], 1),
    (Op::SetInter, &[1, 1], 1),
    (Op::SetMinus, &[2, 2], 2),
    (Op::SetComplement, &[1], 1),
    (Op::SetMember, &[0, 1], 7),
    (Op::SetSubset, &[2, 2], 7),
    (Op::SetSingleton, &[0], 1),
    (Op::SetInsert, &[0, 1], 1),
    (Op::SetInsert, &[6, 6, 6, 2], 2),
    (Op::SetCard, &[1], 0),
    (Op::SetIsEmpty, &[3], 7),
    (Op::SetIsSingleton, &[2], 7),
    (Op::Tuple, &[0, 5], 6),
    (Op::TupleUnit, &[], 7),
    (Op::SetSingleton, &[6], 2),
    (Op::RelTranspose, &[2], 3),
    (Op::RelTranspose, &[3], 2),
    (Op::RelTclosure, &[4], 4),
    (Op::RelJoin, &[2, 3], 4),
    (Op::RelJoin, &[4, 2], 2),
    (Op::RelProduct, &[2, 3], 7),
];

/// Integers (0), sets (1), relations of Int and Real (2), Real and Int (3), Int and Int (4), reals (5), pairs (6), and the rest (7).
fn sets(most: usize, seed: u64) -> Vec<u8> {
    let mut make = Make::new(most, seed);
    let int = make.pool(SortRecord::Int);
    let set = make.pool(SortRecord::Set(int));
    let real = make.sort(SortRecord::Real);
    let pair = make.sort(SortRecord::Tuple(&[int, real]));
    let relation = make.pool(SortRecord::Set(pair));
    for pool in [3, 4] {
        make.pools.push(Vec::new());
        let relation: Rule = if pool == 3 { (Op::RelTranspose, &[2], 3) } else { (Op::RelJoin, &[2, 3], 4) };
        make.by(relation);
    }
    make.pool_of(real);
    make.pool_of(pair);
    make.pools.push(Vec::new());
    let constants = [QualifiedOperator::SetEmpty, QualifiedOperator::SetUniverse];
    while make.more() {
        match make.random.under(12) {
            0 => {
                let (op, (pool, sort)) = (*make.random.of(&constants), *make.random.of(&[(1, set), (2, relation)]));
                make.put(pool, TermRecord::AsOp(op, sort, &[]));
            }
            _ => {
                let rule = *make.random.of(&SET_RULES);
                make.by(rule);
            }
        }
    }
    make.sheet.finish().into_bytes()
}

/// Bool (0), integers (1), reals (2) and functions (3).
fn binders(most: usize, seed: u64) -> Vec<u8> {
    let mut make = Make::new(most, seed);
    let sorts = [SortRecord::Bool, SortRecord::Int, SortRecord::Real].map(|sort| make.pool(sort));
    make.pools.push(Vec::new());
    while make.more() {
        let pool = make.random.under(3);
        let name = Name::new(u16::try_from(1 + make.random.under(50)).expect("few"));
        let binding = (name, sorts[pool]);
        let (said, body) = (make.any(0), make.any(pool));
        match make.random.under(8) {
            0..3 => make.put(0, TermRecord::Binder(Binder::Forall, &[binding], said)),
            3 | 4 => make.put(0, TermRecord::Binder(Binder::Exists, &[binding, (Name::new(60), sorts[1])], said)),
            5 => make.put(pool, TermRecord::Binder(Binder::Choice, &[binding], said)),
            _ => make.put(3, TermRecord::Binder(Binder::Lambda, &[(name, sorts[1])], body)),
        }
    }
    make.sheet.finish().into_bytes()
}

/// Terms of three sorts, a pool each.
fn lets(most: usize, seed: u64) -> Vec<u8> {
    let mut make = Make::new(most, seed);
    for sort in [SortRecord::Bool, SortRecord::Int, SortRecord::Real] {
        make.pool(sort);
    }
    while make.more() {
        let pools = [0; 3].map(|_| make.random.under(3));
        let [one, two, inner] = pools.map(|pool| make.any(pool));
        let names = [0; 2].map(|_| Name::new(u16::try_from(1 + make.random.under(50)).expect("few")));
        let values = [(names[0], one), (names[1], two)];
        let count = 1 + make.random.under(2);
        make.put(pools[2], TermRecord::Let(&values[..count], inner));
    }
    make.sheet.finish().into_bytes()
}

/// Functions of one to three arguments over declared sorts, a pool each.
fn applications(most: usize, seed: u64) -> Vec<u8> {
    let mut make = Make::new(most, seed);
    let (count, heads) = if most < 64 { (2, 2) } else { (8, 24) };
    let sorts: Vec<SortId> = (1..=count).map(|name| make.pool(SortRecord::Atom(Name::new(name), &[]))).collect();
    let mut functions = Vec::new();
    for _ in 0..heads {
        let pools: Vec<usize> = (0..2 + make.random.under(3)).map(|_| make.random.under(sorts.len())).collect();
        let list: Vec<SortId> = pools.iter().map(|pool| sorts[*pool]).collect();
        let sort = make.sort(SortRecord::Function(&list));
        functions.push((make.var(sort), pools));
    }
    while make.more() {
        let (head, pools) = make.random.of(&functions).clone();
        let (result, arguments) = pools.split_last().expect("a function has a result");
        let arguments: Vec<TermId> = arguments.iter().map(|pool| make.any(*pool)).collect();
        make.put(*result, TermRecord::App(head, &arguments));
    }
    make.sheet.finish().into_bytes()
}

/// Parametric functions over elements (pools 0 to 7), sets of them (8 to 15) and arrays of them (16 to 23).
pub fn parametric(most: usize, seed: u64) -> Vec<u8> {
    let mut make = Make::new(most, seed);
    let kinds = if most < 64 { 1 } else { 8 };
    let mut elements = vec![make.sort(SortRecord::Int)];
    for width in 1..kinds {
        elements.push(make.sort(SortRecord::BitVec(width)));
    }
    let int = elements[0];
    elements.iter().for_each(|sort| make.pool_of(*sort));
    for sort in &elements {
        make.pool(SortRecord::Set(*sort));
    }
    for sort in &elements {
        make.pool(SortRecord::Array(int, *sort));
    }
    let names = [Name::new(1), Name::new(2)];
    let [one, two] = names.map(|name| make.sort(SortRecord::Var(name)));
    let set = make.sort(SortRecord::Set(one));
    let array = make.sort(SortRecord::Array(one, two));
    let lists =
        [(vec![one, one, one], 1), (vec![set, one, set], 1), (vec![array, one, two], 2), (vec![one, two, array], 2)];
    let heads: Vec<TermId> = lists
        .iter()
        .map(|(list, count)| {
            let function = make.sort(SortRecord::Function(list));
            let sort = make.sort(SortRecord::Par(&names[..*count], function));
            make.var(sort)
        })
        .collect();
    let kinds = elements.len();
    while make.more() {
        let element = make.random.under(kinds);
        let [of_set, of_array] = [kinds + element, 2 * kinds + element];
        let which = make.random.under(heads.len());
        let (first, second, result) =
            [(element, element, element), (of_set, element, of_set), (of_array, 0, element), (0, element, of_array)]
                [which];
        let arguments = [make.any(first), make.any(second)];
        make.put(result, TermRecord::App(heads[which], &arguments));
    }
    make.sheet.finish().into_bytes()
}
