//! Sheets about numbers: sums, products, quotients and orders over Int and Real beside each other, what nearly is such a term, and terms
//! above them, some of which ask for one sort.
//!
//! Arguments are chosen by their inferred sorts, which the operators tell; nothing is asked of the model, of carcara or of a library.

use crate::choice::Choice;
use crate::writer::{Fields, Writer};
use model::operator::Operator;
use model::sort::Kind;

/// The operators that take Int and Real beside each other.
pub const MIXING: [Operator; 8] = [
    Operator::Add,
    Operator::Sub,
    Operator::Mult,
    Operator::RealDiv,
    Operator::LessThan,
    Operator::GreaterThan,
    Operator::LessEq,
    Operator::GreaterEq,
];

/// Operators on numbers that ask for one sort, or for one of the two.
const STRICT: [Operator; 9] = [
    Operator::Equals,
    Operator::Distinct,
    Operator::Ite,
    Operator::IntDiv,
    Operator::Mod,
    Operator::Abs,
    Operator::ToReal,
    Operator::ToInt,
    Operator::IsInt,
];

/// The pools of terms by their inferred sorts.
const INT: usize = 0;
const REAL: usize = 1;
const BOOL: usize = 2;
const OTHER: usize = 3;

/// A sheet in the making.
struct Maker<'a> {
    choice: Choice<'a>,
    writer: Writer,
    /// The terms of each pool.
    pools: [Vec<u16>; 4],
    /// The heads of applications, with the pool of what is inferred for two arguments.
    heads: [(u16, usize); 2],
    /// The sorts that bindings and constant arrays have.
    sorts: Sorts,
}

/// Some sorts of the sheet.
struct Sorts {
    real: u16,
    array: u16,
}

/// A sheet about numbers. `under` gives a random number under one that is not 0.
pub fn sheet(under: &mut dyn FnMut(usize) -> usize) -> Vec<u8> {
    let mut maker = Maker::new(under);
    for _ in 0..8 + maker.choice.below(16) {
        match maker.choice.below(12) {
            0..7 => maker.mixing(),
            7..10 => maker.strict(),
            10 => maker.application(),
            _ => maker.over(),
        }
    }
    maker.writer.bytes()
}

impl<'a> Maker<'a> {
    /// A sheet with leaves of all pools, and heads.
    fn new(under: &'a mut dyn FnMut(usize) -> usize) -> Self {
        let mut writer = Writer::default();
        let w = &mut writer;
        let [int, real, bool, string] =
            [Kind::Int, Kind::Real, Kind::Bool, Kind::String].map(|kind| w.plain(kind as u8));
        let name = 1;
        let own = w.variable(name);
        let array = w.parts(Kind::Array as u8, &[int, real]);
        let plain = w.parts(Kind::Function as u8, &[int, real, real]);
        let function = w.parts(Kind::Function as u8, &[own, own, bool]);
        let par = w.par(function, &[name]);
        let heads = [(w.var(plain), REAL), (w.var(par), BOOL)];
        let real_constant = w.term(Fields { kind: 1, ..Fields::default() });
        let pools = [
            vec![w.var(int), w.integer(2)],
            vec![w.var(real), real_constant],
            vec![w.var(bool)],
            vec![w.var(string), w.var(own), heads[1].0],
        ];
        Maker { choice: Choice(under), writer, pools, heads, sorts: Sorts { real, array } }
    }

    /// A term of a pool.
    fn of(&mut self, pool: usize) -> u16 {
        self.choice.one(&self.pools[pool])
    }

    /// Whether a term stands among those of sort Real.
    fn is_real(&self, term: u16) -> bool {
        self.pools[REAL].contains(&term)
    }

    /// So many numbers: each Int or Real by itself, or all of one of these sorts but one.
    fn numbers(&mut self, count: usize) -> Vec<u16> {
        let (most, other) = self.choice.one(&[(INT, REAL), (REAL, INT)]);
        let single = self.choice.below(2 * count + 1);
        let mut list = Vec::new();
        for at in 0..count {
            let pool = match at {
                _ if single >= count => self.choice.one(&[INT, REAL]),
                _ if at == single => other,
                _ => most,
            };
            list.push(self.of(pool));
        }
        list
    }

    /// Adds an operator, and puts it into the pool of its inferred sort; now and then one argument is no number.
    fn operator(&mut self, operator: Operator, mut list: Vec<u16>, pool: usize) {
        let spoiled = !list.is_empty() && self.choice.below(7) == 0;
        if spoiled {
            let at = self.choice.below(list.len());
            let pool = self.choice.one(&[BOOL, OTHER]);
            list[at] = self.of(pool);
        }
        let number = Some(operator as u32);
        let term = self.writer.term(Fields { kind: 7, number, list: Some(&list), ..Fields::default() });
        // What stands over a refused term is refused for it: not too often.
        if !spoiled || self.choice.below(3) == 0 {
            self.pools[pool].push(term);
        }
    }

    /// Adds an operator that takes Int and Real beside each other, at none to five numbers.
    fn mixing(&mut self) {
        let operator = self.choice.one(&MIXING);
        let count = self.choice.one(&[0, 1, 1, 2, 2, 2, 2, 3, 3, 3, 4, 5]);
        let list = self.numbers(count);
        let pool = match operator {
            Operator::RealDiv => REAL,
            Operator::Add | Operator::Sub | Operator::Mult if list.iter().any(|term| self.is_real(*term)) => REAL,
            Operator::Add | Operator::Sub | Operator::Mult => INT,
            _ => BOOL,
        };
        self.operator(operator, list, pool);
    }

    /// Adds an operator that asks for one sort, or for one of the two, at numbers of both.
    fn strict(&mut self) {
        let operator = self.choice.one(&STRICT);
        let several = 2 + self.choice.below(2);
        let mut list = match operator {
            Operator::Equals | Operator::Distinct | Operator::IntDiv => self.numbers(several),
            Operator::Ite | Operator::Mod => self.numbers(2),
            _ => self.numbers(1),
        };
        let of_first = if self.is_real(list[0]) { REAL } else { INT };
        let pool = match operator {
            Operator::Ite | Operator::Abs => of_first,
            Operator::IntDiv | Operator::Mod | Operator::ToInt => INT,
            Operator::ToReal => REAL,
            _ => BOOL,
        };
        if operator == Operator::Ite {
            list.insert(0, self.of(BOOL));
        }
        self.operator(operator, list, pool);
    }

    /// Adds an application of a head that asks for Int and Real, or for one sort twice.
    fn application(&mut self) {
        let (head, pool) = self.choice.one(&self.heads);
        let list = [&[head], self.numbers(2).as_slice()].concat();
        let term = self.writer.term(Fields { kind: 6, list: Some(&list), ..Fields::default() });
        self.pools[pool].push(term);
    }

    /// Adds a quantifier or a lambda, a let or a constant array over a term.
    fn over(&mut self) {
        let list = [self.numbers(1)[0], self.of(BOOL)];
        let (number, said) = list.split_at(1);
        let pairs = [(2, self.sorts.real)];
        let empty = Fields::default();
        let (fields, pool) = match self.choice.below(4) {
            0 => (Fields { kind: 8, number: Some(0), list: Some(said), pairs: Some(&pairs), ..empty }, BOOL),
            1 => (Fields { kind: 8, number: Some(3), list: Some(number), pairs: Some(&pairs), ..empty }, OTHER),
            2 => (Fields { kind: 9, list: Some(&list), second: Some(&[2]), ..empty }, BOOL),
            _ => {
                let sort = Some(self.sorts.array);
                (Fields { kind: 12, number: Some(0), sort, list: Some(number), ..empty }, OTHER)
            }
        };
        let term = self.writer.term(fields);
        self.pools[pool].push(term);
    }
}

#[cfg(test)]
mod tests {
    use super::*;
    use crate::random::judged;
    use model::operator::OPERATORS;
    use std::collections::BTreeMap;

    /// The sorts of arguments in a word: I for Int, R for Real, o for another; nothing if one of them is refused.
    fn word(list: &[usize], checked: &[u32]) -> Option<String> {
        // Int and Real are the sheet's first sorts.
        let letter = |term: &usize| ["I", "R"].get(checked[*term] as usize).copied().unwrap_or("o");
        list.iter().all(|term| checked[*term] >> 16 == 0).then(|| list.iter().map(letter).collect())
    }

    /// How often an operator was met at sorts of arguments, with what its checked row says: 0 for a sort.
    type Met = BTreeMap<(Operator, String, u32), usize>;

    /// What is met on so many sheets.
    fn met(sheets: usize) -> Met {
        let mut met = Met::new();
        judged(sheets, sheet, &mut |terms, judged| {
            let checked: Vec<u32> = judged.rows.iter().skip(1).step_by(2).copied().collect();
            for (term, row) in terms.iter().zip(&checked).filter(|(term, _)| term.kind == 7) {
                let operator = OPERATORS[term.number as usize];
                if let Some(word) = word(&term.list, &checked) {
                    *met.entry((operator, word, row >> 16)).or_default() += 1;
                }
            }
        });
        met
    }

    /// All words of so many of these letters.
    fn words(letters: &str, length: usize) -> Vec<String> {
        (0..length).fold(vec![String::new()], |words, _| {
            words.iter().flat_map(|word| letters.chars().map(move |letter| format!("{word}{letter}"))).collect()
        })
    }

    #[test]
    fn what_is_met() {
        let met = met(4_000);
        let times = |operator: Operator, word: &str, row: u32| {
            met.get(&(operator, word.to_owned(), row)).copied().unwrap_or_default()
        };
        for operator in MIXING {
            // Each list of two and three numbers, of four the Real or the Int at each place.
            for word in [words("IR", 2), words("IR", 3)].concat() {
                assert!(times(operator, &word, 0) > 20, "{operator:?} {word}");
            }
            for word in ["RIII", "IRII", "IIRI", "IIIR", "IRRR", "RIRR", "RRIR", "RRRI"] {
                assert!(times(operator, word, 0) > 2, "{operator:?} {word}");
            }
            // Another sort among both at each place, and one number.
            for word in ["oIR", "oRI", "IoR", "RoI", "IRo", "RIo"] {
                assert!(times(operator, word, 26) > 2, "{operator:?} {word}");
            }
            let one = if operator == Operator::Sub { 0 } else { 25 };
            assert!(["I", "R"].iter().all(|word| times(operator, word, one) > 20), "{operator:?}");
        }
        for operator in [Operator::Equals, Operator::Distinct, Operator::IntDiv, Operator::Mod] {
            assert!(["IR", "RI"].iter().all(|word| times(operator, word, 26) > 20), "{operator:?}");
        }
        assert!(["oIR", "oRI"].iter().all(|word| times(Operator::Ite, word, 26) > 20));
    }
}
