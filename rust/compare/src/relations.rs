//! Sheets about sets and relations: the operators on them at what they take and at what nearly is it, relations of up to 64 columns, trees of up to
//! the greatest size, and terms above them.
//!
//! Arguments are chosen by the sorts that they were made to have; nothing is asked of the model, of carcara or of a library.

use crate::choice::Choice;
use crate::shapes::{BOOL, INT, OWN, Shape};
use crate::writer::{Fields, Writer};
use model::operator::Operator;
use model::sort::Kind;

/// The operators on sets and relations, in the order of their numbers.
pub const SETS: [Operator; 17] = [
    Operator::SetUnion,
    Operator::SetInter,
    Operator::SetMinus,
    Operator::SetMember,
    Operator::SetSubset,
    Operator::SetSingleton,
    Operator::SetIsEmpty,
    Operator::SetIsSingleton,
    Operator::SetCard,
    Operator::SetInsert,
    Operator::SetComplement,
    Operator::Tuple,
    Operator::TupleUnit,
    Operator::RelTranspose,
    Operator::RelTclosure,
    Operator::RelJoin,
    Operator::RelProduct,
];

/// A sheet in the making.
struct Maker<'a> {
    choice: Choice<'a>,
    writer: Writer,
    /// The sorts that are there, each with its number.
    sorts: Vec<(Shape, u16)>,
    /// The terms, with the sorts that they were made to have; nothing for one that was made not to fit.
    terms: Vec<(u16, Option<Shape>)>,
    /// A variable of a parametric sort, and a parametric function that takes a set and its element.
    heads: [u16; 2],
    /// A parametric sort, and the set of Type.
    barred: [u16; 2],
}

/// A sheet about sets and relations. `under` gives a random number under one that is not 0.
pub fn sheet(under: &mut dyn FnMut(usize) -> usize) -> Vec<u8> {
    let mut maker = Maker::new(under);
    maker.leaves();
    for _ in 0..10 + maker.choice.below(16) {
        match maker.choice.below(16) {
            0..11 => maker.operator(),
            11..13 => maker.constant(),
            _ => maker.above(),
        }
    }
    maker.writer.bytes()
}

impl<'a> Maker<'a> {
    /// A sheet with the sorts of every sheet, and two heads.
    fn new(under: &'a mut dyn FnMut(usize) -> usize) -> Self {
        let mut writer = Writer::default();
        let w = &mut writer;
        let [int, bool] = [Kind::Int, Kind::Bool].map(|kind| w.plain(kind as u8));
        let own = w.variable(1);
        let function = w.parts(Kind::Function as u8, &[own, bool]);
        let par = w.par(function, &[1]);
        let sort_of_sorts = w.plain(Kind::Type as u8);
        let barred = [par, w.parts(Kind::Set as u8, &[sort_of_sorts])];
        let set = w.parts(Kind::Set as u8, &[own]);
        let takes = w.parts(Kind::Function as u8, &[set, own, bool]);
        let takes = w.par(takes, &[1]);
        let heads = [w.var(par), w.var(takes)];
        let sorts = [(INT, int), (BOOL, bool), (OWN, own)].to_vec();
        Maker { choice: Choice(under), writer, sorts, terms: vec![(heads[0], None)], heads, barred }
    }

    /// The number of a sort, which is added behind its parts if it is not there.
    fn sort(&mut self, shape: &Shape) -> u16 {
        if let Some((_, number)) = self.sorts.iter().find(|(known, _)| known == shape) {
            return *number;
        }
        let (kind, parts) = match shape {
            Shape::Set(element) => (Kind::Set, std::slice::from_ref(element.as_ref())),
            Shape::Tuple(columns) => (Kind::Tuple, columns.as_slice()),
            Shape::Base(number, _) => return *number,
        };
        let numbers: Vec<u16> = parts.iter().map(|part| self.sort(part)).collect();
        let number = self.writer.parts(kind as u8, &numbers);
        self.sorts.push((shape.clone(), number));
        number
    }

    /// Adds a variable of a sort.
    fn variable(&mut self, shape: &Shape) -> u16 {
        let sort = self.sort(shape);
        let term = self.writer.var(sort);
        self.terms.push((term, Some(shape.clone())));
        term
    }

    /// A sort of a column.
    fn column(&mut self) -> Shape {
        self.choice.one(&[INT, INT, BOOL, OWN])
    }

    /// Adds variables of sets and relations; on some sheets of relations with many columns, on some of great trees.
    fn leaves(&mut self) {
        let set = self.column().set();
        self.variable(&set);
        for _ in 0..4 + self.choice.below(4) {
            let count = self.choice.one(&[0, 1, 1, 2, 2, 2, 3, 4]);
            let columns = (0..count).map(|_| self.column()).collect();
            self.variable(&Shape::relation(columns));
        }
        match self.choice.below(24) {
            0..3 => {
                let column = self.column();
                for count in [31, 32, 33, 63, 64] {
                    self.variable(&Shape::relation(vec![column.clone(); count]));
                }
            }
            3 => self.great(),
            _ => (),
        }
    }

    /// Adds variables of great trees: two columns of 2,047 make a relation of 4,096, and a set of 4,095 is of 4,096.
    fn great(&mut self) {
        let mut towers = vec![self.sort(&INT)];
        for _ in 0..11 {
            let last = towers[towers.len() - 1];
            towers.push(self.writer.parts(Kind::Array as u8, &[last, last]));
        }
        let [half, whole] = [Shape::Base(towers[10], 2_047), Shape::Base(towers[11], 4_095)];
        let most = Shape::relation(vec![half.clone(); 2]);
        for shape in [Shape::relation(vec![half.clone()]), most, half, whole.clone().set(), whole] {
            self.variable(&shape);
        }
    }

    /// A term of a sort: one that is there, or a new variable; any term if no sheet may hold the sort.
    fn of(&mut self, shape: &Shape) -> u16 {
        let fits = |(term, sort): &(u16, Option<Shape>)| (sort.as_ref() == Some(shape)).then_some(*term);
        let there: Vec<u16> = self.terms.iter().filter_map(fits).collect();
        match there.is_empty() || self.choice.below(5) == 0 {
            true if shape.stands() => self.variable(shape),
            true => self.choice.one(&self.terms).0,
            false => self.choice.one(&there),
        }
    }

    /// The sort of one of the terms for which something holds.
    fn sort_where(&mut self, holds: impl Fn(&Shape) -> bool) -> Shape {
        let sorts: Vec<Shape> =
            self.terms.iter().filter_map(|(_, sort)| sort.clone()).filter(|sort| holds(sort)).collect();
        match sorts.is_empty() {
            true => Shape::relation(vec![INT, INT]),
            false => self.choice.one(&sorts),
        }
    }

    /// The sort of any term.
    fn any(&mut self) -> Shape {
        self.sort_where(|_| true)
    }

    /// The sort of a set.
    fn a_set(&mut self) -> Shape {
        self.sort_where(|sort| matches!(sort, Shape::Set(_)))
    }

    /// The columns of a relation with so many at least.
    fn relation(&mut self, least: usize) -> Vec<Shape> {
        let sort = self.sort_where(|sort| sort.columns().is_some_and(|columns| columns.len() >= least));
        sort.columns().unwrap_or_default().to_vec()
    }

    /// The sorts that an operator takes, and the one that it gives; none if it does not take them.
    fn plan(&mut self, operator: Operator) -> (Vec<Shape>, Option<Shape>) {
        use Operator::*;
        let set = self.a_set();
        let (list, sort) = match operator {
            SetUnion | SetInter | SetMinus => (vec![set.clone(), set.clone()], set),
            SetSubset => (vec![set.clone(), set], BOOL),
            SetMember => (vec![set.element(), set], BOOL),
            SetSingleton => {
                let element = self.any();
                (vec![element.clone()], element.set())
            }
            SetIsEmpty | SetIsSingleton => (vec![set], BOOL),
            SetCard => (vec![set], INT),
            SetInsert => {
                let count = self.choice.one(&[1, 1, 1, 2, 2, 3, 4]);
                let mut list = vec![set.element(); count];
                list.push(set.clone());
                (list, set)
            }
            SetComplement => (vec![set.clone()], set),
            Tuple => {
                let count = self.choice.one(&[1, 1, 2, 2, 2, 3, 3, 4]);
                let list: Vec<Shape> = (0..count).map(|_| self.any()).collect();
                (list.clone(), Shape::Tuple(list))
            }
            TupleUnit => (Vec::new(), Shape::Tuple(Vec::new())),
            _ => return self.plan_of_relations(operator),
        };
        (list, Some(sort))
    }

    /// The same for the operators on relations. A join of any two relations is said to give none, whether they touch or not.
    fn plan_of_relations(&mut self, operator: Operator) -> (Vec<Shape>, Option<Shape>) {
        let touches = self.choice.below(5) != 0;
        let least = usize::from(operator == Operator::RelJoin && touches);
        let [first, mut second] = [least, 0].map(|least| self.relation(least));
        let [of_first, of_second] = [&first, &second].map(|columns| Shape::relation(columns.clone()));
        match (operator, first.split_last()) {
            (Operator::RelTranspose, _) => (vec![of_first], Some(Shape::relation(first.into_iter().rev().collect()))),
            (Operator::RelTclosure, _) => {
                let column = self.column();
                let pairs = Shape::relation(vec![column.clone(), column]);
                (vec![pairs.clone()], Some(pairs))
            }
            (Operator::RelJoin, Some((touching, left))) if touches => {
                let right = second.split_off(second.len().min(1));
                let of_second = Shape::relation([std::slice::from_ref(touching), &right].concat());
                (vec![of_first, of_second], Some(Shape::relation([left, &right].concat())))
            }
            (Operator::RelJoin, _) => (vec![of_first, of_second], None),
            _ => (vec![of_first, of_second], Some(Shape::relation([first, second].concat()))),
        }
    }

    /// Adds one of the operators, at what it takes or at what nearly is it.
    fn operator(&mut self) {
        let operator = self.choice.one(&SETS);
        let (wants, sort) = self.plan(operator);
        let mut list: Vec<u16> = wants.iter().map(|want| self.of(want)).collect();
        let spoiled = self.choice.below(4) == 0;
        if spoiled {
            self.spoil(&mut list, &wants);
        }
        let number = Some(operator as u32);
        self.add(Fields { kind: 7, number, list: Some(&list), ..Fields::default() }, sort.filter(|_| !spoiled));
    }

    /// Puts another term in the place of an argument, mostly a set for a set, or takes one away, or adds one.
    fn spoil(&mut self, list: &mut Vec<u16>, wants: &[Shape]) {
        let at = self.choice.below(list.len() + 1);
        match self.choice.below(6) {
            0 if at < list.len() => {
                list.remove(at);
            }
            1 => list.insert(at, self.heads[0]),
            _ if at == list.len() => {
                let (other, _) = self.choice.one(&self.terms);
                list.push(other);
            }
            2 => list[at] = self.heads[0],
            3 => (list[at], _) = self.choice.one(&self.terms),
            _ => {
                let set = matches!(wants[at], Shape::Set(_));
                let other = self.sort_where(|sort| matches!(sort, Shape::Set(_)) == set);
                list[at] = self.of(&other);
            }
        }
    }

    /// Adds a term that was made to have a sort, or to have none: such a one only now and then stands below others.
    fn add(&mut self, fields: Fields, sort: Option<Shape>) {
        let term = self.writer.term(fields);
        let sort = sort.filter(Shape::stands);
        if sort.is_some() || self.choice.below(4) == 0 {
            self.terms.push((term, sort));
        }
    }

    /// Adds the empty set or the set of all; now and then of a sort that is no set or may not be, or at an argument.
    fn constant(&mut self) {
        let set = self.a_set();
        let (sort, fits) = match self.choice.below(8) {
            0 => {
                let any = self.any();
                (self.sort(&any), false)
            }
            1 => (self.choice.one(&self.barred), false),
            _ => (self.sort(&set), true),
        };
        let at_one = self.choice.below(6) == 0;
        let list: Vec<u16> = if at_one { vec![self.of(&set)] } else { Vec::new() };
        let number = Some(1 + self.choice.below(2) as u32);
        let sorted = (fits && !at_one).then_some(set);
        self.add(Fields { kind: 12, number, sort: Some(sort), list: Some(&list), ..Fields::default() }, sorted);
    }

    /// Adds a term over sets: `=`, `ite`, a sum, a quantifier, a lambda, a let, or an application that takes a set and its element.
    fn above(&mut self) {
        let set = self.a_set();
        let other = self.a_set();
        let [one, two] = [&set, if self.choice.below(4) == 0 { &other } else { &set }].map(|sort| self.of(sort));
        let said = self.of(&BOOL);
        let empty = Fields::default();
        let operator =
            |operator: Operator, list| Fields { kind: 7, number: Some(operator as u32), list: Some(list), ..empty };
        let pairs = [(2, self.sort(&set))];
        match self.choice.below(7) {
            0 => self.add(operator(Operator::Equals, &[one, two]), Some(BOOL)),
            1 => self.add(operator(Operator::Ite, &[said, one, two]), Some(set)),
            2 => {
                let sum = [self.of(&INT), self.of(&INT)];
                self.add(operator(Operator::Add, &sum), Some(INT));
            }
            3 => self.add(
                Fields { kind: 8, number: Some(0), list: Some(&[said]), pairs: Some(&pairs), ..empty },
                Some(BOOL),
            ),
            4 => self.add(Fields { kind: 8, number: Some(3), list: Some(&[one]), pairs: Some(&pairs), ..empty }, None),
            5 => self.add(Fields { kind: 9, list: Some(&[one, two]), second: Some(&[2]), ..empty }, Some(set)),
            _ => {
                let list = [self.heads[1], one, self.of(&set.element())];
                self.add(Fields { kind: 6, list: Some(&list), ..empty }, Some(BOOL));
            }
        }
    }
}

#[cfg(test)]
mod tests {
    use super::*;
    use crate::random::judged;
    use model::Judged;
    use model::operator::OPERATORS;
    use model::printed::row;
    use model::reader::Term;
    use std::collections::BTreeMap;
    use std::sync::OnceLock;

    /// How often an operator was met, by its number or 200 and its number behind `as`, at arguments with these texts, with what its checked row says.
    type Met = BTreeMap<(u32, Vec<String>, u32), usize>;

    /// What is met on 4,000 sheets; terms over a refused one are left out.
    fn met() -> &'static Met {
        static MET: OnceLock<Met> = OnceLock::new();
        MET.get_or_init(|| {
            let mut met = Met::new();
            judged(4_000, sheet, &mut |terms, judged| note(&mut met, terms, judged));
            met
        })
    }

    /// Notes what is met on a sheet.
    fn note(met: &mut Met, terms: &[Term], judged: &Judged) {
        let mut texts = BTreeMap::new();
        for (at, term) in terms.iter().enumerate().filter(|(_, term)| matches!(term.kind, 7 | 12)) {
            let cause = judged.rows[2 * at + 1] >> 16;
            if cause != 20 {
                let number = if term.kind == 12 { 200 + term.number } else { term.number };
                let words = term.list.iter().map(|part| judged.rows[2 * part + 1]);
                let texts = words.map(|word| texts.entry(word).or_insert_with(|| row(judged, word)).clone()).collect();
                *met.entry((number, texts, cause)).or_default() += 1;
            }
        }
    }

    /// How often something was met for which this holds.
    fn times(met: &Met, number: u32, cause: u32, holds: impl Fn(&[String]) -> bool) -> usize {
        met.iter()
            .filter(|((of, list, row), _)| (*of, *row) == (number, cause) && holds(list))
            .map(|(_, count)| count)
            .sum()
    }

    /// The columns of a relation's text, if they are of the sorts that columns have.
    fn columns(text: &str) -> Option<Vec<&str>> {
        let inner = text.strip_prefix("(Set (Tuple")?.strip_suffix("))")?;
        let columns: Vec<&str> = inner.split_whitespace().collect();
        columns.iter().all(|column| ["Int", "Bool", "'n1"].contains(column)).then_some(columns)
    }

    #[test]
    fn what_is_met() {
        let met = met();
        for operator in SETS.map(|operator| operator as u32) {
            let name = OPERATORS[operator as usize];
            assert!(times(met, operator, 0, |_| true) > 500, "{name:?}");
            assert!(times(met, operator, 25, |_| true) > 10, "{name:?}");
            // A parametric argument among so many that the count is right.
            let parametric = times(met, operator, 26, |list| list.iter().any(|text| text.starts_with("(par")));
            assert!(parametric > 20 || name == Operator::TupleUnit, "{name:?}");
        }
        for operator in [Operator::SetUnion, Operator::SetMinus, Operator::SetSubset] {
            let other_sets = |list: &[String]| list.iter().all(|text| text.starts_with("(Set"));
            assert!(times(met, operator as u32, 26, other_sets) > 50, "{operator:?}");
        }
        // Of three arguments of insert, each one wrong; and up to five that fit.
        let insert = Operator::SetInsert as u32;
        for wrong in 0..3 {
            let at = |list: &[String]| list.len() == 3 && list[wrong].starts_with("(par");
            assert!(times(met, insert, 26, at) > 2, "{wrong}");
        }
        assert!((2..=5).all(|count| times(met, insert, 0, |list| list.len() == count) > 20));
        for number in [201, 202] {
            assert!([0, 25, 26, 28].iter().all(|cause| times(met, number, *cause, |_| true) > 20), "{number}");
        }
        for operator in [Operator::SetSingleton, Operator::Tuple, Operator::RelJoin, Operator::RelProduct] {
            assert!(times(met, operator as u32, 22, |_| true) > 10, "{operator:?}");
        }
    }

    #[test]
    fn what_is_met_of_relations() {
        let met = met();
        let met_at = |operator: Operator, cause: u32, holds: &dyn Fn(&[Vec<&str>]) -> bool| {
            let of_columns = |list: &[String]| {
                let columns: Option<Vec<Vec<&str>>> = list.iter().map(|text| columns(text)).collect();
                columns.is_some_and(|columns| holds(&columns))
            };
            times(met, operator as u32, cause, of_columns)
        };
        for count in [0, 1, 2, 3, 4, 64] {
            assert!(met_at(Operator::RelTranspose, 0, &|list| list[0].len() == count) > 5, "{count}");
        }
        for count in [0, 1, 2, 3] {
            assert!(
                met_at(Operator::RelTclosure, 26, &|list| list.len() == 1 && list[0].len() == count) > 5,
                "{count}"
            );
            for other in [0, 1, 2, 3] {
                let lengths = |list: &[Vec<&str>]| list.len() == 2 && (list[0].len(), list[1].len()) == (count, other);
                assert!(met_at(Operator::RelProduct, 0, &lengths) > 5, "{count} {other}");
                // Columns that touch, down to two relations of one column each; columns that do not; none at all.
                let joined = met_at(Operator::RelJoin, 0, &lengths);
                assert!(if count == 0 || other == 0 { joined == 0 } else { joined > 5 }, "{count} {other}");
                assert!(met_at(Operator::RelJoin, 26, &lengths) > 0, "{count} {other}");
            }
        }
    }
}
