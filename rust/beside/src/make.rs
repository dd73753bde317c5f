//! Random sheets that are about something: terms that mostly fit their operators and heads, patterns that mostly match.
//!
//! A sheet is made in rounds. After each round the library is asked for the sorts of the terms so far, so that the next round can choose
//! arguments by their sorts. What the library says steers the making only; every sheet is compared as a whole afterwards.

use crate::random::Random;
use compare::sizes;
use napsilo::{
    Binder, Name, Operator, ParamOperator, QualifiedOperator, QuestionRecord, SheetWriter, Sort, SortId, SortRecord,
    TermId, TermRecord,
};
use std::collections::HashMap;
use std::sync::Arc;

/// Makes one sheet.
pub struct Maker<'a> {
    random: &'a mut Random,
    sheet: SheetWriter,
    /// The sorts added, as trees.
    sorts: Vec<(SortId, Arc<Sort>)>,
    /// The terms added so far, with what the library says to them: the checked sort, else the inferred one.
    terms: Vec<(TermId, Option<Arc<Sort>>)>,
    /// The terms of each sort.
    by_sort: HashMap<Arc<Sort>, Vec<TermId>>,
}

/// A random sheet.
pub fn sheet(random: &mut Random) -> Vec<u8> {
    let mut maker =
        Maker { random, sheet: SheetWriter::new(), sorts: Vec::new(), terms: Vec::new(), by_sort: HashMap::new() };
    for _ in 0..3 + maker.random.under(10) {
        let depth = 1 + maker.random.under(3);
        let sort = maker.tree(depth);
        maker.add_sort(&sort);
    }
    maker.leaves();
    for _ in 0..1 + maker.random.under(4) {
        maker.learn();
        for _ in 0..2 + maker.random.under(10) {
            maker.term();
        }
    }
    for _ in 0..maker.random.under(8) {
        maker.question();
    }
    // By numbers of their own, so that all else of a seed is as it was before there were such questions.
    let mut apart = maker.random.clone();
    let mut maker = Maker { random: &mut apart, ..maker };
    for _ in 0..maker.random.under(16).saturating_sub(10) {
        maker.continued();
    }
    maker.sheet.finish().into_bytes()
}

/// A sheet that fills the store: its sorts are deep, and its answers are made of many new ones.
pub fn crowded(random: &mut Random) -> Vec<u8> {
    let mut sheet = SheetWriter::new();
    let name = Name::new(1);
    let mut deep = vec![sheet.add_sort(SortRecord::Var(name)).expect("the first")];
    let depth = 900 + random.under(1_147);
    while sheet.sorts() < depth {
        let last = deep[deep.len() - 1];
        let sort = match random.under(9) {
            0 => SortRecord::Tuple(&[last]),
            1 => SortRecord::Function(&[last]),
            _ => SortRecord::Set(last),
        };
        deep.push(sheet.add_sort(sort).expect("under the limits"));
    }
    let int = sheet.add_sort(SortRecord::Int).expect("under the limits");
    let top = deep[deep.len() - 1];
    let var = sheet.add_term(TermRecord::Var(name, top)).expect("under the limits");
    for _ in 0..random.under(4) {
        let body = TermRecord::Binder(Binder::Lambda, &[(name, top)], var);
        sheet.add_term(body).expect("under the limits");
    }
    for _ in 0..4 + random.under(12) {
        let image = match random.percent(30) {
            true => int,
            false => *random.of(&deep),
        };
        let sort = *random.of(&deep);
        let given = &[(Name::new(2), image), (name, image)];
        let question = match random.under(5) {
            0 => QuestionRecord::Match { pattern: top, target: top, result: sort, names: &[] },
            1 => QuestionRecord::Compatible(sort, image),
            2 => QuestionRecord::Continue {
                pattern: int,
                target: int,
                result: sort,
                given: &given[..1 + random.under(2)],
                names: &[name, Name::new(2)],
            },
            _ => QuestionRecord::Apply { sort, map: &[(name, image)] },
        };
        sheet.add_question(question).expect("under the limits");
    }
    sheet.finish().into_bytes()
}

/// A sheet whose sort records nearly fill it: with two bytes more for each, the store cannot hold them all, or just not what the terms need.
pub fn heavy(random: &mut Random) -> Vec<u8> {
    const FITS: &str = "under the limits";
    let mut sheet = SheetWriter::new();
    let [int, bool] = [SortRecord::Int, SortRecord::Bool].map(|sort| sheet.add_sort(sort).expect(FITS));
    // Each takes 134 bytes on the sheet and 136 in the store, which has room for 481.
    for first in 0..470 + u16::try_from(random.under(17)).expect("few") {
        let names: Vec<Name> = (first..first + 64).map(Name::new).collect();
        sheet.add_sort(SortRecord::Par(&names, int)).expect(FITS);
    }
    let leaf = sheet.add_term(TermRecord::Var(Name::new(1), bool)).expect(FITS);
    let mut last = leaf;
    for _ in 0..random.under(10) {
        let term = match random.under(3) {
            0 => TermRecord::Op(Operator::SetSingleton, &[last]),
            1 => TermRecord::Op(Operator::Tuple, &[leaf, last, leaf]),
            _ => TermRecord::Binder(Binder::Lambda, &[(Name::new(2), bool)], last),
        };
        last = sheet.add_term(term).expect(FITS);
    }
    sheet.finish().into_bytes()
}

/// A copy of a sheet with tree sizes in some of its sort records; now and then a wrong one, one cut short, or one where none may stand.
pub fn sized(random: &mut Random, sheet: &[u8]) -> Vec<u8> {
    sizes::some(sheet, &mut |bound| random.under(bound))
}

/// A copy of a sheet with one wrong tree size.
pub fn wrong(random: &mut Random, sheet: &[u8]) -> Vec<u8> {
    sizes::wrong(sheet, &mut |bound| random.under(bound))
}

/// A sheet with sorts of great tree sizes, some of them or of what is made of them past the limit.
pub fn large(random: &mut Random) -> Vec<u8> {
    let most = *random.of(&[1_500, 2_100, 4_096, 4_096, 4_200]);
    up_to(random, most)
}

/// A sheet like these on which mostly some sort is past the limit, and one sort has a wrong tree size.
pub fn over(random: &mut Random) -> Vec<u8> {
    let sheet = up_to(random, 9_000);
    wrong(random, &sheet)
}

/// A sheet with sorts of tree sizes up to this one.
fn up_to(random: &mut Random, most: usize) -> Vec<u8> {
    let mut sheet = SheetWriter::new();
    let name = Name::new(1);
    let mut add = |sort: SortRecord<'_>| sheet.add_sort(sort).expect("under the limits");
    let var = add(SortRecord::Var(name));
    let int = add(SortRecord::Int);
    let mut sorts = vec![(var, 1), (int, 1)];
    let mut size = 1;
    while sorts.len() < 40 {
        let (last, of_last) = sorts[sorts.len() - 1];
        let (other, of_other) = *random.of(&sorts);
        let (sort, grown) = match random.under(5) {
            0 => (SortRecord::Set(last), of_last + 1),
            1 => (SortRecord::Array(last, last), 2 * of_last + 1),
            2 => (SortRecord::Tuple(&[last, other, last]), 2 * of_last + of_other + 1),
            3 => (SortRecord::Function(&[other, last]), of_last + of_other + 1),
            _ => (SortRecord::Function(&[last, var, last]), 2 * of_last + 2),
        };
        if grown <= most {
            sorts.push((add(sort), grown));
            size = size.max(grown);
        } else if size > most / 2 || random.percent(10) {
            break;
        }
    }
    let mut heads = Vec::new();
    for _ in 0..4 {
        let (result, _) = *random.of(&sorts);
        let function = add(SortRecord::Function(&[var, result]));
        heads.push(add(SortRecord::Par(&[name], function)));
    }
    let mut terms = Vec::new();
    for (sort, _) in &sorts {
        terms.push(sheet.add_term(TermRecord::Var(name, *sort)).expect("under the limits"));
    }
    let heads: Vec<TermId> =
        heads.iter().map(|sort| sheet.add_term(TermRecord::Var(name, *sort)).expect("few")).collect();
    for _ in 0..20 {
        let (head, argument, other) = (*random.of(&heads), *random.of(&terms), random.of(&sorts).0);
        let term = match random.under(4) {
            0 => TermRecord::Binder(Binder::Lambda, &[(name, other), (name, other)], argument),
            1 => TermRecord::Op(Operator::Tuple, &[argument, argument]),
            _ => TermRecord::App(head, &[argument]),
        };
        terms.push(sheet.add_term(term).expect("under the limits"));
    }
    for _ in 0..10 {
        let [sort, image, third] = [0; 3].map(|_| random.of(&sorts).0);
        let question = match random.under(6) {
            0 => QuestionRecord::Match { pattern: var, target: int, result: sort, names: &[name] },
            1 => QuestionRecord::Match { pattern: sort, target: image, result: third, names: &[] },
            2 => QuestionRecord::Continue {
                pattern: var,
                target: int,
                result: sort,
                given: &[(name, int)],
                names: &[name],
            },
            3 => QuestionRecord::Continue {
                pattern: sort,
                target: sort,
                result: third,
                given: &[(Name::new(2), image)],
                names: &[Name::new(2)],
            },
            _ => QuestionRecord::Apply { sort, map: &[(name, image)] },
        };
        sheet.add_question(question).expect("under the limits");
    }
    sheet.finish().into_bytes()
}

/// A sheet of many applications of a few parametric heads to a few arguments, so that most were judged before on the same sheet: heads
/// of up to seven parameter sorts, partly and wrongly applied too, and terms whose two rows differ or of which one is refused.
pub fn repeated(random: &mut Random) -> Vec<u8> {
    const FITS: &str = "under the limits";
    let mut sheet = SheetWriter::new();
    let names = [1, 2].map(Name::new);
    let ground = [SortRecord::Int, SortRecord::Bool, SortRecord::BitVec(3), SortRecord::Type];
    let ground = ground.map(|sort| sheet.add_sort(sort).expect(FITS));
    let variables = names.map(|name| sheet.add_sort(SortRecord::Var(name)).expect(FITS));
    let mut with_set = |sort: SortId| [sort, sheet.add_sort(SortRecord::Set(sort)).expect(FITS)];
    // A parameter's sort by its number: a name or its Set, or Int; and what it is with images for the names.
    let parameters = [with_set(variables[0]), with_set(variables[1]), [ground[0]; 2]];
    let images = ground.map(&mut with_set);
    let own = parameters.map(|sorts| sorts.map(|sort| sheet.add_term(TermRecord::Var(names[0], sort)).expect(FITS)));
    let terms = images.map(|sorts| sorts.map(|sort| sheet.add_term(TermRecord::Var(names[1], sort)).expect(FITS)));
    let mut others: Vec<TermId> = own.iter().chain(&terms).flatten().copied().collect();
    let mut heads = Vec::new();
    for _ in 0..2 + random.under(5) {
        let list: Vec<[usize; 2]> = (0..1 + random.under(8)).map(|_| [random.under(3), random.under(2)]).collect();
        let sorts: Vec<SortId> = list.iter().map(|[which, set]| parameters[*which][*set]).collect();
        let function = sheet.add_sort(SortRecord::Function(&sorts)).expect(FITS);
        let sort = SortRecord::Par(&names[..1 + random.under(2)], function);
        let sort = sheet.add_sort(sort).expect(FITS);
        heads.push((sheet.add_term(TermRecord::Var(names[0], sort)).expect(FITS), list));
    }
    for _ in 0..20 + random.under(300) {
        if random.percent(6) {
            // Inferred by the operator alone, and not checked.
            let argument = *random.of(&others);
            let operator = *random.of(&[Operator::SetSingleton, Operator::And, Operator::Not]);
            others.push(sheet.add_term(TermRecord::Op(operator, &[argument])).expect(FITS));
            continue;
        }
        let (head, list) = random.of(&heads).clone();
        let chosen = [random.under(ground.len()), random.under(ground.len())];
        let count = if random.percent(80) { list.len() - 1 } else { random.under(list.len() + 2) };
        let arguments: Vec<TermId> = (0..count)
            .map(|at| match list.get(at) {
                Some([which, set]) if *which < 2 && !random.percent(8) => terms[chosen[*which]][*set],
                Some([_, 0]) if !random.percent(8) => terms[0][0],
                _ => *random.of(&others),
            })
            .collect();
        let head = if random.percent(3) { *random.of(&others) } else { head };
        others.push(sheet.add_term(TermRecord::App(head, &arguments)).expect(FITS));
    }
    sheet.finish().into_bytes()
}

/// A sheet about numbers, Int and Real beside each other.
pub fn numbers(random: &mut Random) -> Vec<u8> {
    compare::numbers::sheet(&mut |bound| random.under(bound))
}

/// A sheet about sets and relations.
pub fn relations(random: &mut Random) -> Vec<u8> {
    compare::relations::sheet(&mut |bound| random.under(bound))
}

/// A sheet about matching, with names given or not.
pub fn continued(random: &mut Random) -> Vec<u8> {
    compare::continued::sheet(&mut |bound| random.under(bound))
}

/// A copy of a sheet with something changed.
pub fn damaged(random: &mut Random, sheet: &[u8]) -> Vec<u8> {
    let mut copy = sheet.to_vec();
    for _ in 0..1 + random.under(2) {
        let at = random.under(copy.len());
        match random.under(8) {
            0 => copy.truncate(at),
            1 => copy.insert(at, 1),
            2 => {
                copy.remove(at);
            }
            3 => copy.push(u8::try_from(random.under(256)).expect("a byte")),
            4 => copy[at] ^= 1 << random.under(8),
            5 => copy[at] = *random.of(&[0, 1, 3, 5, 11, 17, 19, 21, 29, 53, 64, 65, 81, 85, 128, 255]),
            6 => copy[at] = copy[at].wrapping_add(1),
            _ => copy[at] = copy[at].wrapping_sub(1),
        }
        if copy.is_empty() {
            break;
        }
    }
    copy
}

/// Sorts for names.
pub type Images = HashMap<Name, Arc<Sort>>;

/// A sort with names replaced; a Par binds its own.
pub fn replaced(sort: &Arc<Sort>, map: &Images) -> Arc<Sort> {
    let all = |list: &[Arc<Sort>]| -> Vec<Arc<Sort>> { list.iter().map(|part| replaced(part, map)).collect() };
    Arc::new(match sort.as_ref() {
        Sort::Var(name) => return map.get(name).unwrap_or(sort).clone(),
        Sort::Function(list) => Sort::Function(all(list)),
        Sort::Tuple(list) => Sort::Tuple(all(list)),
        Sort::Atom(name, args) => Sort::Atom(*name, all(args)),
        Sort::Datatype { name, args } => Sort::Datatype { name: *name, args: all(args) },
        Sort::Array(index, element) => Sort::Array(replaced(index, map), replaced(element, map)),
        Sort::Set(part) => Sort::Set(replaced(part, map)),
        Sort::Par(names, part) => {
            let mut map = map.clone();
            map.retain(|name, _| !names.contains(name));
            Sort::Par(names.clone(), replaced(part, &map))
        }
        _ => return sort.clone(),
    })
}

/// Whether a sort holds one that the checked row refuses inside other sorts.
fn barred(sort: &Sort) -> bool {
    matches!(sort, Sort::Par(..) | Sort::Type | Sort::ParamBitVec | Sort::BitVec(0))
        || sort.parts().any(|part| barred(part))
}

/// What an operator wants of its arguments.
#[derive(Clone, Copy)]
enum Want {
    /// This sort.
    Is(fn() -> Sort),
    /// The sort that all wishes of this kind share.
    Same,
    /// A bit vector; all of one width.
    Vector,
    /// A bit vector of any width.
    AnyVector,
    /// A set of the shared sort.
    SetOfSame,
    /// An array that a term has.
    Array,
    /// The array's index, the array's element.
    Index,
    Element,
    /// A set of tuples.
    Relation,
    /// Anything.
    Any,
}

const BOOL: Want = Want::Is(|| Sort::Bool);
const INT: Want = Want::Is(|| Sort::Int);
const REAL: Want = Want::Is(|| Sort::Real);
const STRING: Want = Want::Is(|| Sort::String);
const REGLAN: Want = Want::Is(|| Sort::RegLan);

impl Maker<'_> {
    /// A name, of few, so that names meet.
    fn name(&mut self) -> Name {
        Name::new(*self.random.of(&[0, 1, 1, 1, 2, 2, 3, 4, 65_535]))
    }

    /// Distinct names, of so many at most.
    fn names(&mut self, most: usize) -> Vec<Name> {
        let mut names = Vec::new();
        for _ in 0..self.random.under(most + 1) {
            let name = self.name();
            if !names.contains(&name) {
                names.push(name);
            }
        }
        names
    }

    /// A width: mostly small, now and then near the greatest.
    fn width(&mut self) -> u32 {
        *self.random.of(&[0, 1, 1, 2, 4, 8, 8, 8, 16, 32, 40_000, 65_534, 65_535])
    }

    /// A sort without parts.
    fn leaf(&mut self) -> Sort {
        match self.random.under(14) {
            0 | 1 => Sort::Bool,
            2 | 3 => Sort::Int,
            4 => Sort::Real,
            5 => Sort::String,
            6 => Sort::RegLan,
            7 | 8 => Sort::BitVec(self.width()),
            9 => Sort::ParamBitVec,
            10 => Sort::Atom(self.name(), Vec::new()),
            11 if self.random.percent(30) => Sort::Type,
            _ => Sort::Var(self.name()),
        }
    }

    /// Some parts.
    fn parts(&mut self, most: usize, depth: usize) -> Vec<Arc<Sort>> {
        let length = match self.random.percent(2) {
            true => *self.random.of(&[31, 32, 33, 62, 63, 64]),
            false => self.random.under(most + 1),
        };
        let depth = if length > most { 0 } else { depth };
        (0..length).map(|_| self.part(depth)).collect()
    }

    /// A part: new, or one that is there; mostly of a form that a checked sort may have.
    fn part(&mut self, depth: usize) -> Arc<Sort> {
        let part = match self.random.percent(40) && !self.sorts.is_empty() {
            true => self.random.of(&self.sorts).1.clone(),
            false => Arc::new(self.tree(depth)),
        };
        match barred(&part) && self.random.percent(85) {
            true => Arc::new(self.ground(1)),
            false => part,
        }
    }

    /// A sort of at most this depth, or a little more over sorts that are there.
    fn tree(&mut self, depth: usize) -> Sort {
        if depth == 0 {
            return self.leaf();
        }
        let depth = depth - 1;
        match self.random.under(14) {
            0..3 => Sort::Function(self.parts(4, depth)),
            3 => Sort::Atom(self.name(), self.parts(2, depth)),
            4 => Sort::Array(self.part(depth), self.part(depth)),
            5 => Sort::Datatype { name: self.name(), args: self.parts(2, depth) },
            6..9 => self.parametric(depth),
            9 => Sort::Set(self.part(depth)),
            10 => Sort::Tuple(self.parts(3, depth)),
            11 => Sort::Set(Arc::new(Sort::Tuple(self.parts(3, depth)))),
            _ => self.leaf(),
        }
    }

    /// A parametric sort, mostly over a function of its parameters.
    fn parametric(&mut self, depth: usize) -> Sort {
        let mut names = self.names(3);
        if names.is_empty() {
            names.push(Name::new(1));
        }
        if self.random.percent(15) {
            return Sort::Par(names, self.part(depth));
        }
        let mut list = Vec::new();
        for _ in 0..1 + self.random.under(4) {
            let var = Arc::new(Sort::Var(*self.random.of(&names)));
            list.push(match self.random.under(6) {
                0 => Arc::new(Sort::Set(var)),
                1 => Arc::new(Sort::Array(var, self.part(0))),
                2 => self.part(depth),
                3 => Arc::new(Sort::Function(vec![self.part(0), var])),
                _ => var,
            });
        }
        Sort::Par(names, Arc::new(Sort::Function(list)))
    }

    /// Adds a sort; now and then a second record of one that is there.
    fn add_sort(&mut self, sort: &Sort) -> Option<SortId> {
        let id = self.sheet.sort(sort).ok()?;
        let id = match (self.random.percent(4), sort) {
            (true, Sort::Int) => self.sheet.add_sort(SortRecord::Int).ok()?,
            (true, Sort::Bool) => self.sheet.add_sort(SortRecord::Bool).ok()?,
            _ => id,
        };
        self.sorts.push((id, Arc::new(sort.clone())));
        Some(id)
    }

    /// Adds a term. A sheet that is full stays as it is.
    fn add(&mut self, term: TermRecord<'_>) -> Option<TermId> {
        let id = self.sheet.add_term(term).ok()?;
        self.terms.push((id, None));
        Some(id)
    }

    /// Adds a variable of a sort, and knows its sort.
    fn variable(&mut self, sort: &Arc<Sort>) -> Option<TermId> {
        let id = self.add_sort(sort)?;
        let name = self.name();
        let term = self.add(TermRecord::Var(name, id))?;
        self.terms.last_mut().expect("added").1 = Some(sort.clone());
        self.by_sort.entry(sort.clone()).or_default().push(term);
        Some(term)
    }

    /// Adds variables of the sorts that are there, and constants.
    fn leaves(&mut self) {
        for (_, sort) in self.sorts.clone() {
            self.variable(&sort);
        }
        for _ in 0..3 + self.random.under(8) {
            let term = match self.random.under(7) {
                0..2 => TermRecord::Integer(*self.random.of(&[0, 0, 1, 1, 2, 3, 7, 8, 9, 65_535, 65_536, u32::MAX])),
                2 => TermRecord::Real,
                3 => TermRecord::String,
                4 => TermRecord::RegLan,
                _ => TermRecord::BitVec(self.width()),
            };
            self.add(term);
        }
    }

    /// Asks the library for the sorts of the terms so far.
    fn learn(&mut self) {
        let Ok(judged) = self.sheet.judge() else {
            return;
        };
        self.by_sort.clear();
        for (id, sort) in &mut self.terms {
            let rows = [judged.checked(*id), judged.inferred(*id)].map(|row| row.expect("the sheet's own term"));
            *sort = rows.into_iter().find_map(|row| row.as_ref().ok()).cloned();
            if let Some(sort) = sort {
                self.by_sort.entry(sort.clone()).or_default().push(*id);
            }
        }
    }

    /// Any term.
    fn any(&mut self) -> TermId {
        self.random.of(&self.terms).0
    }

    /// The sort of any term that has one.
    fn any_sort(&mut self) -> Arc<Sort> {
        let (_, sort) = self.random.of(&self.terms);
        sort.clone().unwrap_or_else(|| Arc::new(Sort::Int))
    }

    /// A term of a sort: one that is there, else a new variable.
    fn of_sort(&mut self, sort: &Arc<Sort>) -> TermId {
        if let Some(terms) = self.by_sort.get(sort) {
            return *self.random.of(terms);
        }
        match self.variable(sort) {
            Some(term) => term,
            None => self.any(),
        }
    }

    /// The sort of a term for which something holds, if one is found in a few tries.
    fn sort_where(&mut self, holds: impl Fn(&Sort) -> bool) -> Option<Arc<Sort>> {
        let fitting: Vec<&Arc<Sort>> = self.terms.iter().filter_map(|(_, sort)| sort.as_ref()).collect();
        let fitting: Vec<&Arc<Sort>> = fitting.into_iter().filter(|sort| holds(sort)).collect();
        match fitting.is_empty() {
            true => None,
            false => Some((*self.random.of(&fitting)).clone()),
        }
    }

    /// What an operator wants: a list of wishes, by its rank or, where it has none, by what the Rust looks at. Int and Real beside each other
    /// are left to [`numbers`], sets with several elements put into them, pairs of one sort and relations that touch to [`relations`].
    fn wants(&mut self, operator: Operator) -> Vec<Want> {
        let several = 2 + self.random.under(3);
        let number = *self.random.of(&[INT, REAL]);
        match operator.number() {
            0 | 1 | 66..=68 => vec![],
            2 => vec![BOOL],
            3..=6 => vec![BOOL; several],
            7 | 8 => vec![Want::Same; several],
            9 => vec![BOOL, Want::Same, Want::Same],
            10 | 12 | 17..=20 => vec![number; several],
            11 => vec![number; several - 1],
            13 => vec![INT; several],
            14 => vec![REAL; several],
            15 => vec![INT; 2],
            16 | 21 | 24..=26 | 61 | 63 => vec![INT],
            22 | 23 | 28..=41 => vec![REAL],
            42 => vec![Want::Array, Want::Index],
            43 => vec![Want::Array, Want::Index, Want::Element],
            44 | 46 | 47 => vec![STRING; several],
            45 | 59 | 60 | 62 | 64 => vec![STRING],
            48 => vec![STRING, INT],
            49 => vec![STRING, INT, INT],
            50..=52 | 77 => vec![STRING; 2],
            53 => vec![STRING, STRING, INT],
            54 => vec![STRING, REGLAN, INT],
            55 | 56 => vec![STRING; 3],
            57 | 58 => vec![STRING, REGLAN, STRING],
            65 => vec![STRING, REGLAN],
            69..=71 | 74 => vec![REGLAN; several],
            72 | 73 | 75 | 76 => vec![REGLAN],
            79 | 80 | 108 | 109 | 113 => vec![Want::AnyVector],
            81..=84 => vec![Want::Vector; several],
            85..=89 | 91..=107 => vec![Want::Vector; 2],
            90 => vec![Want::AnyVector; 2],
            110 | 112 => vec![INT; 2],
            111 => vec![BOOL; several],
            114 => vec![Want::AnyVector, Want::Same, Want::Same],
            118..=120 | 122 => vec![Want::SetOfSame; 2],
            121 | 127 => vec![Want::Same, Want::SetOfSame],
            124..=126 | 128 => vec![Want::SetOfSame],
            131 | 132 => vec![Want::Relation],
            133 | 134 => vec![Want::Relation; 2],
            _ => vec![Want::Any; several - 1],
        }
    }

    /// Terms for wishes.
    fn grant(&mut self, wants: &[Want]) -> Vec<TermId> {
        let same = self.any_sort();
        let vector = self
            .sort_where(|sort| matches!(sort, Sort::BitVec(width) if *width > 0))
            .unwrap_or_else(|| Arc::new(Sort::BitVec(8)));
        let array = self.sort_where(|sort| matches!(sort, Sort::Array(..)));
        let array = array.unwrap_or_else(|| Arc::new(Sort::Array(same.clone(), Arc::new(Sort::Bool))));
        let (index, element) = match array.as_ref() {
            Sort::Array(index, element) => (index.clone(), element.clone()),
            _ => (same.clone(), same.clone()),
        };
        let mut terms = Vec::new();
        for want in wants {
            let relation = |sort: &Sort| matches!(sort, Sort::Set(part) if matches!(part.as_ref(), Sort::Tuple(_)));
            let sort = match want {
                Want::Is(sort) => Some(Arc::new(sort())),
                Want::Same => Some(same.clone()),
                Want::Vector => Some(vector.clone()),
                Want::AnyVector => self.sort_where(|sort| matches!(sort, Sort::BitVec(_))),
                Want::SetOfSame => Some(Arc::new(Sort::Set(same.clone()))),
                Want::Array => Some(array.clone()),
                Want::Index => Some(index.clone()),
                Want::Element => Some(element.clone()),
                Want::Relation => self.sort_where(relation),
                Want::Any => None,
            };
            terms.push(match sort {
                Some(sort) => self.of_sort(&sort),
                None => self.any(),
            });
        }
        self.spoil(&mut terms);
        terms
    }

    /// Now and then takes a term away, adds one or puts another in its place.
    fn spoil(&mut self, terms: &mut Vec<TermId>) {
        if !self.random.percent(20) {
            return;
        }
        let other = self.any();
        if terms.is_empty() {
            terms.push(other);
            return;
        }
        let at = self.random.under(terms.len());
        match self.random.under(6) {
            0 => terms.insert(at, other),
            1 => {
                terms.remove(at);
            }
            _ => terms[at] = other,
        }
    }

    /// Adds a term of a random kind.
    fn term(&mut self) {
        match self.random.under(20) {
            0..6 => self.app(),
            6..13 => {
                let operator = *self.random.of(Operator::ALL);
                let wants = self.wants(operator);
                let args = self.grant(&wants);
                self.add(TermRecord::Op(operator, &args));
            }
            13 | 14 => self.binder(),
            15 => self.let_term(),
            16 => {
                let subject = self.any();
                let mut bodies = self.grant(&[Want::Same, Want::Same]);
                bodies.truncate(self.random.under(3));
                self.add(TermRecord::Match(subject, &bodies));
            }
            17 | 18 => self.indexed(),
            _ => {
                let op = *self.random.of(QualifiedOperator::ALL);
                let of = self.sort_where(|sort| matches!(sort, Sort::Array(..) | Sort::Set(_)));
                let sort = of.unwrap_or_else(|| self.any_sort());
                let mut args = match (op, sort.as_ref()) {
                    (QualifiedOperator::Const, Sort::Array(_, element)) => vec![self.of_sort(&element.clone())],
                    _ => vec![],
                };
                self.spoil(&mut args);
                if let Some(id) = self.add_sort(&sort) {
                    self.add(TermRecord::AsOp(op, id, &args));
                }
            }
        }
    }

    /// Adds an application, mostly of a function to arguments that it takes.
    fn app(&mut self) {
        let head_sort = self.sort_where(|sort| match sort {
            Sort::Function(_) => true,
            Sort::Par(_, part) => matches!(part.as_ref(), Sort::Function(_)),
            _ => false,
        });
        let Some(head_sort) = head_sort.filter(|_| !self.random.percent(3)) else {
            let (head, argument) = (self.any(), self.any());
            self.add(TermRecord::App(head, &[argument]));
            return;
        };
        let head = self.of_sort(&head_sort);
        let (names, function) = match head_sort.as_ref() {
            Sort::Par(names, part) => (names.clone(), part.clone()),
            _ => (vec![], head_sort.clone()),
        };
        let images = names.into_iter().map(|name| (name, self.any_sort()));
        let images: Images = images.collect();
        let Sort::Function(list) = function.as_ref() else {
            return;
        };
        let taken = match self.random.percent(70) {
            true => list.len().saturating_sub(1),
            false => self.random.under(list.len() + 2),
        };
        let mut args = Vec::new();
        for at in 0..taken {
            let mut images = images.clone();
            if self.random.percent(5) {
                // This argument goes its own way.
                let other = self.any_sort();
                images.values_mut().for_each(|image| *image = other.clone());
            }
            args.push(match list.get(at) {
                Some(part) => self.of_sort(&replaced(part, &images)),
                None => self.any(),
            });
        }
        if self.random.percent(60) {
            self.spoil(&mut args);
        }
        self.add(TermRecord::App(head, &args));
    }

    /// Adds a binder.
    fn binder(&mut self) {
        let binder = *self.random.of(Binder::ALL);
        let body = match binder {
            Binder::Lambda => self.any(),
            _ if self.random.percent(85) => self.of_sort(&Arc::new(Sort::Bool)),
            _ => self.any(),
        };
        let count = match self.random.under(30) {
            0 => 0,
            1 => *self.random.of(&[62, 63, 64]),
            2..20 => 1,
            _ => 2,
        };
        let mut bindings = Vec::new();
        for _ in 0..count {
            let name = self.name();
            bindings.push((name, self.random.of(&self.sorts).0));
        }
        self.add(TermRecord::Binder(binder, &bindings, body));
    }

    /// Adds a let.
    fn let_term(&mut self) {
        let mut values = Vec::new();
        for _ in 0..self.random.under(3) {
            let name = self.name();
            values.push((name, self.any()));
        }
        let inner = self.any();
        self.add(TermRecord::Let(&values, inner));
    }

    /// Adds an indexed operator.
    fn indexed(&mut self) {
        let op = *self.random.of(ParamOperator::ALL);
        let wants = match op {
            ParamOperator::IntToBv => vec![INT],
            ParamOperator::RePower | ParamOperator::ReLoop => vec![REGLAN],
            ParamOperator::BvConst => vec![],
            _ => vec![Want::AnyVector],
        };
        let args = self.grant(&wants);
        let mut op_args = Vec::new();
        let two = matches!(op, ParamOperator::BvExtract | ParamOperator::ReLoop | ParamOperator::BvConst);
        for _ in 0..if two { 2 } else { 1 } {
            let number = *self.random.of(&[0, 0, 1, 1, 2, 3, 4, 7, 8, 100, 65_527, 65_535, 65_536, u32::MAX]);
            op_args.extend(self.add(TermRecord::Integer(number)));
        }
        self.spoil(&mut op_args);
        self.add(TermRecord::ParamOp { op, op_args: &op_args, args: &args });
    }

    /// Adds a question.
    fn question(&mut self) {
        let (one, one_sort) = self.random.of(&self.sorts).clone();
        let other = self.random.of(&self.sorts).0;
        match self.random.under(3) {
            0 => {
                // Beside any two sorts: a sort and what it becomes where names are replaced.
                let two = match self.random.percent(60) {
                    true => {
                        let map = self.map();
                        self.add_sort(&replaced(&one_sort, &map)).unwrap_or(other)
                    }
                    false => other,
                };
                let pair = if self.random.percent(50) { (one, two) } else { (two, one) };
                let _ = self.sheet.add_question(QuestionRecord::Compatible(pair.0, pair.1));
            }
            1 => {
                let (names, _, target) = self.matchable(&one_sort, other, 3, 75);
                let result = self.random.of(&self.sorts).0;
                let question = QuestionRecord::Match { pattern: one, target, result, names: &names };
                let _ = self.sheet.add_question(question);
            }
            _ => {
                let names = self.names(3);
                let mut map = Vec::new();
                for name in names {
                    map.push((name, self.random.of(&self.sorts).0));
                }
                let _ = self.sheet.add_question(QuestionRecord::Apply { sort: one, map: &map });
            }
        }
    }

    /// Adds a question to match a pattern with what it mostly becomes, some names being given: mostly as they are there, now and then names that may
    /// not be given, which the writer refuses.
    fn continued(&mut self) {
        let (pattern, sort) = self.random.of(&self.sorts).clone();
        let other = self.random.of(&self.sorts).0;
        let (names, map, target) = self.matchable(&sort, other, 4, 80);
        let mut given = Vec::new();
        for name in &names {
            if self.random.percent(50) {
                let image = match (map.get(name), self.random.percent(85)) {
                    (Some(image), true) => self.add_sort(&image.clone()).unwrap_or(other),
                    _ => self.random.of(&self.sorts).0,
                };
                given.push((*name, image));
            }
        }
        if self.random.percent(4) {
            given.push((self.name(), other));
        }
        let result = self.random.of(&self.sorts).0;
        let question = QuestionRecord::Continue { pattern, target, result, given: &given, names: &names };
        let _ = self.sheet.add_question(question);
    }

    /// Distinct names, of so many at most, images for some of them, and a target for a pattern: what it becomes by these, as often as is asked, else
    /// the other sort.
    fn matchable(
        &mut self,
        pattern: &Arc<Sort>,
        other: SortId,
        most: usize,
        fits: usize,
    ) -> (Vec<Name>, Images, SortId) {
        let names = self.names(most);
        let mut map = self.map();
        map.retain(|name, _| names.contains(name));
        let target = match self.random.percent(fits) {
            true => self.add_sort(&replaced(pattern, &map)).unwrap_or(other),
            false => other,
        };
        (names, map, target)
    }

    /// Images for all names but the highest, mostly without variables.
    fn map(&mut self) -> Images {
        let mut map = HashMap::new();
        for number in 0..5 {
            let depth = self.random.under(2);
            let image = match self.random.percent(80) {
                true => Arc::new(self.ground(depth)),
                false => self.part(depth),
            };
            map.insert(Name::new(number), image);
        }
        map
    }

    /// A sort without variables.
    fn ground(&mut self, depth: usize) -> Sort {
        match self.random.under(6) {
            0 if depth > 0 => Sort::Set(Arc::new(self.ground(depth - 1))),
            1 => Sort::BitVec(8),
            2 => Sort::Real,
            3 => Sort::Bool,
            4 => Sort::Atom(Name::new(2), Vec::new()),
            _ => Sort::Int,
        }
    }
}
