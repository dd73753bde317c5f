//! Sheets about matching: questions 1 and 3 whose patterns mostly match; names given that the pattern has and that it lacks, some of them another sort
//! than the target asks for; what stands outside the premise; and now and then a given name that is no parameter, or is given twice.
//!
//! A pattern and what it becomes are made together; nothing is asked of the model, of carcara or of a library.

use crate::choice::Choice;
use crate::writer::{Fields, Writer};
use model::sort::{Kind, LARGEST, LONGEST, Sort, Tree};

/// Names that parameters have.
const NAMES: [u16; 5] = [0, 1, 2, 3, 65_535];

/// The names of variables that are no parameters, but where all 64 names are.
const OTHERS: [u16; 2] = [5, 65_534];

/// Parameters, each with what it stands for in the target.
type Images = [(u16, Tree)];

/// A sheet in the making.
struct Maker<'a> {
    choice: Choice<'a>,
    writer: Writer,
    /// The sorts that are there, each with its number.
    sorts: Vec<(Tree, u16)>,
}

/// A sheet about matching. `under` gives a random number under one that is not 0.
pub fn sheet(under: &mut dyn FnMut(usize) -> usize) -> Vec<u8> {
    let mut maker = Maker { choice: Choice(under), writer: Writer::default(), sorts: Vec::new() };
    let count = 1 + maker.choice.below(8);
    // The first such question refuses the sheet.
    let wrong = maker.choice.below(16 * count);
    for at in 0..count {
        maker.question(at == wrong);
    }
    maker.writer.bytes()
}

impl Maker<'_> {
    /// Adds a question; with names given wrongly, or as they may be.
    fn question(&mut self, wrong: bool) {
        let images = self.images();
        let (pattern, target) = self.pair(&images, 3);
        let (pattern, target) = self.spoiled(pattern, target);
        let result = self.result(&images);
        let list = [&pattern, &target, &result].map(|sort| self.sort(sort));
        let mut given = self.given(&images);
        if wrong {
            let name = self.choice.one(&[4, OTHERS[1], given.first().map_or(4, |(name, _)| *name)]);
            given.push((name, Sort::plain(Kind::Int)));
        }
        let pairs: Vec<(u16, u16)> = given.iter().map(|(name, sort)| (*name, self.sort(sort))).collect();
        let names: Vec<u16> = images.iter().map(|(name, _)| *name).collect();
        let continues = wrong || self.choice.below(4) != 0;
        self.writer.question(Fields {
            kind: if continues { 3 } else { 1 },
            list: Some(&list),
            pairs: continues.then_some(&pairs[..pairs.len().min(LONGEST)]),
            second: Some(&names),
            ..Fields::default()
        });
    }

    /// The number of a sort, which is added behind its parts if it is not there; that of Int for one that no sheet may hold.
    fn sort(&mut self, sort: &Tree) -> u16 {
        if sort.size() > LARGEST {
            return self.sort(&Sort::plain(Kind::Int));
        }
        if let Some((_, number)) = self.sorts.iter().find(|(known, _)| known == sort) {
            return *number;
        }
        let list: Vec<u16> = sort.parts.iter().map(|part| self.sort(part)).collect();
        let has_list = !matches!(sort.kind as u8, 2..=7 | 9 | 10 | 13);
        let number = self.writer.sort(Fields {
            kind: sort.kind as u8,
            name: matches!(sort.kind, Kind::Atom | Kind::Var | Kind::Datatype).then_some(sort.name),
            number: (sort.kind == Kind::BitVec).then_some(sort.width as u32),
            list: has_list.then_some(&list),
            second: (sort.kind == Kind::Par).then_some(&sort.names),
            ..Fields::default()
        });
        self.sorts.push((sort.clone(), number));
        number
    }

    /// Parameters with their images: none, a few or as many as there can be.
    fn images(&mut self) -> Vec<(u16, Tree)> {
        let names: Vec<u16> = match self.choice.below(16) {
            0 => (1..=64).collect(),
            _ => NAMES.into_iter().filter(|_| self.choice.below(2) == 0).collect(),
        };
        names.into_iter().map(|name| (name, self.image())).collect()
    }

    /// A sort for a parameter, which may stand in a target: a small one, or now and then a great one.
    fn image(&mut self) -> Tree {
        match self.choice.below(32) {
            0 | 1 => self.tower(),
            2 => Sort::plain(Kind::Type),
            3 | 4 => Sort::bit_vec(0),
            5..8 => Sort::bit_vec(8),
            8..11 => Sort::var(self.choice.one(&OTHERS)),
            11..16 => Sort::of(Kind::Set, vec![self.image()]),
            16..19 => Sort::of(Kind::Tuple, Vec::new()),
            19..25 => Sort::plain(Kind::Bool),
            _ => Sort::plain(Kind::Int),
        }
    }

    /// Arrays of arrays, each of the one before twice: a tree of 31 to 4,095.
    fn tower(&mut self) -> Tree {
        let height = 4 + self.choice.below(8);
        (0..height).fold(Sort::plain(Kind::Int), |below, _| Sort::of(Kind::Array, vec![below.clone(), below]))
    }

    /// A pattern, and what it becomes with the images.
    fn pair(&mut self, images: &Images, depth: usize) -> (Tree, Tree) {
        match self.choice.below(if depth == 0 { 4 } else { 8 }) {
            0..3 if !images.is_empty() => {
                let (name, image) = self.choice.one(images);
                (Sort::var(name), image)
            }
            0..4 => {
                let sort = self.image();
                (sort.clone(), sort)
            }
            _ => self.pair_of_parts(images, depth - 1),
        }
    }

    /// The same for a sort with parts: now and then as many as there can be.
    fn pair_of_parts(&mut self, images: &Images, depth: usize) -> (Tree, Tree) {
        let kinds = [Kind::Function, Kind::Tuple, Kind::Atom, Kind::Datatype, Kind::Set, Kind::Array];
        let kind = self.choice.one(&kinds);
        let count = match kind {
            Kind::Set => 1,
            Kind::Array => 2,
            _ if depth == 2 && images.len() == 64 => 1 + self.choice.below(64),
            _ => self.choice.below(4),
        };
        let depth = if count > 4 { 0 } else { depth };
        let (patterns, targets) = (0..count).map(|_| self.pair(images, depth)).unzip();
        let name = if matches!(kind, Kind::Atom | Kind::Datatype) { self.choice.one(&NAMES) } else { 0 };
        (Sort::new(kind, name, 0, patterns, Vec::new()), Sort::new(kind, name, 0, targets, Vec::new()))
    }

    /// A pattern and a target that now and then do not match, or of which one is outside the premise.
    fn spoiled(&mut self, pattern: Tree, target: Tree) -> (Tree, Tree) {
        match self.choice.below(20) {
            0 | 1 => (pattern, self.image()),
            2 => (self.barred(), target),
            3 => (pattern, self.barred()),
            4 => (pattern.clone(), pattern),
            _ => (pattern, target),
        }
    }

    /// A sort that stands outside the premise, by itself or where a name is a parameter.
    fn barred(&mut self) -> Tree {
        let held = match self.choice.below(4) {
            0 => Sort::new(Kind::Par, 0, 0, vec![Sort::plain(Kind::Int)], vec![4]),
            1 => Sort::plain(Kind::ParamBitVec),
            _ => Sort::var(self.choice.one(&NAMES)),
        };
        match self.choice.below(2) {
            0 => held,
            _ => Sort::of(Kind::Array, vec![Sort::plain(Kind::Int), held]),
        }
    }

    /// A result: it holds parameters, some of them below a Par that has them too; now and then so many that a limit is met.
    fn result(&mut self, images: &Images) -> Tree {
        let (part, _) = self.pair(images, 2);
        match self.choice.below(8) {
            0..3 => {
                let mut names: Vec<u16> = NAMES.into_iter().filter(|_| self.choice.below(2) == 0).collect();
                names.push(4);
                Sort::new(Kind::Par, 0, 0, vec![part], names)
            }
            3..5 => Sort::of(Kind::Tuple, vec![part; 63]),
            _ => part,
        }
    }

    /// What is given: of none to all of the parameters their images, and now and then another sort or one outside the premise.
    fn given(&mut self, images: &Images) -> Vec<(u16, Tree)> {
        let share = self.choice.below(4);
        let mut given: Vec<(u16, Tree)> = images.iter().filter(|_| self.choice.below(3) < share).cloned().collect();
        if !given.is_empty() && self.choice.below(4) == 0 {
            let at = self.choice.below(given.len());
            given[at].1 = match self.choice.below(3) {
                0 => self.barred(),
                _ => self.image(),
            };
        }
        if self.choice.below(2) == 0 {
            given.reverse();
        }
        given
    }
}

#[cfg(test)]
mod tests {
    use super::*;
    use crate::random::Source;
    use model::reader::{self, Lent, Question, Refusal};
    use std::collections::BTreeMap;

    /// All that a sheet may need.
    const ALL: Lent = Lent { records: 65_536, places: 4_096, rows: 0, answers: 8 };

    /// What a question gives beside its pattern.
    fn kind_of(question: &Question) -> &'static str {
        let held = |name: u16| question.list[0].holds(&|sort: &Sort| sort.kind == Kind::Var && sort.name == name);
        let names = question.given.iter().map(|(name, _)| held(*name));
        match (question.kind, names.clone().any(|held| held), names.clone().any(|held| !held)) {
            (1, ..) => "question 1",
            (_, false, false) => "nothing",
            (_, true, false) => "of the pattern",
            (_, false, true) => "not of the pattern",
            (_, true, true) => "both",
        }
    }

    /// How often questions of each kind have each answer's refusal, of 4,000 sheets, and how many sheets are refused.
    fn met() -> (BTreeMap<(&'static str, u32), usize>, usize) {
        let mut source = Source::new(1);
        let (mut met, mut refused) = (BTreeMap::new(), 0);
        for _ in 0..4_000 {
            let sheet = sheet(&mut |bound| source.under(bound));
            match reader::read(&sheet, &ALL) {
                Ok((read, _)) => {
                    let judged = model::judge(&sheet, ALL.records, ALL.places, ALL.rows, ALL.answers);
                    for (question, answer) in read.questions.iter().zip(judged.answers) {
                        *met.entry((kind_of(question), answer >> 16)).or_default() += 1;
                    }
                }
                Err(refusal) => {
                    assert_eq!(refusal, Refusal::Field);
                    refused += 1;
                }
            }
        }
        (met, refused)
    }

    #[test]
    fn everything_is_met() {
        let (met, refused) = met();
        assert!((100..400).contains(&refused), "{refused}");
        for kind in ["question 1", "nothing", "of the pattern", "not of the pattern", "both"] {
            for number in [0, 22, 28, 29] {
                let least = if number == 22 { 10 } else { 100 };
                assert!(met.get(&(kind, number)).is_some_and(|count| *count >= least), "{kind} !{number}: {met:?}");
            }
        }
    }
}
