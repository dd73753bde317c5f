//! carcara's side: the records of a sheet, decoded beforehand, built as terms in a fresh pool and asked for their sorts.

use oracle::ask::{numbered, sort, term};
use oracle::ast::{Pool, Rc, Sort, SortSubstitution, Term};
use oracle::sheet::{Record, Sheet, read};
use rapidhash::{HashMapExt, RapidHashMap};
use std::hint::black_box;
use std::time::{Duration, Instant};

/// A sheet as a list of records with the strings of its names.
pub struct Decoded {
    sheet: Sheet,
    /// The string of each name that the sheet has.
    names: Vec<String>,
}

impl Decoded {
    /// Decodes a well-formed sheet.
    pub fn new(bytes: &[u8]) -> Self {
        let sheet = read(bytes).expect("a well-formed sheet");
        let of_record = |record: &Record| {
            let pairs = record.pairs.iter().map(|(name, _)| *name);
            pairs.chain(record.second.iter().copied()).chain([record.name]).max()
        };
        let records = sheet.sorts.iter().chain(&sheet.terms).chain(&sheet.questions);
        let most = records.filter_map(of_record).max().unwrap_or(0);
        Decoded { sheet, names: (0..=most).map(oracle::ask::name).collect() }
    }

    /// How long a fresh pool takes: to build the sorts and the terms, to tell the sort of each term and to answer the questions.
    ///
    /// Neither the decoding of the sheet nor the end of the pool and its terms is in it.
    pub fn infer(&self) -> Duration {
        let name = |number: u16| self.names[usize::from(number)].clone();
        let start = Instant::now();
        let mut pool = Pool::new();
        let mut sorts: Vec<Rc<Sort>> = Vec::with_capacity(self.sheet.sorts.len());
        for record in &self.sheet.sorts {
            sorts.push(pool.add_sort(sort(record, &sorts, &name)));
        }
        let mut terms: Vec<Option<Rc<Term>>> = Vec::with_capacity(self.sheet.terms.len());
        let mut rows = Vec::with_capacity(self.sheet.terms.len());
        for record in &self.sheet.terms {
            let built = term(record, &sorts, &terms, &name).expect("every term has a sort");
            let built = pool.add(built);
            rows.push(pool.sort(&built));
            terms.push(Some(built));
        }
        let mut others = 0_usize;
        for record in &self.sheet.questions {
            match self.answer(record, &sorts, &mut pool) {
                None => others += 1,
                Some(sort) => rows.push(sort),
            }
        }
        let took = start.elapsed();
        black_box((rows, others));
        took
    }

    /// The answer to a question; nothing for one that is answered by yes or no, or whose pattern does not match.
    fn answer(&self, record: &Record, sorts: &[Rc<Sort>], pool: &mut Pool) -> Option<Rc<Sort>> {
        let list: Vec<Rc<Sort>> = numbered(&record.list, sorts).collect();
        let names = || record.second.iter().map(|number| self.names[usize::from(*number)].clone());
        let mut map = RapidHashMap::new();
        let sort = match record.kind {
            0 => {
                black_box(list[0].is_compatible(&list[1]));
                return None;
            }
            1 | 3 => {
                let names: Vec<String> = names().collect();
                for (name, sort) in &record.pairs {
                    map.insert(self.names[usize::from(*name)].clone(), sorts[usize::from(*sort)].clone());
                }
                if !list[0].match_with(&names, &list[1], &mut map) {
                    return None;
                }
                &list[2]
            }
            _ => {
                map.extend(names().zip(list[1..].iter().cloned()));
                &list[0]
            }
        };
        Some(SortSubstitution::new(map).apply(pool, sort))
    }
}
