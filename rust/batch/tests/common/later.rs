//! What judges sheets as later requests ask: scopes are looked at, or a rank gives another sort than inference. By the model, with what is
//! new on top.
//!
//! The wrapper has no number yet for a bound name with another sort; 29, which no row has, stands for it.

use model::reader::{Lent, Term, read};
use model::sort::{Kind, Sort, Tree};
use napsilo::{Record, Refusal, records};
use napsilo_batch::Judge;

/// What judges sheets as later requests ask.
#[derive(Debug, Clone, Copy, Default)]
pub struct Later {
    /// A variable that is free in a body and has a bound name must have the bound sort; otherwise the checked row of the Binder or Let is
    /// refused, after 26 and before 22.
    pub scopes: bool,
    /// The checked sort of `str.len` is Real.
    pub lengths_are_real: bool,
}

/// The number that stands for a bound name with another sort.
pub const OTHER_SORT: u32 = 29;

/// A variable: its name and its sort.
type Var = (u16, Tree);

impl Judge for Later {
    fn judge(&mut self, sheet: &[u8], buffer: &mut [u8], places: &mut [u32], rows: &mut [u32]) -> Result<(), Refusal> {
        let lent = Lent { records: buffer.len(), places: places.len(), rows: rows.len(), answers: 0 };
        let (accepted, mut store) =
            read(sheet, &lent).map_err(|refusal| Refusal::from_number(refusal as u32).expect("its numbers"))?;
        let own = records(sheet).expect("a sheet that was read").terms;
        let mut sorts: [Vec<Option<Tree>>; 2] = Default::default();
        let mut free: Vec<Vec<Var>> = Vec::new();
        for (at, term) in accepted.terms.iter().enumerate() {
            for row in 0..2 {
                let verdict = below(term, &sorts[row]).and_then(|list| match row {
                    0 => model::inferred::infer(&accepted.terms, term, &list).map_err(|cause| cause as u32),
                    _ => self.checked(&accepted.terms, term, &own[at], &list, &free),
                });
                let held = verdict.and_then(|sort| match sort.within_limits() {
                    false => Err(22),
                    true => store.put(&sort).map(|number| (number, sort)).ok_or(23),
                });
                rows[2 * at + row] = held.as_ref().map_or_else(|cause| cause << 16, |(number, _)| u32::from(*number));
                sorts[row].push(held.ok().map(|(_, sort)| sort));
            }
            free.push(free_of(term, &own[at], &free));
        }
        buffer.fill(0);
        buffer[..store.records().len()].copy_from_slice(store.records());
        places.fill(0);
        places[..store.places().len()].copy_from_slice(store.places());
        Ok(())
    }
}

/// The sorts of the terms in a term's list, by one column of the rows; 20 if one of them, or of its index terms, is refused.
fn below(term: &Term, sorts: &[Option<Tree>]) -> Result<Vec<Tree>, u32> {
    term.indices.iter().try_for_each(|index| sorts[*index].as_ref().map(drop).ok_or(20_u32))?;
    term.list.iter().map(|number| sorts[*number].clone().ok_or(20)).collect()
}

impl Later {
    /// The checked verdict on a term over the sorts of its list.
    fn checked(
        &self,
        terms: &[Term],
        term: &Term,
        record: &Record,
        list: &[Tree],
        free: &[Vec<Var>],
    ) -> Result<Tree, u32> {
        let sort = model::checked::check(terms, term, list).map_err(|cause| cause as u32)?;
        if self.lengths_are_real && (record.kind, record.number) == (7, 45) {
            return Ok(Sort::plain(Kind::Real));
        }
        let bound: Vec<Var> = match record.kind {
            8 => record.pairs.iter().map(|(name, _)| *name).zip(term.bindings.iter().cloned()).collect(),
            9 => record.second.iter().copied().zip(list.iter().cloned()).collect(),
            _ => Vec::new(),
        };
        let last = |name: u16| bound.iter().rev().find(|(other, _)| *other == name);
        let differs = |(name, sort): &Var| last(*name).is_some_and(|(_, bound)| bound != sort);
        let body = term.list.last().map_or([].as_slice(), |body| &free[*body]);
        if self.scopes && body.iter().any(differs) { Err(OTHER_SORT) } else { Ok(sort) }
    }
}

/// The free variables of a term, from those of its parts.
fn free_of(term: &Term, record: &Record, free: &[Vec<Var>]) -> Vec<Var> {
    let names: Vec<u16> = match record.kind {
        5 => return vec![(record.name, term.sort.clone().expect("a Var's sort"))],
        8 => record.pairs.iter().map(|(name, _)| *name).collect(),
        9 => record.second.clone(),
        _ => Vec::new(),
    };
    let mut vars: Vec<Var> = Vec::new();
    let parts = term.list.iter().chain(&term.indices);
    let body = if matches!(record.kind, 8 | 9) { term.list.len() - 1 } else { usize::MAX };
    for (at, part) in parts.enumerate() {
        let reached = free[*part].iter().filter(|(name, _)| at != body || !names.contains(name));
        for var in reached {
            if !vars.contains(var) {
                vars.push(var.clone());
            }
        }
    }
    vars
}
