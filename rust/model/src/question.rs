//! The answers to questions.

use crate::Cause;
use crate::reader::Question;
use crate::sort::{Kind, Sort, Tree};
use crate::substitution::{self, Map};

/// An answer.
pub enum Answer {
    /// Whether two sorts are compatible.
    Compatible(bool),
    /// A sort or a refusal, before limits and the store are looked at.
    Row(Result<Tree, Cause>),
}

/// The answer to a question.
pub fn answer(question: &Question) -> Answer {
    let list = &question.list;
    match question.kind {
        0 => Answer::Compatible(substitution::compatible(&list[0], &list[1])),
        1 | 3 => Answer::Row(matched(question)),
        _ => {
            let images = list[1..].iter().cloned();
            let map: Map = question.names.iter().copied().zip(images).collect();
            Answer::Row(Ok(substitution::apply(&map, &list[0])))
        }
    }
}

/// The result after Substitution by the assignment that keeps what is given and turns the pattern into the target. It has the given names even
/// where the pattern lacks them; nothing is given by question 1.
fn matched(question: &Question) -> Result<Tree, Cause> {
    let (pattern, target, result) = (&question.list[0], &question.list[1], &question.list[2]);
    let outside = |sort: &Sort| matches!(sort.kind, Kind::Par | Kind::ParamBitVec);
    let listed = |sort: &Sort| sort.kind == Kind::Var && question.names.contains(&sort.name);
    let barred = |sort: &Tree| sort.holds(&outside) || sort.holds(&listed);
    if pattern.holds(&outside) || barred(target) || question.given.iter().any(|(_, sort)| barred(sort)) {
        return Err(Cause::Held);
    }
    let mut assignment: Map = question.given.iter().cloned().collect();
    if !substitution::assign(pattern, target, &question.names, &mut assignment) {
        return Err(Cause::Unmatched);
    }
    Ok(substitution::apply(&assignment, result))
}
