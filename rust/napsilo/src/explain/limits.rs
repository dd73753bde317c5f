//! 22: which limit an answer would pass.

use super::matching::{self, Map, Takes};
use super::ranks::entries;
use super::{Expected, Finding, Found, Term, View};
use crate::sort::fold;
use crate::{Binder, GREATEST_WIDTH, LONGEST_LIST, Operator, ParamOperator, Sort};
use std::sync::Arc;

/// The greatest tree size of a sort.
const GREATEST_TREE: usize = 4_096;

/// The limit that a term's answer passes, where a parametric head takes arguments so.
pub fn find(view: &View<'_>, term: &Term, takes: Takes) -> Option<Finding> {
    let over = |found: Found, most: usize| {
        let expected = Some(Expected::AtMost(u64::try_from(most).expect("64 bits")));
        Some(Finding { part: None, found: Some(found), expected })
    };
    if let Some(width) = width(view, term) {
        let most = usize::try_from(GREATEST_WIDTH).expect("64 bits");
        return (width > u64::from(GREATEST_WIDTH)).then(|| over(Found::Width(width), most))?;
    }
    let answer = answer(view, term, takes)?;
    let longest = fold(&answer, |sort, parts: &[usize]| parts.iter().copied().max().max(Some(list(sort))).unwrap_or(0));
    let size = answer.tree_size();
    match longest > LONGEST_LIST {
        true => over(Found::List(longest), LONGEST_LIST),
        false => (size > GREATEST_TREE).then(|| over(Found::Tree(size), GREATEST_TREE))?,
    }
}

/// The length of a sort's own list.
fn list(sort: &Sort) -> usize {
    match sort {
        Sort::Function(list) | Sort::Tuple(list) => list.len(),
        Sort::Atom(_, args) | Sort::Datatype { args, .. } => args.len(),
        _ => 0,
    }
}

/// The width of a bit vector.
fn vector(sort: &Sort) -> Option<u64> {
    match sort {
        Sort::BitVec(width) => Some(u64::from(*width)),
        _ => None,
    }
}

/// The width of an answer that is a bit vector of a width that is reckoned; nothing of other answers.
fn width(view: &View<'_>, term: &Term) -> Option<u64> {
    let integer = |list: &[usize], at: usize| view.integer(*list.get(at)?);
    match term {
        Term::Op(Operator::BvConcat, args) => {
            let widths = view.sorts(args)?.into_iter().map(|sort| vector(sort));
            widths.collect::<Option<Vec<u64>>>().map(|widths| widths.iter().sum())
        }
        Term::Op(Operator::BvConst, args) => integer(args, 1),
        Term::ParamOp { op, op_args, args } => {
            let first = integer(op_args, 0)?;
            let width = || vector(view.sort(*args.first()?)?);
            match op {
                ParamOperator::BvExtract => Some(first.checked_sub(integer(op_args, 1)?)? + 1),
                ParamOperator::ZeroExtend | ParamOperator::SignExtend => Some(first + width()?),
                ParamOperator::Repeat => Some(first * width()?),
                ParamOperator::IntToBv => Some(first),
                _ => None,
            }
        }
        _ => None,
    }
}

/// The answer of a term whose answer is a sort made of others; nothing of other terms.
fn answer(view: &View<'_>, term: &Term, takes: Takes) -> Option<Arc<Sort>> {
    let columns = |number: &usize| entries(view.sort(*number)?).map(<[Arc<Sort>]>::to_vec);
    let relation = |columns| Some(Arc::new(Sort::Set(Arc::new(Sort::Tuple(columns)))));
    match term {
        Term::App(head, args) => {
            let (parameters, list) = view.declared(*head)?;
            let mut map = Map::new();
            let sorts = view.sorts(args)?;
            let taken = list.iter().zip(&sorts).all(|(pattern, sort)| takes(pattern, parameters, sort, &mut map));
            let rest = match list.get(args.len()..).filter(|_| taken)? {
                [last] => last.clone(),
                rest => Arc::new(Sort::Function(rest.to_vec())),
            };
            Some(matching::apply(&map, &rest))
        }
        Term::Binder(Binder::Lambda, bindings, body) => {
            let mut list: Vec<Arc<Sort>> = bindings.iter().map(|(_, sort)| sort.clone()).collect();
            list.push(view.sort(*body)?.clone());
            Some(Arc::new(Sort::Function(list)))
        }
        Term::Op(Operator::SetSingleton, args) => Some(Arc::new(Sort::Set(view.sort(*args.first()?)?.clone()))),
        Term::Op(Operator::Tuple, args) => {
            let list = view.sorts(args)?.into_iter().cloned().collect();
            Some(Arc::new(Sort::Tuple(list)))
        }
        Term::Op(Operator::RelJoin, args) => {
            let (mut left, right) = (columns(args.first()?)?, columns(args.get(1)?)?);
            left.pop();
            relation([left.as_slice(), right.get(1..)?].concat())
        }
        Term::Op(Operator::RelProduct, args) => relation([columns(args.first()?)?, columns(args.get(1)?)?].concat()),
        _ => None,
    }
}
