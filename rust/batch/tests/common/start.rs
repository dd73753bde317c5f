//! A batch to begin with.

use napsilo_batch::{Batch, BatchSort, BatchTerm, SortNode, TermNode};

/// A batch with Int, Bool and variables x of Int and p of Bool.
pub struct Start {
    pub batch: Batch,
    pub int: BatchSort,
    pub bool: BatchSort,
    pub x: BatchTerm,
    pub p: BatchTerm,
}

/// Such a batch.
pub fn start() -> Start {
    let mut batch = Batch::new();
    let [int, bool] = [SortNode::Int, SortNode::Bool].map(|node| batch.sort(&node));
    let [x, p] = [("x", int), ("p", bool)].map(|(name, sort)| {
        let name = batch.name(name);
        batch.term(TermNode::Var(name, sort))
    });
    Start { batch, int, bool, x, p }
}
