//! Both sorts of any number of terms, by the proved library.
//!
//! A sheet holds 4,096 terms; a proof has more. A [`Batch`] takes any number of sorts and terms, each distinct one once, and judges them on
//! as many sheets as it takes. A term that is needed on a later sheet stands there as a variable of its sort; that this changes no verdict
//! is a theorem (`abstraction-checked` and `abstraction-inferred`, crates/abstraction/specs), whose conditions are those under which it is
//! done here. Each term gets both sorts, or why it has none: the same that one sheet of unlimited length would say, but for what no sheet can
//! say at all ([`Refused::Sheet`]) and for a term that has no room alone (23).
//!
//! ```
//! use napsilo::{Cause, Operator};
//! use napsilo_batch::{Batch, Refused, Row, SortNode, TermNode};
//!
//! let mut batch = Batch::new();
//! let int = batch.sort(&SortNode::Int);
//! let name = batch.name("x");
//! let x = batch.term(TermNode::Var(name, int));
//! // Ten thousand sums, each of the one before and x: more than two sheets.
//! let mut sum = x;
//! for _ in 0..10_000 {
//!     sum = batch.term(TermNode::Op(Operator::Add, &[sum, x]));
//! }
//! let wrong = batch.term(TermNode::Op(Operator::Not, &[sum]));
//!
//! let verdicts = batch.judge();
//! assert_eq!(verdicts.checked(sum), Ok(int));
//! assert_eq!(verdicts.checked(wrong), Err(Refused::Row(Cause::Misfit)));
//! assert_eq!(
//!     verdicts.explain(wrong, Row::Checked).unwrap().to_string(),
//!     "(not (+ (+ .. x) x)): argument 1, (+ (+ .. x) x), has sort Int, expected Bool (!26)"
//! );
//! assert!(verdicts.batch().sheets() >= 3);
//! ```
//!
//! # What is proved and what is not
//!
//! The library is proved, and so is the law. This crate is not: that it writes the sheets that the law speaks of, and reads the rows of
//! the terms that were asked, is tried (`tests/`, and `beside batch`), not proved.

#![forbid(unsafe_code)]
#![warn(missing_docs)]

mod batch;
mod explain;
mod from_sheet;
mod names;
mod node;
mod put;
mod records;
mod run;
mod scope;
mod sheet;
mod sorts;
mod terms;
mod text;
mod verdict;

pub use batch::{Batch, Verdict, Verdicts};
pub use explain::Explained;
pub use node::{BatchName, BatchSort, BatchTerm, SortNode, TermNode};
pub use run::{Judge, Library};
pub use sheet::Limits;
pub use verdict::{Refused, Row};
