//! Sort inference and sort checking of SMT proof terms, by a library whose every function is proved to meet its contract.
//!
//! A *sheet* lists sorts, terms over them, and questions. Each term gets two rows:
//!
//! - the *inferred* row: the sort that carcara's `Pool::compute_sort` gives, or 21 where that panics;
//! - the *checked* row: the sort that the ranks of SMT-LIB give, for sets and relations those of cvc5, or why no rank fits.
//!
//! carcara does not look at the arguments of a plain function, so a term may have an inferred sort and no checked one. A rule should go
//! live only if its checked row is a sort.
//!
//! # An example
//!
//! A rule of a gateway says: a session of a locked account is closed. Somebody takes the session for its account.
//!
//! ```
//! use napsilo::{Cause, Names, Operator, SheetWriter, Sort, SortRecord, TermRecord};
//!
//! # fn main() -> Result<(), Box<dyn std::error::Error>> {
//! let mut names = Names::new();
//! let mut sheet = SheetWriter::new();
//!
//! // (declare-sort Session 0), (declare-sort Account 0)
//! let session = sheet.add_sort(SortRecord::Atom(names.name("Session")?, &[]))?;
//! let account = sheet.add_sort(SortRecord::Atom(names.name("Account")?, &[]))?;
//! let bool = sheet.add_sort(SortRecord::Bool)?;
//! let owner_sort = sheet.add_sort(SortRecord::Function(&[session, account]))?;
//! let locked_sort = sheet.add_sort(SortRecord::Function(&[account, bool]))?;
//!
//! // current : Session, owner : Session -> Account, locked : Account -> Bool
//! let current = sheet.add_term(TermRecord::Var(names.name("current")?, session))?;
//! let owner = sheet.add_term(TermRecord::Var(names.name("owner")?, owner_sort))?;
//! let locked = sheet.add_term(TermRecord::Var(names.name("locked")?, locked_sort))?;
//!
//! // (locked (owner current)), and, with the mix-up, (locked current)
//! let account_of = sheet.add_term(TermRecord::App(owner, &[current]))?;
//! let right = sheet.add_term(TermRecord::App(locked, &[account_of]))?;
//! let wrong = sheet.add_term(TermRecord::App(locked, &[current]))?;
//! let rule = sheet.add_term(TermRecord::Op(Operator::Implies, &[right, wrong]))?;
//!
//! let judged = sheet.judge()?;
//! assert_eq!(judged.checked(right)?.as_deref(), Ok(&Sort::Bool));
//!
//! // Inference passes the rule; the check refuses the application, and with it the rule.
//! assert_eq!(judged.inferred(rule)?.as_deref(), Ok(&Sort::Bool));
//! assert_eq!(*judged.checked(wrong)?, Err(Cause::Misfit));
//! assert_eq!(*judged.checked(rule)?, Err(Cause::Below));
//!
//! // Why: the rule holds the application, and that has a session where an account is asked for.
//! let why = judged.explain(rule)?.expect("the rule is refused");
//! assert_eq!((why.term, why.cause), (wrong, Cause::Misfit));
//! assert_eq!(
//!     why.with_names(&names).to_string(),
//!     "T6 holds T5 (locked current): argument 1, current, has sort Session, expected Account (!26)"
//! );
//! # Ok(())
//! # }
//! ```
//!
//! # The parts of this crate
//!
//! - [`SheetWriter`] builds a sheet. It refuses exactly what the library's reader would refuse for a count, a length, a number, a name or
//!   a reference ([`WriteError`]). [`SheetWriter::sort`] and [`SheetWriter::term`] add equal ones once. [`SheetWriter::write_sizes`] has it write
//!   the tree size in each sort record that follows, for the library to test.
//! - [`SortId`], [`TermId`] and [`QuestionId`] belong to the writer that gave them and to its sheets. Another writer, and the judgement of
//!   another sheet ([`ForeignId`]), refuse them.
//! - [`judge`], [`judge_with`] and [`judge_into`] call the library: with the program's buffers, with buffers of other lengths, into
//!   buffers of the caller's. A sheet is [`Judged`] or refused ([`Refusal`], 1 to 10 and 34); a row is a [`Sort`] or refused ([`Cause`], 20 to 29).
//!   They run on the caller's stack and start no thread; [`STACK`] bytes are enough for every sheet.
//! - [`Judged::explain`] says why a checked row is refused, and [`Judged::explain_inferred`] why an inferred one is: the term that is refused
//!   for its own sake, the argument, its sort and the sort that was asked for ([`Explanation`]).
//! - [`print()`] gives the text that the program prints for a sheet, and [`print_into`] a piece of it; both by the library.
//!   [`Sort`] has the same text for one sort.
//! - [`page()`] gives the rows on pages of 80 columns and 60 lines, for a meeting, and [`page_into`] a piece of them; both by the library.
//! - [`Names`] gives strings their numbers. [`Sort`], [`Judged`], [`Explanation`] and [`Expected`] have a text with the user's names
//!   (`with_names`), a term has one by [`Judged::term_text`].
//!
//! # The library
//!
//! `libexports.a` is written by `rt lib` in crates/exports. The build takes it from the folder that the environment variable
//! `NAPSILO_LIB_DIR` names, else from `crates/exports/out` of the repository. Without it `cargo check` and `cargo doc` work, and what links
//! this crate is not built. Nothing checks the declarations in `ffi.rs` against the library's source, so the tests compare results.
//!
//! What is proved is the library: the rows, the answers, the store, the printout and the pages that it writes, for every sheet and all
//! lengths of buffers. This crate is not: it writes sheets, reads the store back into trees, puts pieces of text together, makes text of
//! a single sort, and looks for what a refusal is about. The cause of a refusal is always the library's.

#![deny(unsafe_code)]
#![warn(missing_docs)]

mod bytes;
mod explain;
#[allow(unsafe_code)]
mod ffi;
mod id;
mod judged;
mod name;
mod operators;
mod page;
mod refusal;
mod sort;
mod text;
mod writer;

pub use bytes::{Record, Records, records};
pub use explain::{Argument, Column, Expected, Explanation, Found, Role};
pub use id::{ForeignId, QuestionId, Sheet, SheetRef, SortId, TermId};
pub use judged::{Answer, Judged, Lent, QuestionKind, Row, STACK, judge, judge_into, judge_with};
pub use name::{Name, Names};
pub use operators::{Binder, Operator, ParamOperator, QualifiedOperator};
pub use page::{PAGE_LINE, PAGE_LINES, page, page_into};
pub use refusal::{Cause, Refusal};
pub use sort::Sort;
pub use text::{LINE_BUFFER, print, print_into};
pub use writer::{
    GREATEST_WIDTH, LONGEST_LIST, MOST_BYTES, MOST_QUESTIONS, MOST_SORTS, MOST_TERMS, QuestionRecord, SheetWriter,
    SortRecord, TermRecord, WriteError,
};
