//! The sort inference of carcara as an oracle for sheets.
//!
//! The modules `ast::{rc, sort, term, substitution, pool}` and `utils` are carcara's own files, unchanged; `build.rs` takes them from
//! the folder that `NAPSILO_CARCARA` names. Everything else here is either a stand-in for a part of carcara that those files mention
//! ([`ast`], [`automata`], [`CheckerError`]), or the oracle itself: a reader for well-formed sheets ([`sheet`]), what builds carcara's
//! sorts and terms from a sheet and asks for their sorts ([`ask`]), and the printout ([`text`]).

pub mod ask;
pub mod ast;
pub mod automata;
mod error;
mod quiet;
pub mod sheet;
pub mod text;

include!(concat!(env!("OUT_DIR"), "/root_modules.rs"));

pub use error::CheckerError;

/// The stack that the oracle asks for: sorts of 4,096 nested parts are walked by recursion.
pub const STACK: usize = 256 << 20;

/// The lines of the printout for one sheet, or nothing if it is not well-formed.
///
/// A term's line has its number and its inferred row; a question's line has its number and the answer.
pub fn lines(bytes: &[u8]) -> Option<Vec<String>> {
    let sheet = sheet::read(bytes)?;
    Some(text::lines(&ask::ask(&sheet)?))
}

/// Runs a function on a thread with the stack that the oracle asks for.
pub fn on_stack<T: Send>(work: impl FnOnce() -> T + Send) -> T {
    std::thread::scope(|scope| {
        let thread =
            std::thread::Builder::new().stack_size(STACK).spawn_scoped(scope, work).expect("a thread can be started");
        match thread.join() {
            Ok(value) => value,
            Err(panic) => std::panic::resume_unwind(panic),
        }
    })
}
