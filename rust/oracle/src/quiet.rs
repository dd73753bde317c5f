//! Catches a panic without its message.

use std::cell::Cell;
use std::panic::{AssertUnwindSafe, catch_unwind, set_hook, take_hook};
use std::sync::Once;

thread_local! {
    /// Whether this thread's panics are expected, and so are not reported.
    static QUIET: Cell<bool> = const { Cell::new(false) };
}

/// Runs a function; nothing if it panics. Other panics, and other threads', are reported as before.
///
/// What the function was changing stays as the panic left it; see [`crate::ask`] for why that does no harm there.
pub fn catch<T>(work: impl FnOnce() -> T) -> Option<T> {
    static HOOK: Once = Once::new();
    HOOK.call_once(|| {
        let reported = take_hook();
        set_hook(Box::new(move |panic| {
            if !QUIET.get() {
                reported(panic);
            }
        }));
    });
    QUIET.set(true);
    let result = catch_unwind(AssertUnwindSafe(work)).ok();
    QUIET.set(false);
    result
}
