//! Stands in for the crate `thiserror`: the derive `Error` with its attribute `error`.
//!
//! It emits nothing. The error types it is put on are never built where sorts are worked out.

use proc_macro::TokenStream;

/// Accepts `#[derive(Error)]` and its `#[error(..)]` attributes, and emits nothing.
#[proc_macro_derive(Error, attributes(error))]
pub fn derive_error(_item: TokenStream) -> TokenStream {
    TokenStream::new()
}
