//! Stands in for carcara's `src/ast/mod.rs`: the tree of modules, the macros and the custom operators.
//!
//! The modules `rc`, `sort`, `term`, `substitution` and `pool` (with `storage`) are carcara's files, unchanged. Stand-ins are:
//!
//! - `custom_operator`: there is one operator of this kind, of sort Bool; sheets have none;
//! - `macros::impl_str_conversion_traits`: gives an operator its text; nothing reads it back;
//! - `match_term` and `match_term_err`: the two patterns that `term.rs` uses, `(- x)` and `(not x)`;
//! - a term's debug text: carcara's is its printer's, here it is one word.

use std::fmt;

include!(concat!(env!("OUT_DIR"), "/ast_modules.rs"));

pub use pool::Pool;
pub use rc::Rc;
pub use sort::Sort;
pub use substitution::{SortSubstitution, Substitution, SubstitutionError};
pub use term::*;

/// The operators of each kind in the order of their enums, from which a sheet's numbers count.
pub mod lists {
    use super::{Binder, Operator, ParamOperator, QualifiedOperator};

    include!(concat!(env!("OUT_DIR"), "/lists.rs"));
}

/// Custom operators: one, which stands for all that carcara's users declare.
pub mod custom_operator {
    use super::Sort;
    use std::sync::LazyLock;

    /// A custom operator.
    #[derive(Debug, Clone, Copy, PartialEq, Eq, Hash)]
    pub struct CustomOperator;

    /// What defines a custom operator.
    pub struct Definition {
        /// Its name.
        pub name: String,
        /// The sort of its terms.
        pub return_sort: Sort,
    }

    /// The definition of the one.
    static CUSTOM: LazyLock<Definition> =
        LazyLock::new(|| Definition { name: "custom".to_owned(), return_sort: Sort::Bool });

    impl CustomOperator {
        /// Its definition.
        pub fn def(&self) -> &'static Definition {
            &CUSTOM
        }
    }
}

/// Macros of carcara's that `term.rs` uses.
mod macros {
    /// Gives an enum of operators its text.
    macro_rules! impl_str_conversion_traits {
        ($name:ident { $($case:ident: $text:literal),* $(,)? }) => {
            impl std::fmt::Display for $name {
                fn fmt(&self, f: &mut std::fmt::Formatter) -> std::fmt::Result {
                    match self {
                        $($name::$case => f.write_str($text),)*
                    }
                }
            }
        };
        ($name:ident { $($case:ident: $text:literal),* $(,)? }, extra_display: |$f:ident| { $($other:pat => $shown:expr),* $(,)? }) => {
            impl std::fmt::Display for $name {
                fn fmt(&self, $f: &mut std::fmt::Formatter) -> std::fmt::Result {
                    match self {
                        $($name::$case => $f.write_str($text),)*
                        $($other => $shown,)*
                    }
                }
            }
        };
    }

    pub(crate) use impl_str_conversion_traits;
}

/// The only argument of a term with an operator, if the term has that operator and one argument.
fn only_argument(term: &Term, operator: Operator) -> Option<&Rc<Term>> {
    match term {
        Term::Op(op, args) if *op == operator && args.len() == 1 => args.first(),
        _ => None,
    }
}

/// Matches a term with `(- x)` or `(not x)`.
macro_rules! match_term {
    ((- $argument:ident) = $term:expr) => {
        $crate::ast::only_argument($term, $crate::ast::Operator::Sub)
    };
    ((not $argument:ident) = $term:expr) => {
        $crate::ast::only_argument($term, $crate::ast::Operator::Not)
    };
}

/// Matches a term with `(not x)`, with an error otherwise.
macro_rules! match_term_err {
    ((not $argument:ident) = $term:expr) => {
        $crate::ast::match_term!((not $argument) = $term)
            .ok_or_else(|| $crate::CheckerError::TermOfWrongForm("(not x)", $term.clone()))
    };
}

pub(crate) use {match_term, match_term_err};

impl fmt::Debug for Term {
    fn fmt(&self, f: &mut fmt::Formatter) -> fmt::Result {
        f.write_str("term")
    }
}
