//! Stands in for carcara's `src/automata`: the one type that a constant of sort RegLan holds.
//!
//! Sort inference never looks at it.

/// An automaton without content.
#[derive(Debug, Clone, PartialEq, Eq, Hash)]
pub struct Automaton;
