//! Choices by random numbers.

/// What gives a random number under one that is not 0.
pub struct Choice<'a>(pub &'a mut dyn FnMut(usize) -> usize);

impl Choice<'_> {
    /// A number under this one.
    pub fn below(&mut self, bound: usize) -> usize {
        (self.0)(bound)
    }

    /// One of some values.
    pub fn one<T: Clone>(&mut self, values: &[T]) -> T {
        values[self.below(values.len())].clone()
    }
}
