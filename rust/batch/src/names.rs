//! Names: any number of them, each with its string.

use std::collections::HashMap;

/// The number of the name `?`, which has the number 0 on every sheet too.
pub const UNKNOWN: u32 = 0;

/// The number of the name that the variables have which stand for terms of other sheets. No string has it, so nothing binds it.
pub const STAND_IN: u32 = 1;

/// The strings of a batch and their numbers.
#[derive(Debug, Clone)]
pub struct Names {
    /// The string of each number.
    strings: Vec<Box<str>>,
    /// The number of each string.
    numbers: HashMap<Box<str>, u32>,
}

impl Names {
    /// The names that every batch has.
    pub fn new() -> Self {
        let mut names = Names { strings: Vec::new(), numbers: HashMap::new() };
        assert_eq!(names.number("?"), UNKNOWN);
        names.strings.push("".into());
        names
    }

    /// The number of a string: the one that it has, else the next one.
    pub fn number(&mut self, string: &str) -> u32 {
        if let Some(number) = self.numbers.get(string) {
            return *number;
        }
        let number = u32::try_from(self.strings.len()).expect("under 2^32 names");
        self.strings.push(string.into());
        self.numbers.insert(string.into(), number);
        number
    }

    /// A text that no name has: two dots or more.
    pub fn dots(&self) -> String {
        let mut dots = String::from("..");
        while self.numbers.contains_key(dots.as_str()) {
            dots.push('.');
        }
        dots
    }

    /// The string of a number.
    pub fn string(&self, number: u32) -> &str {
        &self.strings[number as usize]
    }
}
