//! The file of names: a line `NUMBER NAME` for each, blank lines, and lines that start with `#`.

use napsilo::{Name, Names};
use std::collections::{BTreeMap, HashSet};

/// The table of the names in a file's text; what is wrong with it, in words.
///
/// Numbers without a line are written as the printout writes them. No two numbers may be written alike: a text with both would not tell
/// them apart. That a name looks like something else, such as a sort, is no fault: texts have it in bars.
pub fn table(text: &str) -> Result<Names, String> {
    let mut given: BTreeMap<u16, &str> = BTreeMap::new();
    for (at, line) in text.lines().enumerate() {
        let wrong = |what: &str| format!("line {}: {what}", at + 1);
        let line = line.trim();
        if line.is_empty() || line.starts_with('#') {
            continue;
        }
        let (number, name) = line.split_once(char::is_whitespace).ok_or_else(|| wrong("no name behind the number"))?;
        let number: u16 = number.parse().map_err(|_| wrong("no number from 1 to 65535"))?;
        if number == 0 {
            return Err(wrong("0 is always ?"));
        }
        if given.insert(number, name.trim_start()).is_some() {
            return Err(wrong("the number has a name already"));
        }
    }
    filled(&given)
}

/// The number that the printout writes like this name.
fn written_so(name: &str) -> Option<u16> {
    let number = if name == "?" { 0 } else { name.strip_prefix('n')?.parse().ok()? };
    (Name::new(number).to_string() == name).then_some(number)
}

/// The table in which these numbers have these names and the others up to the last of them those of the printout.
fn filled(given: &BTreeMap<u16, &str>) -> Result<Names, String> {
    let mut seen: HashSet<&str> = HashSet::new();
    for (number, name) in given {
        let other = written_so(name).filter(|other| other != number && !given.contains_key(other));
        if other.is_some() || !seen.insert(name) {
            return Err(format!("two numbers are written {name}"));
        }
    }
    let mut names = Names::new();
    for number in 1..=given.keys().last().copied().unwrap_or(0) {
        let own = Name::new(number).to_string();
        names.name(given.get(&number).unwrap_or(&own.as_str())).map_err(|error| error.to_string())?;
    }
    Ok(names)
}

#[cfg(test)]
mod tests {
    use super::*;

    #[test]
    fn a_table() {
        let names = table("# sorts\n1 Session\n2\tAccount\n\n  5  two words  \r\n").expect("the table is right");
        let texts = [0, 1, 2, 3, 5].map(|number| names.string(Name::new(number)));
        assert_eq!(texts, [Some("?"), Some("Session"), Some("Account"), Some("n3"), Some("two words")]);
        assert_eq!(names.string(Name::new(6)), None);
        assert_eq!(table("").expect("an empty table").string(Name::new(1)), None);
        assert!(table("3 n3\n65535 last").is_ok());
        let turned = table("1 n2\n2 n1\n3 n007").expect("no two are written alike");
        assert_eq!([1, 2, 3].map(|number| turned.string(Name::new(number))), [Some("n2"), Some("n1"), Some("n007")]);
    }

    #[test]
    fn what_is_refused() {
        let wrong = |text: &str| table(text).expect_err("the table is wrong");
        assert_eq!(wrong("1 a\nb"), "line 2: no name behind the number");
        assert_eq!(wrong("x a"), "line 1: no number from 1 to 65535");
        assert_eq!(wrong("65536 a"), "line 1: no number from 1 to 65535");
        assert_eq!(wrong("0 a"), "line 1: 0 is always ?");
        assert_eq!(wrong("1 a\n\n1 b"), "line 3: the number has a name already");
        assert_eq!(wrong("1 a\n2 a"), "two numbers are written a");
        assert_eq!(wrong("1 ?"), "two numbers are written ?");
        assert_eq!(wrong("2 n1"), "two numbers are written n1");
        assert_eq!(wrong("1 n5"), "two numbers are written n5");
    }
}
