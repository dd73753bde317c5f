//! The arguments of the command.

use std::ffi::{OsStr, OsString};
use std::os::unix::ffi::{OsStrExt, OsStringExt};
use std::path::PathBuf;

/// What `--help` prints.
pub const HELP: &str = "\
usage: napsilo-explain [OPTION].. [FILE]

Judges the sheet in FILE, or on standard input where FILE is missing or -, and prints the
inferred and the checked sort of each term and the answer to each question, with names,
and under a refused one why it is refused.

  --names NAMES     take names from the file NAMES, a line `NUMBER NAME` each
  --only-refused    print only what is refused
  --color WHEN      auto (on a terminal, unless NO_COLOR is set), always or never
  --help            print this and end
  --version         print the version and end

Exit status: 0 if every checked row is a sort, 1 if one is refused, 2 if the sheet is
refused, 3 if something cannot be read or written or an argument is wrong.
";

/// When colours are written.
#[derive(Debug, Clone, Copy, PartialEq, Eq)]
pub enum Color {
    /// On a terminal, unless the environment says otherwise.
    Auto,
    Always,
    Never,
}

/// What the command is asked to do.
#[derive(Debug, PartialEq, Eq)]
pub enum Asked {
    Help,
    Version,
    Explain(Options),
}

/// How a sheet is explained.
#[derive(Debug, PartialEq, Eq)]
pub struct Options {
    /// The file of the sheet; standard input if there is none.
    pub sheet: Option<PathBuf>,
    /// The file of the names.
    pub names: Option<PathBuf>,
    pub only_refused: bool,
    pub color: Color,
}

/// What the arguments, without the command's own name, ask for; what is wrong with them, in words.
pub fn parse(arguments: impl IntoIterator<Item = OsString>) -> Result<Asked, String> {
    let mut options = Options { sheet: None, names: None, only_refused: false, color: Color::Auto };
    let mut sheets: Vec<OsString> = Vec::new();
    let mut arguments = arguments.into_iter();
    while let Some(argument) = arguments.next() {
        let (option, joined) = split(&argument);
        let mut value = || joined.clone().or_else(|| arguments.next()).ok_or(format!("{option} needs a value"));
        match option.as_str() {
            "--names" => options.names = Some(PathBuf::from(value()?)),
            "--color" => options.color = color(&value()?)?,
            "--only-refused" | "--help" | "--version" if joined.is_some() => {
                return Err(format!("{option} takes no value"));
            }
            "--only-refused" => options.only_refused = true,
            "--help" => return Ok(Asked::Help),
            "--version" => return Ok(Asked::Version),
            "--" => sheets.extend(arguments.by_ref()),
            _ if option.starts_with('-') && option != "-" => return Err(format!("no option {option}")),
            _ => sheets.push(argument),
        }
    }
    if sheets.len() > 1 {
        return Err("more than one sheet".to_owned());
    }
    options.sheet = sheets.pop().filter(|sheet| sheet != "-").map(PathBuf::from);
    Ok(Asked::Explain(options))
}

/// An option and the value that `=` joins to it; the argument alone if there is no such value.
fn split(argument: &OsStr) -> (String, Option<OsString>) {
    let bytes = argument.as_bytes();
    match bytes.iter().position(|byte| *byte == b'=') {
        Some(at) if bytes.starts_with(b"--") => {
            let option = String::from_utf8_lossy(&bytes[..at]).into_owned();
            (option, Some(OsString::from_vec(bytes[at + 1..].to_vec())))
        }
        _ => (argument.to_string_lossy().into_owned(), None),
    }
}

/// When colours are written, by the word for it.
fn color(word: &OsString) -> Result<Color, String> {
    match word.to_str() {
        Some("auto") => Ok(Color::Auto),
        Some("always") => Ok(Color::Always),
        Some("never") => Ok(Color::Never),
        _ => Err(format!("--color is auto, always or never, not {}", word.to_string_lossy())),
    }
}

#[cfg(test)]
mod tests {
    use super::*;

    /// What these arguments ask for.
    fn asked(arguments: &[&str]) -> Result<Asked, String> {
        parse(arguments.iter().map(OsString::from))
    }

    /// The options of arguments that ask for an explanation.
    fn options(arguments: &[&str]) -> Options {
        match asked(arguments) {
            Ok(Asked::Explain(options)) => options,
            other => panic!("{arguments:?}: {other:?}"),
        }
    }

    #[test]
    fn sheets() {
        assert_eq!(options(&[]).sheet, None);
        assert_eq!(options(&["-"]).sheet, None);
        assert_eq!(options(&["a.sheet"]).sheet, Some(PathBuf::from("a.sheet")));
        assert_eq!(options(&["--", "--help"]).sheet, Some(PathBuf::from("--help")));
        assert_eq!(options(&["a=b"]).sheet, Some(PathBuf::from("a=b")));
        assert_eq!(asked(&["a", "b"]), Err("more than one sheet".to_owned()));
    }

    #[test]
    fn values() {
        assert_eq!(options(&["--names", "n", "s"]).names, Some(PathBuf::from("n")));
        assert_eq!(options(&["--names=n"]).names, Some(PathBuf::from("n")));
        assert_eq!(options(&["--color", "always"]).color, Color::Always);
        assert_eq!(options(&["--color=never"]).color, Color::Never);
        assert!(options(&["s", "--only-refused"]).only_refused);
        assert_eq!(asked(&["--names"]), Err("--names needs a value".to_owned()));
        assert_eq!(asked(&["--color=red"]), Err("--color is auto, always or never, not red".to_owned()));
        assert_eq!(asked(&["--only-refused=yes"]), Err("--only-refused takes no value".to_owned()));
        assert_eq!(asked(&["--colour=never"]), Err("no option --colour".to_owned()));
        assert_eq!(asked(&["-x"]), Err("no option -x".to_owned()));
    }

    /// A file's name may be any bytes.
    #[test]
    fn names_that_are_no_text() {
        let odd = |bytes: &[u8]| OsString::from_vec(bytes.to_vec());
        let Ok(Asked::Explain(options)) = parse([odd(b"--names=a=\xff"), odd(b"\xfe")]) else {
            panic!("a sheet to explain")
        };
        assert_eq!(options.names, Some(PathBuf::from(odd(b"a=\xff"))));
        assert_eq!(options.sheet, Some(PathBuf::from(odd(b"\xfe"))));
    }

    #[test]
    fn what_ends_at_once() {
        assert_eq!(asked(&["--help", "-x"]), Ok(Asked::Help));
        assert_eq!(asked(&["s", "--version"]), Ok(Asked::Version));
    }
}
