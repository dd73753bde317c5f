//! `napsilo-explain`: reads a sheet, and prints its rows with names and why a row is refused. Its manual is napsilo-explain.1.

#![forbid(unsafe_code)]

mod args;
mod fault;
mod names;
mod report;

use args::{Asked, Color, Options};
use napsilo::{MOST_BYTES, Names};
use report::{Report, Style};
use std::env;
use std::ffi::OsStr;
use std::fs::{self, File};
use std::io::{self, BufWriter, IsTerminal, Read, Write};
use std::path::Path;
use std::process::ExitCode;

/// The exit statuses.
const CHECKED: u8 = 0;
const ROW_REFUSED: u8 = 1;
const SHEET_REFUSED: u8 = 2;
const FAILED: u8 = 3;

fn main() -> ExitCode {
    let done = match args::parse(env::args_os().skip(1)) {
        Ok(Asked::Help) => print(args::HELP),
        Ok(Asked::Version) => print(concat!("napsilo-explain ", env!("CARGO_PKG_VERSION"), "\n")),
        Ok(Asked::Explain(options)) => explain(&options),
        Err(wrong) => Err(format!("{wrong}; --help says more")),
    };
    match done {
        Ok(status) => ExitCode::from(status),
        Err(wrong) => {
            if !wrong.is_empty() {
                // Where standard error cannot be written either, the status is left.
                let _ = writeln!(io::stderr(), "napsilo-explain: {wrong}");
            }
            ExitCode::from(FAILED)
        }
    }
}

/// Prints a text.
fn print(text: &str) -> Result<u8, String> {
    io::stdout().write_all(text.as_bytes()).map_err(unwritten)?;
    Ok(CHECKED)
}

/// What is said of a failed write: nothing where nobody reads any more.
fn unwritten(error: io::Error) -> String {
    match error.kind() {
        io::ErrorKind::BrokenPipe => String::new(),
        _ => format!("standard output: {error}"),
    }
}

/// Explains a sheet. Gives the exit status, or what failed.
fn explain(options: &Options) -> Result<u8, String> {
    let names = match &options.names {
        Some(file) => read_names(file)?,
        None => Names::new(),
    };
    let sheet = read_sheet(options.sheet.as_deref())?;
    let out = BufWriter::new(io::stdout().lock());
    let [no_color, term] = ["NO_COLOR", "TERM"].map(env::var_os);
    let style = style(options.color, io::stdout().is_terminal(), no_color.as_deref(), term.as_deref());
    let mut report = Report { out, names: &names, style, only_refused: options.only_refused };
    let status = match napsilo::judge(&sheet) {
        Ok(judged) => report.judged(&judged).map(|all| if all { CHECKED } else { ROW_REFUSED }),
        Err(refusal) => report.refused(&sheet, refusal).map(|()| SHEET_REFUSED),
    };
    let flushed = report.out.flush();
    status.and_then(|status| flushed.map(|()| status)).map_err(unwritten)
}

/// Whether colours are written: where they are asked for, or on a terminal that has them, unless `NO_COLOR` is set to something.
fn style(color: Color, terminal: bool, no_color: Option<&OsStr>, term: Option<&OsStr>) -> Style {
    let unwanted = no_color.is_some_and(|value| !value.is_empty());
    let dumb = term.is_some_and(|term| term == "dumb");
    match color {
        Color::Always => Style::Colored,
        Color::Auto if terminal && !unwanted && !dumb => Style::Colored,
        Color::Auto | Color::Never => Style::Plain,
    }
}

/// The table of names in a file.
fn read_names(file: &Path) -> Result<Names, String> {
    let told = |error: String| format!("{}: {error}", file.display());
    let text = fs::read_to_string(file).map_err(|error| told(error.to_string()))?;
    names::table(&text).map_err(told)
}

/// The sheet in a file, or on standard input. Of one that is too long a byte more than the longest: the library then refuses it for that.
fn read_sheet(file: Option<&Path>) -> Result<Vec<u8>, String> {
    let most = u64::try_from(MOST_BYTES).expect("a length") + 1;
    let mut sheet = Vec::new();
    let (read, name) = match file {
        Some(file) => {
            (File::open(file).and_then(|opened| opened.take(most).read_to_end(&mut sheet)), file.display().to_string())
        }
        None => (io::stdin().lock().take(most).read_to_end(&mut sheet), "standard input".to_owned()),
    };
    read.map_err(|error| format!("{name}: {error}"))?;
    Ok(sheet)
}

#[cfg(test)]
mod tests {
    use super::*;

    #[test]
    fn colours() {
        let os = |text: &'static str| Some(OsStr::new(text));
        assert_eq!(style(Color::Auto, true, None, os("xterm")), Style::Colored);
        assert_eq!(style(Color::Auto, true, os(""), None), Style::Colored);
        assert_eq!(style(Color::Auto, true, os("1"), os("xterm")), Style::Plain);
        assert_eq!(style(Color::Auto, true, None, os("dumb")), Style::Plain);
        assert_eq!(style(Color::Auto, false, None, os("xterm")), Style::Plain);
        assert_eq!(style(Color::Always, false, os("1"), os("dumb")), Style::Colored);
        assert_eq!(style(Color::Never, true, None, os("xterm")), Style::Plain);
    }
}
