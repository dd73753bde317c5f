//! Prints what carcara infers for a sheet.
//!
//! `oracle [FILE]` reads one sheet, as bytes, and prints its lines. `oracle --hex [FILE]` reads a sheet in hexadecimal from each line that
//! is not blank, and prints for each `sheet HEX`, its lines behind two blanks, and an empty line. Without FILE it reads standard input.
//! A sheet that is not well-formed has the one line `refused`.

use std::io::{self, Read, Write};
use std::process::ExitCode;

fn main() -> ExitCode {
    match oracle::on_stack(run) {
        Ok(()) => ExitCode::SUCCESS,
        Err(error) => {
            eprintln!("oracle: {error}");
            ExitCode::FAILURE
        }
    }
}

/// Reads, asks and prints.
fn run() -> io::Result<()> {
    let mut hex = false;
    let mut file = None;
    for argument in std::env::args().skip(1) {
        match argument.as_str() {
            "--hex" => hex = true,
            _ => file = Some(argument),
        }
    }
    let mut input = Vec::new();
    match file {
        Some(path) => input = std::fs::read(path)?,
        None => {
            io::stdin().lock().read_to_end(&mut input)?;
        }
    }
    let mut out = io::BufWriter::new(io::stdout().lock());
    if !hex {
        for line in answered(&input) {
            writeln!(out, "{line}")?;
        }
        return out.flush();
    }
    let input = String::from_utf8(input).map_err(io::Error::other)?;
    for line in input.lines().map(str::trim).filter(|line| !line.is_empty()) {
        let sheet = bytes(line).ok_or_else(|| io::Error::other("a line is not hexadecimal"))?;
        writeln!(out, "sheet {line}")?;
        for line in answered(&sheet) {
            writeln!(out, "  {line}")?;
        }
        writeln!(out)?;
    }
    out.flush()
}

/// The lines for a sheet.
fn answered(sheet: &[u8]) -> Vec<String> {
    oracle::lines(sheet).unwrap_or_else(|| vec!["refused".to_owned()])
}

/// The bytes that a text in hexadecimal gives.
fn bytes(text: &str) -> Option<Vec<u8>> {
    let digits: Vec<u32> = text.chars().map(|c| c.to_digit(16)).collect::<Option<_>>()?;
    digits
        .chunks(2)
        .map(|pair| match *pair {
            [high, low] => u8::try_from(high * 16 + low).ok(),
            _ => None,
        })
        .collect()
}
