//! Compares, and writes sheets with what they must give.
//!
//! - `compare agree SHEETS SEED [PROGRAM]` compares oracle and model on the sweep and on so many random sheets. With PROGRAM, a program
//!   that reads a sheet on standard input, its printout is compared with the model's on each sheet too.
//! - `compare pages SHEETS SEED PROGRAM` compares the pages that a program prints with the model's, on the sweep and on so many random
//!   sheets; the first difference ends it.
//! - `compare sweep` writes the sheets of the sweep with the model's printout.
//! - `compare program SHEETS SEED` writes random sheets with the model's printout.
//! - `compare library SHEETS SEED` writes random sheets and lent lengths with the model's buffers at exit.

use compare::random::Source;
use compare::{Counts, compare_pages, random, sweep, vectors};
use std::io::{self, BufWriter, Write};
use std::path::{Path, PathBuf};
use std::process::ExitCode;

fn main() -> ExitCode {
    let arguments: Vec<String> = std::env::args().skip(1).collect();
    let number = |at: usize| arguments.get(at).and_then(|text| text.parse::<u64>().ok());
    let (sheets, seed) = (number(1).unwrap_or(1_000), number(2).unwrap_or(1));
    let program = arguments.get(3).map(PathBuf::from);
    let done = oracle::on_stack(|| match arguments.first().map_or("", String::as_str) {
        "agree" => agree(sheets, seed, program.as_deref()),
        "pages" => match &program {
            Some(program) => pages(sheets, seed, program),
            None => Err(io::Error::other("pages SHEETS SEED PROGRAM")),
        },
        "sweep" => write_sweep().map(|()| true),
        "program" => write_program(sheets, seed).map(|()| true),
        "library" => write_library(sheets, seed).map(|()| true),
        _ => Err(io::Error::other("agree|pages|program|library SHEETS SEED [PROGRAM], or sweep")),
    });
    match done {
        Ok(true) => ExitCode::SUCCESS,
        Ok(false) => ExitCode::FAILURE,
        Err(error) => {
            eprintln!("compare: {error}");
            ExitCode::FAILURE
        }
    }
}

/// Compares on the sweep and on random sheets; whether nothing differs.
fn agree(sheets: u64, seed: u64, program: Option<&Path>) -> io::Result<bool> {
    let mut counts = Counts::default();
    let mut result = Ok(());
    sweep::sheets(&mut |sheet| {
        if result.is_ok() {
            result = counts.compare(sheet, program);
        }
    });
    result?;
    println!("The sweep:\n{}\n", counts.summary());
    let mut counts = Counts { differences: counts.differences, ..Counts::default() };
    let mut source = Source::new(seed);
    for _ in 0..sheets {
        counts.compare(&random::sheet_or_wrong(&mut source), program)?;
    }
    println!("Random sheets:\n{}", counts.summary());
    for difference in counts.differences.iter().take(10) {
        println!("\n{difference}");
    }
    Ok(counts.differences.is_empty())
}

/// Compares pages on the sweep and on random sheets; whether nothing differs.
fn pages(sheets: u64, seed: u64, program: &Path) -> io::Result<bool> {
    let mut all = Vec::new();
    sweep::sheets(&mut |sheet| all.push(sheet.to_vec()));
    let mut source = Source::new(seed);
    let random = std::iter::repeat_with(|| random::sheet_or_wrong(&mut source)).zip(0..sheets);
    let mut compared = 0;
    for sheet in all.into_iter().chain(random.map(|(sheet, _)| sheet)) {
        if let Some(difference) = compare_pages(&sheet, program)? {
            println!("{difference}");
            return Ok(false);
        }
        compared += 1;
    }
    println!("{compared} sheets, no difference");
    Ok(true)
}

/// Writes the sheets of the sweep with the model's printout.
fn write_sweep() -> io::Result<()> {
    let mut out = BufWriter::new(io::stdout().lock());
    let mut result = Ok(());
    sweep::sheets(&mut |sheet| {
        if result.is_ok() {
            result = vectors::printout(&mut out, sheet);
        }
    });
    result?;
    out.flush()
}

/// Writes random sheets with the model's printout.
fn write_program(sheets: u64, seed: u64) -> io::Result<()> {
    let mut out = BufWriter::new(io::stdout().lock());
    let mut source = Source::new(seed);
    for _ in 0..sheets {
        vectors::printout(&mut out, &random::sheet_or_wrong(&mut source))?;
    }
    out.flush()
}

/// Writes random sheets and lent lengths with the model's buffers at exit.
fn write_library(sheets: u64, seed: u64) -> io::Result<()> {
    let mut out = BufWriter::new(io::stdout().lock());
    let mut source = Source::new(seed);
    for _ in 0..sheets {
        let sheet = random::sheet_or_wrong(&mut source);
        let lent = random::lent(&mut source, &sheet);
        vectors::buffers(&mut out, &sheet, lent)?;
    }
    out.flush()
}
