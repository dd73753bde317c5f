//! Prints what the model says of a sheet.
//!
//! `model print [FILE]` prints what the program prints for a sheet, `model page [FILE]` what the second program does: its rows on pages.
//! `model lent RECORDS PLACES ROWS ANSWERS [FILE]` prints what the library gives where buffers of these lengths are lent: the number, and each
//! buffer whole, a line each. Without FILE the sheet is read from standard input.

use std::io::{self, Read, Write};
use std::process::ExitCode;
use std::thread;

/// How the command is called.
const USAGE: &str = "model print [FILE] | model page [FILE] | model lent RECORDS PLACES ROWS ANSWERS [FILE]";

/// The stack that the model's recursion over the deepest sorts fits.
const STACK: usize = 256 << 20;

fn main() -> ExitCode {
    let thread = thread::Builder::new().stack_size(STACK).spawn(run).expect("a thread can be started");
    match thread.join() {
        Ok(Ok(())) => ExitCode::SUCCESS,
        Ok(Err(error)) => {
            eprintln!("model: {error}");
            ExitCode::FAILURE
        }
        Err(panic) => std::panic::resume_unwind(panic),
    }
}

/// Reads a sheet and prints.
fn run() -> io::Result<()> {
    let arguments: Vec<String> = std::env::args().skip(1).collect();
    let words: Vec<&str> = arguments.iter().map(String::as_str).collect();
    let mut out = io::BufWriter::new(io::stdout().lock());
    match words[..] {
        ["print", ref file @ ..] => out.write_all(model::printout(&sheet(file)?).as_bytes())?,
        ["page", ref file @ ..] => model::write_page(&sheet(file)?, &mut out)?,
        ["lent", records, places, rows, answers, ref file @ ..] => {
            let lengths = [records, places, rows, answers].map(|word| word.parse().map_err(io::Error::other));
            let [records, places, rows, answers] = lengths;
            let judged = model::judge(&sheet(file)?, records?, places?, rows?, answers?);
            write_buffers(&judged, &mut out)?;
        }
        _ => return Err(io::Error::other(USAGE)),
    }
    out.flush()
}

/// Writes the number and the four buffers.
fn write_buffers(judged: &model::Judged, out: &mut impl Write) -> io::Result<()> {
    let hex: String = judged.records.iter().map(|byte| format!("{byte:02x}")).collect();
    writeln!(out, "outcome {}\nrecords {hex}", judged.number)?;
    for (name, words) in [("places", &judged.places), ("rows", &judged.rows), ("answers", &judged.answers)] {
        let words: String = words.iter().map(|word| format!(" {word}")).collect();
        writeln!(out, "{name}{words}")?;
    }
    Ok(())
}

/// The bytes of the one file that is named, or of standard input if none is.
fn sheet(file: &[&str]) -> io::Result<Vec<u8>> {
    match file {
        [path] => std::fs::read(path),
        [] => {
            let mut bytes = Vec::new();
            io::stdin().lock().read_to_end(&mut bytes)?;
            Ok(bytes)
        }
        _ => Err(io::Error::other(USAGE)),
    }
}
