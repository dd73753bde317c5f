//! Compares the library with carcara and with the model.
//!
//! - `beside random SHEETS SEED [OTHERS]` on so many random sheets, a third of them damaged copies, each with the program's buffers and with
//!   so many other lent lengths (4, if not said);
//! - `beside sweep` on the sheets of `compare sweep`;
//! - `beside sheet HEX` on one sheet; prints what the library says to it;
//! - `beside batch SHEETS SEED` on so many random sheets: a batch over small sheets beside the whole sheet;
//! - `beside guarded SHEETS SEED` on so many small sheets, with guards round the buffers, with the model alone; for a memory checker;
//! - `beside explain SHEETS SEED` holds the explanations of all refused rows of so many random sheets to the rows, and follows them.
//!
//! - `beside record SHEETS SEED FILE LENT LENT_FILE` compares nothing: it writes so many random sheets with their printouts to a file, and so
//!   many with lent lengths and the buffers at exit to another, both by the model and, where carcara has a say, by carcara.
//!
//! - `beside repeats SHEETS SEED` compares nothing either: it writes so many sheets of repeated applications with their printouts to
//!   standard output, in the same way.
//!
//! The first difference ends a run, with the sheet in hexadecimal.

use beside::batched::Batched;
use beside::explained::Explained;
use beside::random::Random;
use beside::{Difference, Trial, make};
use std::process::ExitCode;

/// How the program is called.
const USAGE: &str = "\
beside random SHEETS SEED [OTHERS] | beside sweep | beside sheet HEX | beside batch SHEETS SEED
beside guarded SHEETS SEED | beside explain SHEETS SEED
beside record SHEETS SEED FILE LENT LENT_FILE | beside repeats SHEETS SEED";

fn main() -> ExitCode {
    let arguments: Vec<String> = std::env::args().skip(1).collect();
    let number = |at: usize, other: u64| arguments.get(at).map_or(Some(other), |text| text.parse().ok());
    match arguments.first().map_or("", String::as_str) {
        "record" => return record(&arguments[1..]),
        "batch" => return batched(&arguments[1..]),
        "guarded" => return guarded(&arguments[1..]),
        "repeats" => return repeats(&arguments[1..]),
        "explain" => return explain(&arguments[1..]),
        _ => (),
    }
    let mut trial = Trial::default();
    let done = oracle::on_stack(|| match (arguments.first().map_or("", String::as_str), number(1, 1_000)) {
        ("random", Some(sheets)) => {
            let (seed, others) = (number(2, 1)?, usize::try_from(number(3, 4)?).ok()?);
            Some(on_random(&mut trial, sheets, seed, others))
        }
        ("sweep", _) => Some(on_sweep(&mut trial)),
        ("sheet", _) => Some(on_sheet(&mut trial, arguments.get(1)?)),
        _ => None,
    });
    let Some(done) = done else {
        eprintln!("{USAGE}");
        return ExitCode::FAILURE;
    };
    print!("{}", trial.summary());
    match done {
        Ok(()) => {
            println!("no difference");
            ExitCode::SUCCESS
        }
        Err(difference) => {
            println!("a difference:\n{difference}");
            ExitCode::FAILURE
        }
    }
}

/// Writes random sheets with what they must give.
fn record(arguments: &[String]) -> ExitCode {
    let number = |at: usize| arguments.get(at).and_then(|text| text.parse::<u64>().ok());
    let count = |at: usize| number(at).and_then(|count| usize::try_from(count).ok());
    let (Some(sheets), Some(seed), Some(lent), [_, _, file, _, lent_file]) = (count(0), number(1), count(3), arguments)
    else {
        eprintln!("{USAGE}");
        return ExitCode::FAILURE;
    };
    match oracle::on_stack(|| beside::record::files(seed, (sheets, file), (lent, lent_file))) {
        Ok(written) => {
            print!("{written}");
            ExitCode::SUCCESS
        }
        Err(difference) => {
            println!("a difference:\n{difference}");
            ExitCode::FAILURE
        }
    }
}

/// Writes sheets of repeated applications with their printouts.
fn repeats(arguments: &[String]) -> ExitCode {
    let number = |at: usize| arguments.get(at).and_then(|text| text.parse::<u64>().ok());
    let (Some(Ok(sheets)), Some(seed)) = (number(0).map(usize::try_from), number(1)) else {
        eprintln!("{USAGE}");
        return ExitCode::FAILURE;
    };
    match oracle::on_stack(|| beside::record::repeated(&mut std::io::stdout(), sheets, seed)) {
        Ok(()) => ExitCode::SUCCESS,
        Err(difference) => {
            println!("a difference:\n{difference}");
            ExitCode::FAILURE
        }
    }
}

/// Compares a batch over small sheets with the whole sheet, on random sheets of both makers.
fn batched(arguments: &[String]) -> ExitCode {
    let number = |at: usize, other: u64| arguments.get(at).and_then(|text| text.parse().ok()).unwrap_or(other);
    let (sheets, seed) = (number(0, 1_000), number(1, 1));
    let mut batched = Batched::default();
    let done = oracle::on_stack(|| {
        let (mut random, mut source) = (Random::new(seed), compare::random::Source::new(seed));
        (0..sheets).try_for_each(|at| {
            let sheet = match at % 2 {
                0 => random_sheet(&mut random, at / 2),
                _ => compare::random::sheet(&mut source),
            };
            batched.sheet(&sheet, &mut random)
        })
    });
    print!("{}", batched.summary());
    match done {
        Ok(()) => {
            println!("no difference");
            ExitCode::SUCCESS
        }
        Err(difference) => {
            println!("a difference:\n{difference}");
            ExitCode::FAILURE
        }
    }
}

/// Compares on small sheets with guards round the buffers.
fn guarded(arguments: &[String]) -> ExitCode {
    let number = |at: usize, other: u64| arguments.get(at).and_then(|text| text.parse().ok()).unwrap_or(other);
    let sheets = usize::try_from(number(0, 1_000)).expect("64 bits");
    match oracle::on_stack(|| beside::guarded::on_small(sheets, number(1, 1))) {
        Ok(numbers) => {
            let met = numbers.iter().enumerate().filter(|(_, count)| **count != 0);
            let met: Vec<String> = met.map(|(number, count)| format!("{number}: {count}")).collect();
            println!("{sheets} sheets, by number: {}\nno difference", met.join(", "));
            ExitCode::SUCCESS
        }
        Err(difference) => {
            println!("a difference:\n{difference}");
            ExitCode::FAILURE
        }
    }
}

/// Holds the explanations of random sheets to their rows.
fn explain(arguments: &[String]) -> ExitCode {
    let number = |at: usize, other: u64| arguments.get(at).and_then(|text| text.parse().ok()).unwrap_or(other);
    let mut random = Random::new(number(1, 1));
    let mut explained = Explained::new(1);
    let done = oracle::on_stack(|| {
        for at in 0..number(0, 1_000) {
            explained.sheet(&random_sheet(&mut random, at))?;
        }
        Ok::<(), Difference>(())
    });
    print!("{}", explained.summary());
    match done {
        Ok(()) => ExitCode::SUCCESS,
        Err(difference) => {
            println!("a difference:\n{difference}");
            ExitCode::FAILURE
        }
    }
}

/// A random sheet: one in 500 fills the store, one in 500 its bytes, one in 50 has great sorts, one in 50 sorts past the limit and a wrong tree
/// size, one in 20 applications that were there before, one in 10 is about numbers, one in 10 about sets and relations, one in 10 about matching. In
/// three of ten tree sizes are written, and a wrong one in one of ten.
fn random_sheet(random: &mut Random, at: u64) -> Vec<u8> {
    let sheet = match at % 500 {
        0 => make::crowded(random),
        250 => make::heavy(random),
        by if by % 50 == 1 => make::large(random),
        by if by % 50 == 26 => make::over(random),
        by if by % 20 == 2 => make::repeated(random),
        by if by % 10 == 7 => make::numbers(random),
        by if by % 10 == 4 => make::relations(random),
        by if by % 10 == 9 => make::continued(random),
        _ => make::sheet(random),
    };
    match random.under(10) {
        0..3 => make::sized(random, &sheet),
        3 => make::wrong(random, &sheet),
        _ => sheet,
    }
}

/// Compares on random sheets.
fn on_random(trial: &mut Trial, sheets: u64, seed: u64, others: usize) -> Result<(), Difference> {
    let mut random = Random::new(seed);
    for at in 0..sheets {
        let mut sheet = random_sheet(&mut random, at);
        if at % 500 != 0 && random.percent(33) {
            sheet = make::damaged(&mut random, &sheet);
        }
        trial.sheet(&sheet, &mut random, others)?;
    }
    Ok(())
}

/// Compares on the sheets of the sweep.
fn on_sweep(trial: &mut Trial) -> Result<(), Difference> {
    let mut random = Random::new(1);
    let mut done = Ok(());
    compare::sweep::sheets(&mut |sheet| {
        if done.is_ok() {
            done = trial.sheet(sheet, &mut random, 1);
        }
    });
    done
}

/// Compares on one sheet.
fn on_sheet(trial: &mut Trial, hex: &str) -> Result<(), Difference> {
    let digits: Option<Vec<u32>> = hex.chars().map(|digit| digit.to_digit(16)).collect();
    let digits = digits.filter(|digits| digits.len().is_multiple_of(2)).ok_or("no hexadecimal text")?;
    let byte = |pair: &[u32]| u8::try_from(pair[0] * 16 + pair[1]).expect("two digits");
    let sheet: Vec<u8> = digits.chunks(2).map(byte).collect();
    print!("{}", napsilo::print(&sheet));
    trial.sheet(&sheet, &mut Random::new(1), 100)
}
