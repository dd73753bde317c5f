//! The programs themselves, where a read or a write fails: nothing that could pass for a result, and one line on standard error. And the
//! pages of recorded sheets by the second one.
//!
//! `napsilo` is taken from the file that the environment variable `NAPSILO_PROGRAM` names, `napsilo_page` from that of
//! `NAPSILO_PAGE_PROGRAM`, else from `out` of its crate. Without one its tests are skipped.

use std::fs::{File, OpenOptions};
use std::io::Write;
use std::path::PathBuf;
use std::process::{Command, Output, Stdio};

/// A program: its name, and where it stands.
struct Program {
    name: &'static str,
    path: PathBuf,
}

/// A program, if it has been built.
fn program(name: &'static str, variable: &str) -> Option<Program> {
    let built = || recorded::path("crates").join(name).join("out").join(name);
    let path = std::env::var_os(variable).map_or_else(built, PathBuf::from);
    if !path.exists() {
        recorded::skipped(&format!("there is no program {name}; `rt run` in crates/{name} builds it"));
    }
    path.exists().then_some(Program { name, path })
}

/// The second program.
fn page_program() -> Option<Program> {
    program("napsilo_page", "NAPSILO_PAGE_PROGRAM")
}

/// Those of the two programs that have been built.
fn programs() -> impl Iterator<Item = Program> {
    [program("napsilo", "NAPSILO_PROGRAM"), page_program()].into_iter().flatten()
}

/// What a program does with this input and output.
fn run(program: &Program, input: Stdio, output: Stdio) -> Output {
    let child = Command::new(&program.path).stdin(input).stdout(output).stderr(Stdio::piped()).spawn();
    child.expect("the program starts").wait_with_output().expect("the program ends")
}

/// Whether a program told this, in one line.
fn told(program: &Program, done: &Output, what: &str) {
    assert_eq!(String::from_utf8_lossy(&done.stderr), format!("{}: {what}\n", program.name));
}

/// The sheet of the README.
fn sheet() -> Stdio {
    File::open(recorded::path("examples/session.sheet")).expect("the example is there").into()
}

#[test]
fn a_failed_read_prints_nothing_and_is_told() {
    for program in programs() {
        let folder = File::open(env!("CARGO_MANIFEST_DIR")).expect("a folder can be opened");
        let done = run(&program, folder.into(), Stdio::piped());
        assert_eq!(done.stdout, b"");
        told(&program, &done, "standard input: Is a directory");
    }
}

#[test]
fn input_that_cannot_be_read_is_no_empty_sheet() {
    for program in programs() {
        // A descriptor that is open for writing only: no byte of it can be read.
        let unreadable = OpenOptions::new().write(true).open("/dev/null").expect("the null device can be opened");
        let done = run(&program, unreadable.into(), Stdio::piped());
        assert_eq!(done.stdout, b"");
        told(&program, &done, "standard input: Bad file descriptor");
    }
}

#[test]
fn a_failed_write_is_told() {
    for program in programs() {
        let full = OpenOptions::new().write(true).open("/dev/full").expect("the full device can be opened");
        let done = run(&program, sheet(), full.into());
        told(&program, &done, "standard output: No space left on device");
    }
}

#[test]
fn a_pipe_that_nobody_reads_is_a_failed_write() {
    for program in programs() {
        let (reader, writer) = std::io::pipe().expect("a pipe");
        drop(reader);
        let done = run(&program, sheet(), writer.into());
        told(&program, &done, "standard output: Broken pipe");
        assert!(done.status.success());
    }
}

#[test]
fn a_whole_run_tells_nothing_and_prints_every_line() {
    for program in programs() {
        let done = run(&program, sheet(), Stdio::piped());
        assert_eq!(done.stderr, b"");
        let expected = recorded::text(&format!("crates/{}/stdout", program.name));
        assert_eq!(String::from_utf8_lossy(&done.stdout), expected);
    }
}

/// What a program prints for a sheet, which it reads from a pipe.
fn piped(program: &Program, sheet: &[u8]) -> Vec<u8> {
    let mut child =
        Command::new(&program.path).stdin(Stdio::piped()).stdout(Stdio::piped()).spawn().expect("the program starts");
    let mut input = child.stdin.take().expect("a pipe");
    // A sheet that is too long need not be read to its end.
    let _ = input.write_all(sheet);
    drop(input);
    child.wait_with_output().expect("the program ends").stdout
}

#[test]
fn every_recorded_page() {
    let Some(program) = page_program() else { return };
    for vector in recorded::paged() {
        assert_eq!(String::from_utf8_lossy(&piped(&program, &vector.sheet)), vector.text);
    }
    // A sheet of the greatest length with bytes behind its last record, and one that is a byte longer.
    assert_eq!(piped(&program, &vec![0; 65_536]), b"!7\n");
    assert_eq!(piped(&program, &vec![0; 65_537]), b"!1\n");
}
