//! `include/napsilo.h` from C: the programs of `examples/c` are compiled with `cc` and run. Skipped where there is no `cc`.

use napsilo::{LINE_BUFFER, Lent, MOST_BYTES, PAGE_LINE, PAGE_LINES, STACK, judge_into};
use std::fs;
use std::path::{Path, PathBuf};
use std::process::{Command, Output};

/// The folder of the static library, as in build.rs.
fn library() -> PathBuf {
    match option_env!("NAPSILO_LIB_DIR") {
        Some(folder) => PathBuf::from(folder),
        None => recorded::path("crates/exports/out"),
    }
}

/// A program in C, compiled under this name; nothing where there is no `cc`.
fn compiled(source: &str, name: &str) -> Option<PathBuf> {
    let program = Path::new(env!("CARGO_TARGET_TMPDIR")).join(name);
    let mut cc = Command::new("cc");
    cc.args(["-std=c99", "-O1", "-Wall", "-Wextra", "-Werror", "-pedantic", "-I"]).arg(recorded::path("include"));
    cc.arg(recorded::path("examples/c").join(source)).arg("-L").arg(library()).args(["-lexports", "-o"]).arg(&program);
    let Ok(done) = cc.output() else {
        recorded::skipped("there is no cc");
        return None;
    };
    assert!(done.status.success(), "{}", String::from_utf8_lossy(&done.stderr));
    Some(program)
}

/// What the program does with a file.
fn run(program: &Path, file: &Path) -> Output {
    Command::new(program).arg(file).output().expect("the program starts")
}

/// A row as the program prints it.
fn row(word: u32) -> String {
    match word >> 16 {
        0 => format!(" {word}"),
        cause => format!(" !{cause}"),
    }
}

/// The lines of numbers that the program prints for an accepted sheet, from the buffers that Rust gets.
fn numbers(sheet: &[u8]) -> String {
    let lent = Lent::PROGRAM;
    let [mut places, mut rows, mut answers] = [vec![0; lent.places], vec![0; lent.rows], vec![0; lent.answers]];
    let judged = judge_into(sheet, &mut vec![0; lent.records], &mut places, &mut rows, &mut answers);
    judged.expect("the sheet is accepted");
    let count = |at: usize| usize::from(u16::from_le_bytes([sheet[at], sheet[at + 1]]));
    let terms = (0..count(2)).map(|k| format!("term {k}{}{}\n", row(rows[2 * k]), row(rows[2 * k + 1])));
    let questions = (0..count(4)).map(|k| format!("question {k}{}\n", row(answers[k])));
    ["outcome 0\n".to_owned()].into_iter().chain(terms).chain(questions).collect()
}

#[test]
fn the_examples() {
    let Some(program) = compiled("judge.c", "judge_examples") else { return };
    let recorded = recorded::printed();
    let mut files = 0;
    for entry in fs::read_dir(recorded::path("examples")).expect("the examples are there") {
        let file = entry.expect("a file").path();
        if file.extension().is_none_or(|extension| extension != "sheet") {
            continue;
        }
        let sheet = fs::read(&file).expect("the example can be read");
        let vector = recorded.iter().find(|vector| vector.sheet == sheet).expect("docs/FORMAT.md has the example");
        let done = run(&program, &file);
        assert_eq!(String::from_utf8_lossy(&done.stdout), numbers(&sheet) + &vector.text, "{}", file.display());
        let refused = vector.text.lines().any(|line| line.starts_with('T') && line.contains(" !"));
        assert_eq!(done.status.code(), Some(i32::from(refused)), "{}", file.display());
        files += 1;
    }
    assert_eq!(files, 6);
}

#[test]
fn every_recorded_refusal_of_a_sheet() {
    let Some(program) = compiled("judge.c", "judge_refusals") else { return };
    let file = Path::new(env!("CARGO_TARGET_TMPDIR")).join("refused.sheet");
    let mut seen = Vec::new();
    for vector in recorded::printed().iter().filter(|vector| vector.text.starts_with('!')) {
        if seen.contains(&vector.text) {
            continue;
        }
        fs::write(&file, &vector.sheet).expect("the sheet can be written");
        let done = run(&program, &file);
        let expected = format!("outcome {}{}", &vector.text[1..], vector.text);
        assert_eq!(String::from_utf8_lossy(&done.stdout), expected);
        assert_eq!(done.status.code(), Some(2));
        seen.push(vector.text.clone());
    }
    assert_eq!(seen.len(), 9, "1 to 7, 9 and 34: {seen:?}");
}

#[test]
fn every_recorded_page() {
    let Some(program) = compiled("page.c", "page_recorded") else { return };
    let file = Path::new(env!("CARGO_TARGET_TMPDIR")).join("page.sheet");
    for vector in recorded::paged() {
        fs::write(&file, &vector.sheet).expect("the sheet can be written");
        let done = run(&program, &file);
        assert_eq!(String::from_utf8_lossy(&done.stdout), vector.text);
        assert_eq!(done.status.code(), Some(0));
    }
}

#[test]
fn a_file_that_cannot_be_read() {
    let Some(program) = compiled("judge.c", "judge_unread") else { return };
    let done = run(&program, &recorded::path("examples/none.sheet"));
    assert_eq!((done.stdout.len(), done.status.code()), (0, Some(3)));
    let Some(program) = compiled("page.c", "page_unread") else { return };
    let done = run(&program, &recorded::path("examples/none.sheet"));
    assert_eq!((done.stdout.len(), done.status.code()), (0, Some(1)));
}

#[test]
fn the_constants_of_the_header() {
    let header = recorded::text("include/napsilo.h");
    let lent = Lent::PROGRAM;
    for (name, value) in [
        ("SHEET", MOST_BYTES),
        ("RECORDS", lent.records),
        ("PLACES", lent.places),
        ("ROWS", lent.rows),
        ("ANSWERS", lent.answers),
        ("LINE", LINE_BUFFER),
        ("PAGE_LINE", PAGE_LINE),
        ("PAGE_LINES", PAGE_LINES),
        ("STACK", STACK),
    ] {
        let line = format!("#define NAPSILO_{name} {value}");
        assert!(header.lines().any(|other| other == line), "{line}");
    }
}
