//! Measures the proved library beside carcara's pool, on the same sheets.
//!
//! - `bench all [RUNS]`: all cases, and how the families grow from 256 to 4,096 terms; RUNS of each (16, if not said);
//! - `bench cases [RUNS [TEXT]]`, `bench growth [RUNS]`: one of the two; with TEXT the cases in whose name it stands;
//! - `bench turns OBJECT [RUNS [TEXT]]`: this library in turn with another build of it, a shared object; both must fill the same buffers;
//! - `bench judge SHEET..`: what the library takes for sheets in files, in ms, the median of three runs;
//! - `bench stack SHEET..`: the least stack on which the library runs to its end;
//! - `bench batch [TERMS [RUNS]]`: so many terms in a batch (a million, if not said), beside the pool;
//! - `bench once CASE library|pool [TIMES]`: one case, one side, so many times, without a word; for a profiler;
//! - `bench compare`: compares the library on the sheets of all cases, and ends at the first difference;
//! - `bench list`: the cases;
//! - `bench sheets FOLDER`: writes the sheets, `CASE.SHEET` each by its numbers, and the cases' names and lent lengths in `cases.txt`.
//!
//! What is timed, by the processor time of the thread:
//!
//! - the library: `napsilo_judge`, from the bytes of the sheet to the four filled buffers, so the reading of the sheet with all its checks,
//!   both rows of each term, the answers, the zeros of the buffers. The buffers are allocated once and have the program's lengths, if a
//!   case says nothing else; the stack is the caller's and large enough.
//! - the pool: the sheet is decoded beforehand into a list of records with the strings of its names. From the list the sorts and the terms
//!   are built in a fresh pool (`Pool::add_sort`, `Pool::add`, which infers), the sort of each is asked for (`Pool::sort`), and questions
//!   are put (`is_compatible`, `match_with`, `SortSubstitution::apply`). It is the inferred row alone, and neither the decoding nor the
//!   end of pool and terms is in the time. There are no panics: every term has an inferred sort.
//!
//! `bench compare` compares the library on all these sheets with the model and with carcara.

mod families;
mod measure;
mod million;
mod pool;
mod special;
mod stack;
mod system;

use beside::Trial;
use beside::random::Random;
use compare::sizes;
use families::{FAMILIES, parametric};
use measure::in_turn;
use napsilo::{Lent, Operator, judge_into};
use pool::Decoded;
use special::Asked;
use std::fs;
use std::hint::black_box;
use std::path::Path;
use std::process::ExitCode;
use std::time::{Duration, Instant};
use system::{Buffers, Other, timed};

/// What is measured together: some sheets, and the lengths that are lent.
struct Case {
    name: String,
    sheets: Vec<Vec<u8>>,
    lent: Lent,
}

impl Case {
    /// One sheet with the program's buffers.
    fn new(name: &str, sheet: Vec<u8>) -> Self {
        Case { name: name.to_owned(), sheets: vec![sheet], lent: Lent::PROGRAM }
    }
}

/// All cases.
fn cases() -> Vec<Case> {
    let mut cases: Vec<Case> =
        FAMILIES.iter().map(|(name, family)| Case::new(&format!("{name}, 4,096 terms"), family(4_096, 1))).collect();
    let small = Lent { records: 512, places: 64, rows: 16, answers: 0 };
    for (name, lent) in [("the program's buffers", Lent::PROGRAM), ("small buffers", small)] {
        cases.push(Case { name: format!("512 sheets of 8 terms, {name}"), sheets: special::small(512), lent });
    }
    for (name, sheet) in [
        ("a chain of Set, 2,000 levels", special::deep(2_000)),
        ("a chain of Set, 4,000 levels", special::deep(4_000)),
        ("480 applications to 63 arguments", special::wide()),
        ("1,024 questions: compatible", special::questions(Asked::Compatible)),
        ("1,024 questions: match", special::questions(Asked::Match)),
        ("1,024 questions: apply", special::questions(Asked::Apply)),
        ("1,024 questions: continue, none of two given", special::questions(Asked::Continue(0))),
        ("1,024 questions: continue, one of two given", special::questions(Asked::Continue(1))),
        ("1,024 questions: continue, both given", special::questions(Asked::Continue(2))),
        ("refused: 1,024 questions: continue, another sort given", special::questions(Asked::Refused)),
        ("150 questions: continue, none of 64 given", special::many_given(0)),
        ("150 questions: continue, 32 of 64 given", special::many_given(32)),
        ("150 questions: continue, all 64 given", special::many_given(64)),
        ("worst: 140 questions: continue, 64 sorts of 4,096 nodes given", special::great_given()),
        ("worst: 2,000 heads match 4,033 nodes", special::great_match()),
        ("worst: 2,000 heads give 4,033 nodes", special::great_result()),
        ("worst: 2,000 heads match and give 2,017 nodes", special::great_both()),
        ("worst: 2,000 heads match and give 1,953 distinct nodes", special::great_distinct()),
        ("worst: 2,000 heads match and give a chain of 1,000", special::great_chain()),
        ("worst: 2,000 heads, no two Apps alike, match and give a chain of 500", special::great_unlike()),
        ("worst: 4,000 Bools, 1,900 sorts in one bucket", special::collisions(1_900, 4_000)),
        ("worst: 1 Bool, 2,047 sorts in one bucket", special::collisions(2_047, 1)),
        ("worst: 20 heads give 4,033 nodes, 2,000 sorts in one bucket", special::great_collisions(20)),
        ("480 sorts of 64 parts", special::wide_sorts()),
        ("240 lambdas of 63 bindings", special::wide_lambdas()),
        ("240 tuples of 64 arguments", special::wide_tuples()),
        ("480 sets that get 63 elements", special::wide_inserts()),
        ("400 joins of 33 and 33 columns", special::wide_pairs(Operator::RelJoin, 33)),
        ("400 products of 32 and 32 columns", special::wide_pairs(Operator::RelProduct, 32)),
        ("200 transposes of 64 columns", special::wide_transposes()),
        ("worst: 4,000 joins of 33 and 33 columns, one sort", special::joined_again()),
        ("worst: 4,000 pairs of two sorts in turn", special::tuples_in_turn(4_000, 2)),
        ("worst: 480 tuples of 64 arguments, of two sorts in turn", special::tuples_in_turn(480, 64)),
        ("parametric applications, 4,096 terms, sizes written", sizes::all(&parametric(4_096, 1))),
        ("480 sorts of 64 parts, sizes written", sizes::all(&special::wide_sorts())),
        ("worst: 1 Bool, 2,047 sorts in one bucket, sizes written", sizes::all(&special::collisions(2_047, 1))),
        ("an empty sheet", vec![0; 6]),
    ] {
        cases.push(Case::new(name, sheet));
    }
    cases
}

/// One side of a case: what a pass over its sheets takes.
type Side<'a> = Box<dyn FnMut() -> Duration + 'a>;

/// A side that judges the sheets of a case; what is said must be 0.
fn judging<'a>(case: &'a Case, judge: impl Fn(&[u8], &mut Buffers) -> u32 + 'a) -> Side<'a> {
    let mut buffers = Buffers::new(case.lent);
    Box::new(move || {
        let start = Instant::now();
        for sheet in &case.sheets {
            assert_eq!(judge(black_box(sheet), &mut buffers), 0);
            black_box(&buffers.records);
        }
        start.elapsed()
    })
}

/// What the library says of a sheet.
fn judge(sheet: &[u8], buffers: &mut Buffers) -> u32 {
    let Buffers { records, places, rows, answers } = buffers;
    judge_into(sheet, records, places, rows, answers).map_or_else(|refusal| refusal.number(), |()| 0)
}

/// The library's side.
fn library(case: &Case) -> Side<'_> {
    judging(case, judge)
}

/// The pool's side.
fn pool(case: &Case) -> Side<'_> {
    let decoded: Vec<Decoded> = case.sheets.iter().map(|sheet| Decoded::new(sheet)).collect();
    Box::new(move || decoded.iter().map(Decoded::infer).sum())
}

/// Compares on the sheets of a case, of which no term may be refused, and no answer but of one whose name says so.
fn compared(case: &Case) {
    let mut trial = Trial::default();
    for sheet in &case.sheets {
        trial.sheet(sheet, &mut Random::new(1), 0).expect("no difference");
    }
    let terms = trial.inferred.iter().sum();
    assert_eq!((trial.inferred[0], trial.sheets[0]), (terms, case.sheets.len()), "{}: refused", case.name);
    let given = if case.name.starts_with("refused") { 0 } else { trial.answers.iter().sum() };
    assert_eq!(trial.answers[0], given, "{}: an answer is refused, or none is", case.name);
}

/// A time in microseconds.
fn time(microseconds: f64) -> String {
    match microseconds {
        few if few < 10.0 => format!("{few:.2}"),
        some if some < 1_000.0 => format!("{some:.1}"),
        many => commas(many.round() as usize),
    }
}

/// A whole number with a comma before each three digits.
fn commas(number: usize) -> String {
    if number < 1_000 { number.to_string() } else { format!("{},{:03}", commas(number / 1_000), number % 1_000) }
}

/// How many terms a sheet has.
fn terms_of(sheet: &[u8]) -> usize {
    usize::from(u16::from_le_bytes([sheet[2], sheet[3]]))
}

/// Measures the cases in whose name a text stands.
fn measure_cases(runs: usize, text: &str) {
    println!("| case | terms | bytes | library | pool | ratio |");
    println!("|---|---|---|---|---|---|");
    for case in cases().into_iter().filter(|case| case.name.contains(text)) {
        let (one, other) = in_turn(runs, &mut *library(&case), &mut *pool(&case));
        let terms = commas(case.sheets.iter().map(|sheet| terms_of(sheet)).sum());
        let bytes = commas(case.sheets.iter().map(Vec::len).sum());
        let ratio = one.median / other.median;
        println!("| {} | {terms} | {bytes} | {} | {} | {ratio:.2} |", case.name, time(one.median), time(other.median));
    }
}

/// Measures how the families grow.
fn measure_growth(runs: usize) {
    println!("| family | growth | at 4,096 |");
    println!("|---|---|---|");
    for (name, family) in FAMILIES {
        let [small, large] = [256, 4_096].map(|terms| {
            let case = Case::new(name, family(terms, 1));
            let (one, other) = in_turn(runs, &mut *library(&case), &mut *pool(&case));
            [one, other]
        });
        let [library, pool] = [0, 1].map(|side| large[side].least / small[side].least);
        let [ours, theirs] = [0, 1].map(|side| large[side].median * 1e3 / 4_096.0);
        println!("| {name} | {library:.1} / {pool:.1} | {ours:.0} / {theirs:.0} |");
    }
}

/// Whether some rows differ, and all that do are refused by the first and sorts by the second.
fn refuses_more(first: &[u32], second: &[u32]) -> bool {
    let mut differing = first.iter().zip(second).filter(|(first, second)| first != second).peekable();
    differing.peek().is_some() && differing.all(|(first, second)| first >> 16 != 0 && second >> 16 == 0)
}

/// Measures another build of the library, and this one in turn with it, on the cases in whose name a text stands.
fn measure_turns(object: &str, runs: usize, text: &str) -> Option<()> {
    let other = Other::load(object)?;
    println!("| case | other, least | median | this, least | median | by least | by median |");
    println!("|---|---|---|---|---|---|---|");
    for case in cases().into_iter().filter(|case| case.name.contains(text)) {
        // Another build's store may have other bytes, and it may refuse a sheet or rows that are newer than it is.
        let mut refused = false;
        for sheet in &case.sheets {
            let (mut theirs, mut ours) = (Buffers::new(case.lent), Buffers::new(case.lent));
            refused |= other.judge(sheet, &mut theirs) != 0;
            assert_eq!(judge(sheet, &mut ours), 0);
            refused |= refuses_more(&theirs.rows, &ours.rows);
            let same = theirs.rows == ours.rows && theirs.answers == ours.answers;
            assert!(refused || same, "{}: other rows or answers", case.name);
        }
        if refused {
            println!("| {} | refused | | | | | |", case.name);
            continue;
        }
        let mut before = judging(&case, |sheet, buffers| other.judge(sheet, buffers));
        let (before, after) = in_turn(runs, &mut *before, &mut *library(&case));
        let times = [before.least, before.median, after.least, after.median].map(time).join(" | ");
        let (least, median) = (after.least / before.least, after.median / before.median);
        println!("| {} | {times} | {least:.3} | {median:.3} |", case.name);
    }
    Some(())
}

/// Measures the library on sheets in files.
fn measure_sheets(paths: &[String]) -> Option<()> {
    println!("| sheet | terms | bytes | ms |");
    println!("|---|---|---|---|");
    for path in paths {
        let sheet = fs::read(path).ok()?;
        let name = path.rsplit('/').next().unwrap_or(path);
        let mut buffers = Buffers::new(Lent::PROGRAM);
        let mut times = [(); 3].map(|()| timed(|| judge(&sheet, &mut buffers)).0);
        times.sort();
        let [terms, bytes] = [terms_of(&sheet), sheet.len()].map(commas);
        println!("| {name} | {terms} | {bytes} | {:.1} |", times[1].as_secs_f64() * 1e3);
    }
    Some(())
}

/// A case that takes too long for many runs; `once` knows it.
fn long_case() -> Case {
    Case::new("worst: 2,000 heads give 4,033 nodes, 2,000 sorts in one bucket", special::great_collisions(2_000))
}

/// Writes the sheets of all cases into a folder.
fn write_sheets(folder: &Path) -> std::io::Result<()> {
    let mut lines = String::new();
    for (number, case) in cases().iter().enumerate() {
        let Lent { records, places, rows, answers } = case.lent;
        lines += &format!("{number} {} {records} {places} {rows} {answers} {}\n", case.sheets.len(), case.name);
        for (at, sheet) in case.sheets.iter().enumerate() {
            fs::write(folder.join(format!("{number}.{at}")), sheet)?;
        }
    }
    fs::write(folder.join("cases.txt"), lines)
}

/// Runs one side of a case so many times.
fn once(name: &str, side: &str, times: usize) -> Option<()> {
    let mut cases = cases();
    cases.push(long_case());
    let case = cases.iter().find(|case| case.name == name)?;
    let mut work = match side {
        "library" => library(case),
        "pool" => pool(case),
        _ => return None,
    };
    for _ in 0..times {
        work();
    }
    Some(())
}

fn main() -> ExitCode {
    let arguments: Vec<String> = std::env::args().skip(1).collect();
    let text = |at: usize| arguments.get(at).map_or("", String::as_str);
    let number = |at: usize, other: usize| text(at).parse().unwrap_or(other);
    let done = oracle::on_stack(|| {
        match text(0) {
            "all" => {
                measure_cases(number(1, 16), "");
                println!();
                measure_growth(number(1, 16));
            }
            "cases" => measure_cases(number(1, 16), text(2)),
            "growth" => measure_growth(number(1, 16)),
            "turns" => return measure_turns(text(1), number(2, 16), text(3)),
            "judge" => return measure_sheets(&arguments[1..]),
            "stack" => return stack::measure(&arguments[1..]),
            "batch" => return million::measure(number(1, 1_000_000), number(2, 3)),
            "batch-run" => return million::run(text(1), text(2), number(3, 0)),
            "stack-run" => return stack::run(text(1), text(2), number(3, 0)),
            "compare" => {
                let small = FAMILIES.iter().map(|(name, family)| Case::new(name, family(256, 1)));
                small.chain(cases()).for_each(|case| compared(&case));
                println!("no difference");
            }
            "list" => cases().iter().chain([&long_case()]).for_each(|case| println!("{}", case.name)),
            "once" => return once(text(1), text(2), number(3, 1)),
            "sheets" => return write_sheets(Path::new(text(1))).ok(),
            _ => return None,
        }
        Some(())
    });
    match done {
        Some(()) => ExitCode::SUCCESS,
        None => {
            eprintln!(
                "bench all|growth [RUNS] | bench cases [RUNS [TEXT]] | bench turns OBJECT [RUNS [TEXT]] | bench judge|stack SHEET.. | \
                 bench batch [TERMS [RUNS]] | bench compare | bench list | bench once CASE library|pool [TIMES] | bench sheets FOLDER"
            );
            ExitCode::FAILURE
        }
    }
}
