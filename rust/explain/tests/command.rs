//! The command itself: what it prints, and its exit status.

use recorded::{format, hex, path};
use std::fs::{self, OpenOptions};
use std::io::Write;
use std::path::{Path, PathBuf};
use std::process::{Command, Output, Stdio};

/// The command with these arguments, started at the top of the repository, without the colours of its surroundings.
fn command(arguments: &[&str]) -> Command {
    let mut command = Command::new(env!("CARGO_BIN_EXE_napsilo-explain"));
    command.args(arguments).current_dir(path("")).stdin(Stdio::null()).env_remove("NO_COLOR");
    command
}

/// What the command does with these arguments and this standard input.
fn run(arguments: &[&str], input: &[u8]) -> Output {
    let mut command = command(arguments);
    command.stdin(Stdio::piped()).stdout(Stdio::piped()).stderr(Stdio::piped());
    let mut child = command.spawn().expect("the command starts");
    child.stdin.take().expect("a pipe").write_all(input).expect("the command reads its input");
    child.wait_with_output().expect("the command ends")
}

/// Standard output, and the exit status.
fn said(output: &Output) -> (String, Option<i32>) {
    assert_eq!(String::from_utf8_lossy(&output.stderr), "");
    (String::from_utf8(output.stdout.clone()).expect("text"), output.status.code())
}

/// What stands on standard error, where nothing else is said and the status is 3.
fn failed(output: &Output) -> String {
    assert_eq!((output.stdout.len(), output.status.code()), (0, Some(3)));
    String::from_utf8(output.stderr.clone()).expect("text")
}

/// A file for this test alone.
fn file(name: &str, text: &str) -> PathBuf {
    let path = Path::new(env!("CARGO_TARGET_TMPDIR")).join(name);
    fs::write(&path, text).expect("the file can be written");
    path
}

#[test]
fn the_session_with_names() {
    let session = "\
T0 Session Session
T1 (-> Session Account) (-> Session Account)
T2 (-> Account Bool) (-> Account Bool)
T3 Account Account
T4 Bool Bool
T5 Bool !26
  T5 (locked current): argument 1, current, has sort Session, expected Account (!26)
T6 Bool !20
  T6 holds T5 (locked current): argument 1, current, has sort Session, expected Account (!26)
T7 Bool !26
  T7 (= current (owner current)): argument 2, (owner current), has sort Account, expected Session (!26)
";
    let output = command(&["--names", "examples/session.names", "examples/session.sheet"]).output().expect("it runs");
    assert_eq!(said(&output), (session.to_owned(), Some(1)));
    let manual = recorded::text("rust/explain/napsilo-explain.1");
    let refused: String = session.lines().skip(5).map(|line| format!("{line}\n")).collect();
    assert!(manual.ends_with(&format!("examples/session.sheet\n{refused}.EE\n")), "the manual shows the same");
}

/// The sum of a power and a whole number of steps is not refused, the power and the steps as equals are; the page of the examples shows the same.
#[test]
fn the_prism_with_names() {
    let refused = "\
T10 Bool !26
  T10 (= power steps): argument 2, steps, has sort Int, expected Real (!26)
";
    let output = command(&["--names", "examples/prism.names", "--only-refused", "examples/prism.sheet"]).output();
    assert_eq!(said(&output.expect("it runs")), (refused.to_owned(), Some(1)));
    let shown: String = refused.lines().map(|line| format!("    {line}\n")).collect();
    assert!(recorded::text("examples/README.md").contains(&format!("examples/prism.sheet)\n\n{shown}\n")));
}

/// The join whose touching columns do not agree is refused, and what stands over it; the page of the examples shows the same.
#[test]
fn the_branches_with_names() {
    let join = "(rel.join (set.union runs leases) (set.union runs leases)): argument 2, (set.union runs leases), \
                has sort (Set (Tuple Shop Branch)), expected a set of tuples whose first entry has sort Branch (!26)";
    let refused = format!("T14 (Set (Tuple Shop Branch)) !26\n  T14 {join}\nT15 Bool !20\n  T15 holds T14 {join}\n");
    let output = command(&["--names", "examples/branches.names", "--only-refused", "examples/branches.sheet"]).output();
    assert_eq!(said(&output.expect("it runs")), (refused.clone(), Some(1)));
    let shown: String = refused.lines().map(|line| format!("    {line}\n")).collect();
    assert!(recorded::text("examples/README.md").contains(&format!("examples/branches.sheet)\n\n{shown}\n")));
}

/// A name that looks like a sort, an operator or two words is told from it: the session's sort is not Bool.
#[test]
fn names_that_look_like_something_else() {
    let names = file("alike.names", "1 Bool\n2 (Set Int)\n3 true\n4 owner of\n5 locked\n");
    let names = names.to_str().expect("text");
    let output = command(&["--names", names, "examples/session.sheet"]).output().expect("it runs");
    let (text, status) = said(&output);
    let lines: Vec<&str> = text.lines().collect();
    assert_eq!(lines[..2], ["T0 |Bool| |Bool|", "T1 (-> |Bool| |(Set Int)|) (-> |Bool| |(Set Int)|)"]);
    let reason = "  T5 (locked |true|): argument 1, |true|, has sort |Bool|, expected |(Set Int)| (!26)";
    assert_eq!(lines[5..7], ["T5 Bool !26", reason]);
    assert!(text.contains("(= |true| (|owner of| |true|))"));
    assert_eq!(status, Some(1));
}

/// The numbers of the refused rows or the refused answer on a line of the printout: those of the inferred row and of the checked one.
fn refusals(line: &str) -> Vec<u32> {
    // No text of a sort has an exclamation mark.
    line.split(' ').filter_map(|word| word.strip_prefix('!')).map(|number| number.parse().expect("a number")).collect()
}

/// Holds the output for a sheet to its recorded printout: the same lines, and under each a reason for each refusal on it.
fn hold(output: &str, recorded: &str, sheet: &[u8]) {
    let mut lines = output.lines();
    for line in recorded.lines() {
        assert_eq!(lines.next(), Some(line), "{}", hex(sheet));
        for number in refusals(line) {
            let reason = lines.next().unwrap_or_default();
            if recorded.starts_with('!') {
                assert!(reason.starts_with("  "), "{reason}");
                continue;
            }
            let (_, cause) = reason.rsplit_once(" (!").unwrap_or_else(|| panic!("{line}: {reason} {}", hex(sheet)));
            let told: u32 = cause.trim_end_matches([')']).trim_end_matches(", inferred").parse().expect("a number");
            assert!(reason.starts_with("  ") && (told == number || number == 20 && told != 20), "{line}: {reason}");
        }
    }
    assert_eq!(lines.next(), None, "{}", hex(sheet));
}

#[test]
fn every_recorded_sheet() {
    let mut statuses = [0; 3];
    for vector in recorded::printed() {
        let (text, status) = said(&run(&[], &vector.sheet));
        hold(&text, &vector.text, &vector.sheet);
        let checked_refused =
            |line: &str| line.starts_with('T') && line.rsplit(' ').next().is_some_and(|w| w.starts_with('!'));
        let expected = match vector.text.starts_with('!') {
            true => 2,
            false => usize::from(vector.text.lines().any(checked_refused)),
        };
        assert_eq!(status, i32::try_from(expected).ok(), "{}", hex(&vector.sheet));
        statuses[expected] += 1;
    }
    println!("by status: {statuses:?}");
    assert!(statuses.iter().all(|count| *count > 50), "{statuses:?}");
}

#[test]
fn only_what_is_refused() {
    let kinds = said(&run(&["--only-refused", "examples/kinds.sheet"], &[])).0;
    assert_eq!(kinds.lines().next(), Some("T10 Real !24"));
    assert_eq!(kinds.lines().count(), 2);
    assert_eq!(said(&run(&["--only-refused", "examples/k1.sheet"], &[])), (String::new(), Some(0)));
    // The numbers' examples of docs/FORMAT.md: no line is printed without a refusal, and none with one is missing.
    for vector in format::printed().iter().filter(|vector| !vector.text.starts_with('!')) {
        let refused: Vec<&str> = vector.text.lines().filter(|line| !refusals(line).is_empty()).collect();
        let text = said(&run(&["--only-refused", "-"], &vector.sheet)).0;
        assert_eq!(text.lines().filter(|line| !line.starts_with(' ')).collect::<Vec<&str>>(), refused);
    }
}

#[test]
fn questions_that_continue() {
    // Int, 'n1 and Bool; 'n1 against Int, with n1 given as Int, as Bool and as 'n1.
    let ask = |given: &str| format!("71 03 03 01 00 00 00 01 00 01 01 00 {given} 01 01 00 ");
    let sheet =
        "03 00 00 00 03 00 01 04 03 02 01 00 01 03 ".to_owned() + &["00 00", "02 00", "01 00"].map(ask).concat();
    let barred = "pattern, target or a given sort holds a par or a bit vector of unknown width, \
        or the target or a given sort a listed name";
    let unassigned = "no assignment that keeps what is given turns the pattern into the target";
    let text = format!("Q0 Int\nQ1 !29\n  {unassigned} (!29)\nQ2 !28\n  {barred} (!28)\n");
    assert_eq!(said(&run(&[], &recorded::bytes(&sheet))), (text, Some(0)));
    // A given name that is no parameter.
    let sheet = "01 00 00 00 01 00 01 04 71 03 03 00 00 00 00 00 00 01 01 00 00 00 01 02 00";
    let words =
        "a list length, a number or a name list is outside what its kind takes: question 0, which starts at byte 8";
    assert_eq!(said(&run(&[], &recorded::bytes(sheet))), (format!("!5\n  {words}\n"), Some(2)));
}

#[test]
fn refused_sheets_say_why_and_where() {
    let why = |hex: &str| said(&run(&[], &recorded::bytes(hex)));
    let told = |number: u32, words: &str| (format!("!{number}\n  {words}\n"), Some(2));
    assert_eq!(why("00 00"), told(1, "the sheet is under 6 or over 65,536 bytes: it has 2"));
    assert_eq!(
        why("01 08 00 00 00 00"),
        told(2, "a count of the header is over its limit: 2049 sorts, at most 2048 are taken")
    );
    assert_eq!(why("00 00 01 00 00 00 01"), told(3, "a record runs past the end: term 0, which starts at byte 6"));
    let reference = "01 00 01 00 00 00 01 04 0b 05 01 00 01 00";
    assert_eq!(why(reference), told(6, "a reference is not to an earlier record: term 0, which starts at byte 8"));
    let size = "02 00 00 00 00 00 81 04 01 00 91 0e 01 00 00 03 00";
    let words = "a tree size that is written in a sort record is not the sort's: sort 1, which starts at byte 10";
    assert_eq!(why(size), told(34, words));
    assert_eq!(why("00 00 00 00 00 00 00"), told(7, "bytes stand after the last record: from byte 6 on, of 7"));
    let longest = vec![0; 70_000];
    assert_eq!(said(&run(&[], &longest[..65_537])), told(1, "the sheet is under 6 or over 65,536 bytes: it is longer"));
    assert_eq!(
        said(&run(&[], &longest[..65_536])),
        told(7, "bytes stand after the last record: from byte 6 on, of 65536")
    );
}

#[test]
fn what_cannot_be_read_or_written() {
    assert_eq!(failed(&run(&["no.sheet"], &[])), "napsilo-explain: no.sheet: No such file or directory (os error 2)\n");
    assert_eq!(failed(&run(&["examples"], &[])), "napsilo-explain: examples: Is a directory (os error 21)\n");
    let full = OpenOptions::new().write(true).open("/dev/full").expect("the full device can be opened");
    let output = command(&["examples/k1.sheet"]).stdout(full).stderr(Stdio::piped()).output().expect("it runs");
    assert_eq!(failed(&output), "napsilo-explain: standard output: No space left on device (os error 28)\n");
    let folder = fs::File::open(path("examples")).expect("the folder can be opened");
    let output = command(&[]).stdin(folder).output().expect("it runs");
    assert_eq!(failed(&output), "napsilo-explain: standard input: Is a directory (os error 21)\n");
}

#[test]
fn wrong_arguments_and_names() {
    assert_eq!(failed(&run(&["--colour"], &[])), "napsilo-explain: no option --colour; --help says more\n");
    assert_eq!(failed(&run(&["a", "b"], &[])), "napsilo-explain: more than one sheet; --help says more\n");
    let twice = file("twice.names", "1 a\n1 b\n");
    let output = run(&["--names", twice.to_str().expect("text"), "examples/k1.sheet"], &[]);
    let expected = format!("napsilo-explain: {}: line 2: the number has a name already\n", twice.display());
    assert_eq!(failed(&output), expected);
    assert!(failed(&run(&["--names=none.names"], &[])).starts_with("napsilo-explain: none.names: No such file"));
}

#[test]
fn help_and_version() {
    let (help, status) = said(&run(&["--help"], &[]));
    assert_eq!(status, Some(0));
    let manual = recorded::text("rust/explain/napsilo-explain.1").replace('\\', "");
    for option in ["--names", "--only-refused", "--color", "--help", "--version"] {
        assert!(help.contains(&format!("\n  {option}")) && manual.contains(option), "{option}");
    }
    let version = format!("napsilo-explain {}\n", env!("CARGO_PKG_VERSION"));
    assert_eq!(said(&run(&["--version"], &[])), (version, Some(0)));
    assert!(manual.contains(&format!("\"napsilo {}\"", env!("CARGO_PKG_VERSION"))));
}

#[test]
fn colours_where_they_are_asked_for() {
    let colored = said(&run(&["--color=always", "examples/kinds.sheet"], &[])).0;
    assert!(colored.contains("\n\x1b[1mT10\x1b[0m Real \x1b[1;31m!24\x1b[0m\n"), "{colored}");
    let plain = said(&run(&["examples/kinds.sheet"], &[])).0;
    assert!(!plain.contains('\x1b'), "a pipe is no terminal");
    assert_eq!(colored.replace("\x1b[1m", "").replace("\x1b[1;31m", "").replace("\x1b[0m", ""), plain);
}

#[test]
fn the_manual_is_set_without_a_warning() {
    let mut groff = Command::new("groff");
    groff.args(["-man", "-Tascii", "-ww"]).arg(path("rust/explain/napsilo-explain.1"));
    let Ok(output) = groff.output() else {
        recorded::skipped("there is no groff");
        return;
    };
    assert_eq!(String::from_utf8_lossy(&output.stderr), "");
    let page = String::from_utf8_lossy(&output.stdout).replace("\x08", "");
    assert!(page.contains("Session"), "{page}");
}
