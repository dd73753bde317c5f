//! Pages written by hand, and the pages of recorded sheets taken apart again.

use model::page::write_rows;
use model::{page, printout};
use recorded::{bytes, hex};
use std::thread;

/// A text that just fits its column.
const FITS: &str = "abcdefghijklmnopqrstuvwxyz0123456789";

/// The longest printout that is taken apart: pages of some sheets have gigabytes.
const LONGEST: usize = 4 << 20;

/// The pages of these rows.
fn of_rows<T: AsRef<str>>(rows: &[[T; 2]]) -> String {
    let mut out = Vec::new();
    let texts = rows.iter().map(|row| row.each_ref().map(|text| text.as_ref().to_owned()));
    write_rows(texts, &mut out).expect("memory takes all");
    String::from_utf8(out).expect("a page is ASCII")
}

/// These lines, as they were written by hand, and so many lines of 80 blanks.
fn page_of(lines: &[&str], blanks: usize) -> String {
    let blank = " ".repeat(80);
    let all = lines.iter().copied().chain(std::iter::repeat_n(blank.as_str(), blanks));
    all.map(|line| format!("{line}\n")).collect()
}

/// Runs on a stack that the model's recursion over the deepest recorded sorts fits.
fn on_stack(run: fn()) {
    let thread = thread::Builder::new().stack_size(256 << 20).spawn(run);
    if let Err(panic) = thread.expect("a thread starts").join() {
        std::panic::resume_unwind(panic);
    }
}

#[test]
fn short_texts() {
    let lines = [
        "     0 Int                                  Int                                 ",
        "     1 Bool                                 !26                                 ",
    ];
    assert_eq!(of_rows(&[["Int", "Int"], ["Bool", "!26"]]), page_of(&lines, 58));
}

#[test]
fn a_text_of_36_bytes_is_one_line() {
    let lines = ["     0 abcdefghijklmnopqrstuvwxyz0123456789 abcdefghijklmnopqrstuvwxyz0123456789"];
    assert_eq!(of_rows(&[[FITS, FITS]]), page_of(&lines, 59));
    let lines = ["     0 abcdefghijklmnopqrstuvwxyz0123456789 !20                                 "];
    assert_eq!(of_rows(&[[FITS, "!20"]]), page_of(&lines, 59));
}

#[test]
fn a_text_of_37_bytes_goes_on_below_in_its_own_column() {
    let longer = format!("{FITS}+");
    let lines = [
        "     0 abcdefghijklmnopqrstuvwxyz0123456789 abcdefghijklmnopqrstuvwxyz0123456789",
        "       +                                                                        ",
        "     1 abcdefghijklmnopqrstuvwxyz0123456789 abcdefghijklmnopqrstuvwxyz0123456789",
        "                                            +                                   ",
        "     2 abcdefghijklmnopqrstuvwxyz0123456789 abcdefghijklmnopqrstuvwxyz0123456789",
        "       +                                    +                                   ",
        "     3 !21                                  !20                                 ",
    ];
    let rows = [[longer.as_str(), FITS], [FITS, longer.as_str()], [longer.as_str(); 2], ["!21", "!20"]];
    assert_eq!(of_rows(&rows), page_of(&lines, 53));
}

#[test]
fn a_row_is_as_high_as_its_longer_text() {
    let two = FITS.repeat(2);
    let longer = format!("{two}+");
    let lines = [
        "     0 abcdefghijklmnopqrstuvwxyz0123456789 Int                                 ",
        "       abcdefghijklmnopqrstuvwxyz0123456789                                     ",
        "     1 Int                                  abcdefghijklmnopqrstuvwxyz0123456789",
        "                                            abcdefghijklmnopqrstuvwxyz0123456789",
        "                                            +                                   ",
        "     2 abcdefghijklmnopqrstuvwxyz0123456789 abcdefghijklmnopqrstuvwxyz0123456789",
        "       abcdefghijklmnopqrstuvwxyz0123456789 abcdefghijklmnopqrstuvwxyz0123456789",
        "       +                                                                        ",
    ];
    assert_eq!(of_rows(&[[two.as_str(), "Int"], ["Int", &longer], [&longer, &two]]), page_of(&lines, 52));
}

#[test]
fn sixty_lines_make_a_page() {
    let line = |number: usize| {
        format!("{number:>6} Int                                  Int                                 \n")
    };
    let rows = |count: usize| vec![["Int", "Int"]; count];
    let lines = |count: usize| (0..count).map(line).collect::<String>();
    assert_eq!(of_rows(&rows(59)), lines(59) + &page_of(&[], 1));
    assert_eq!(of_rows(&rows(60)), lines(60));
    assert_eq!(of_rows(&rows(61)), lines(61) + &page_of(&[], 59));
    assert_eq!(of_rows(&rows(120)), lines(120));
    assert_eq!(of_rows(&rows(121)).lines().count(), 180);
    assert!(of_rows(&rows(4_096)).starts_with(&lines(4_096)));
}

#[test]
fn a_row_runs_over_the_end_of_a_page() {
    let long = FITS.repeat(3);
    let mut rows = vec![["Int", "Int"]; 58];
    rows.push([&long, "Int"]);
    let all = of_rows(&rows);
    let lines: Vec<&str> = all.lines().collect();
    assert_eq!(lines.len(), 120);
    assert_eq!(lines[58], "    58 abcdefghijklmnopqrstuvwxyz0123456789 Int                                 ");
    assert_eq!(lines[59], "       abcdefghijklmnopqrstuvwxyz0123456789                                     ");
    assert_eq!(lines[60], "       abcdefghijklmnopqrstuvwxyz0123456789                                     ");
    assert!(lines[61..].iter().all(|line| *line == " ".repeat(80)));
}

#[test]
fn without_rows_there_is_no_page() {
    assert_eq!(of_rows::<&str>(&[]), "");
    // No records at all; Int, and the question whether it is compatible with Int.
    assert_eq!(page(&bytes("0000 0000 0000")), "");
    let asked = bytes("0100 0000 0100 0104 1100 02 0000 0000");
    assert_eq!((printout(&asked).as_str(), page(&asked).as_str()), ("Q0 yes\n", ""));
}

#[test]
fn questions_are_not_printed() {
    let sheet = recorded::read("examples/k1.sheet");
    assert!(printout(&sheet).ends_with("Q0 yes\n"));
    let lines = [
        "     0 Int                                  Int                                 ",
        "     1 Int                                  Int                                 ",
    ];
    assert_eq!(page(&sheet), page_of(&lines, 58));
}

#[test]
fn a_refused_sheet_has_its_line_alone() {
    assert_eq!(page(&[]), "!1\n");
    assert_eq!(page(&bytes("0000 0000 0000 00")), "!7\n");
    assert_eq!(page(&bytes("0100 0000 0000 0180")), "!4\n");
}

#[test]
fn a_blank_at_a_break_belongs_to_the_text() {
    // Int, Bool and two functions, as variables: the 36th byte of the first one's text is a blank, the 37th of the second one's.
    let first = bytes("1100 09 0000 0000 0000 0000 0000 0000 0000 0000 0100");
    let second = bytes("1100 09 0000 0000 0000 0000 0000 0000 0000 0100 0000");
    let sheet = [bytes("0400 0200 0000 0104 0103"), first, second, bytes("0b05 0100 0200 0b05 0100 0300")].concat();
    let lines = [
        "     0 (-> Int Int Int Int Int Int Int Int  (-> Int Int Int Int Int Int Int Int ",
        "       Bool)                                Bool)                               ",
        "     1 (-> Int Int Int Int Int Int Int Bool (-> Int Int Int Int Int Int Int Bool",
        "        Int)                                 Int)                               ",
    ];
    assert_eq!(page(&sheet), page_of(&lines, 56));
}

#[test]
fn the_example() {
    let lines = [
        "     0 n1                                   n1                                  ",
        "     1 (-> n1 n2)                           (-> n1 n2)                          ",
        "     2 (-> n2 Bool)                         (-> n2 Bool)                        ",
        "     3 n2                                   n2                                  ",
        "     4 Bool                                 Bool                                ",
        "     5 Bool                                 !26                                 ",
        "     6 Bool                                 !20                                 ",
        "     7 Bool                                 !26                                 ",
    ];
    assert_eq!(page(&recorded::read("examples/session.sheet")), page_of(&lines, 52));
}

/// A column's pieces put together, without the blanks that fill.
fn joined(lines: &[&str], from: usize, to: usize) -> String {
    lines.iter().map(|line| &line[from..to]).collect::<String>().trim_end().to_owned()
}

/// The printout's lines of rows, from a page: what stands between two numbers is a row.
fn taken_apart(page: &str) -> String {
    let lines: Vec<&str> = page.lines().collect();
    assert!(lines.len().is_multiple_of(60) && lines.iter().all(|line| line.len() == 80));
    let starts = |at: &usize| lines[*at][..6].trim() != "";
    let firsts: Vec<usize> = (0..lines.len()).filter(starts).collect();
    let ends = firsts.iter().skip(1).copied().chain([lines.len()]);
    let row = |(first, end): (&usize, usize)| {
        let lines = &lines[*first..end];
        format!("T{} {} {}\n", lines[0][..6].trim_start(), joined(lines, 7, 43), joined(lines, 44, 80))
    };
    firsts.iter().zip(ends).map(row).collect()
}

/// Holds a page to the printout of its sheet: the line of a refused one, and rows that joined pieces give again.
fn holds(sheet: &[u8], page: &str, printout: &str) {
    if printout.starts_with('!') {
        assert_eq!(page, printout, "{}", hex(sheet));
    } else {
        let rows: String = printout.split_inclusive('\n').filter(|line| line.starts_with('T')).collect();
        assert_eq!(taken_apart(page), rows, "{}", hex(sheet));
    }
}

#[test]
fn recorded_sheets_taken_apart_again() {
    on_stack(|| {
        let mut lines = 0;
        for vector in recorded::printed().iter().filter(|vector| vector.text.len() < LONGEST) {
            let page = page(&vector.sheet);
            holds(&vector.sheet, &page, &vector.text);
            lines += page.lines().count();
        }
        println!("{lines} lines");
        assert!(lines > 60_000);
    });
}

#[test]
fn recorded_pages() {
    on_stack(|| {
        for vector in recorded::paged() {
            assert_eq!(page(&vector.sheet), vector.text, "{}", hex(&vector.sheet));
            holds(&vector.sheet, &vector.text, &printout(&vector.sheet));
        }
    });
}

#[test]
fn the_example_is_what_the_gate_runs() {
    let sheet = recorded::read("crates/napsilo_page/stdin");
    assert_eq!(sheet, recorded::read("examples/session.sheet"));
    assert_eq!(page(&sheet), recorded::text("crates/napsilo_page/stdout"));
}
