//! The rows on pages: recorded pages, whole and in pieces of several lengths, and pages held to the printout.

use napsilo::{
    Name, Names, PAGE_LINE, PAGE_LINES, SheetWriter, SortRecord, TermRecord, page, page_into, print, print_into,
};
use recorded::hex;

/// Lengths of buffers: a line and a byte less, two lines and a byte less, a page, and one that no number of lines fills.
const LENGTHS: [usize; 6] =
    [PAGE_LINE, 2 * PAGE_LINE - 1, 2 * PAGE_LINE, 1_000, PAGE_LINES * PAGE_LINE, PAGE_LINES * PAGE_LINE + 80];

/// The most pieces that are asked for of a page: the sheet is judged anew for each.
const MOST_PIECES: usize = 300;

/// The longest printout that is held to its pages.
const LONGEST: usize = 1 << 20;

/// The whole lines of a text from a number on that fit a buffer of this length.
fn fitting(text: &str, from: usize, length: usize) -> &str {
    let start = text.split_inclusive('\n').take(from).map(str::len).sum();
    let rest = &text[start..];
    let most = &rest[..length.min(rest.len())];
    &rest[..most.rfind('\n').map_or(0, |at| at + 1)]
}

/// The pages from a line on, in a dirty buffer of this length: what was written.
fn piece(sheet: &[u8], from: usize, length: usize) -> String {
    let mut out = vec![0xa5; length];
    let end = page_into(sheet, from, &mut out);
    assert!(out[end..].iter().all(|byte| *byte == 0xa5), "what lies behind is as it was");
    out.truncate(end);
    String::from_utf8(out).expect("ASCII")
}

/// The pages in pieces of a buffer of this length.
fn in_pieces(sheet: &[u8], length: usize) -> String {
    let mut text = String::new();
    loop {
        let next = piece(sheet, text.matches('\n').count(), length);
        if next.is_empty() {
            return text;
        }
        text += &next;
    }
}

#[test]
fn recorded_pages() {
    let sheets = recorded::paged();
    let mut lines = 0;
    for vector in &sheets {
        assert_eq!(page(&vector.sheet), vector.text, "{}", hex(&vector.sheet));
        for length in LENGTHS.into_iter().filter(|length| vector.text.len() / length <= MOST_PIECES) {
            assert_eq!(in_pieces(&vector.sheet, length), vector.text, "{length}, {}", hex(&vector.sheet));
        }
        lines += vector.text.lines().count();
    }
    println!("{} sheets, {lines} lines", sheets.len());
    assert!(lines > 10_000);
}

#[test]
fn from_lines_anywhere() {
    for vector in recorded::paged() {
        let lines = vector.text.lines().count();
        // The first and the last ones, those round the end of a page, some that stand below the first of a row, and some others.
        let near = [0, 1, 2, PAGE_LINES - 1, PAGE_LINES, PAGE_LINES + 1, lines.saturating_sub(1), lines, lines + 1];
        let below = |(_, line): &(usize, &str)| line.starts_with("      ") && line.trim() != "";
        let below = vector.text.lines().enumerate().filter(below).map(|(at, _)| at).take(40);
        for from in near.into_iter().chain(below).chain((0..lines).step_by(37)) {
            for length in [0, 3, PAGE_LINE - 1, PAGE_LINE, PAGE_LINE + 80, 5 * PAGE_LINE, PAGE_LINES * PAGE_LINE] {
                let expected = fitting(&vector.text, from, length);
                assert_eq!(piece(&vector.sheet, from, length), expected, "{from}, {length}, {}", hex(&vector.sheet));
            }
        }
        assert_eq!(piece(&vector.sheet, usize::MAX, 200), "");
    }
}

/// A column's pieces put together, without the blanks that fill.
fn joined(lines: &[&str], from: usize, to: usize) -> String {
    lines.iter().map(|line| &line[from..to]).collect::<String>().trim_end().to_owned()
}

/// The lines of the printout that a page gives again.
fn taken_apart(page: &str) -> String {
    let lines: Vec<&str> = page.lines().collect();
    assert!(lines.len().is_multiple_of(PAGE_LINES) && lines.iter().all(|line| line.len() + 1 == PAGE_LINE));
    let firsts: Vec<usize> = (0..lines.len()).filter(|at| lines[*at][..6].trim() != "").collect();
    let ends = firsts.iter().skip(1).copied().chain([lines.len()]);
    let row = |(first, end): (&usize, usize)| {
        let lines = &lines[*first..end];
        format!("T{} {} {}\n", lines[0][..6].trim_start(), joined(lines, 7, 43), joined(lines, 44, 80))
    };
    firsts.iter().zip(ends).map(row).collect()
}

#[test]
fn joined_pieces_are_the_printout() {
    for vector in recorded::printed().iter().filter(|vector| vector.text.len() < LONGEST) {
        let page = page(&vector.sheet);
        if vector.text.starts_with('!') {
            assert_eq!(page, vector.text, "{}", hex(&vector.sheet));
            continue;
        }
        let rows: String = vector.text.split_inclusive('\n').filter(|line| line.starts_with('T')).collect();
        assert_eq!(taken_apart(&page), rows, "{}", hex(&vector.sheet));
    }
}

/// A term whose text has some hundred thousand bytes, between two of Int: from lines in its middle on, and over its end.
#[test]
fn a_long_row() {
    let mut sheet = SheetWriter::new();
    let int = sheet.add_sort(SortRecord::Int).expect("a sort");
    let names: Vec<Name> = (0..64).map(|at| Name::new(60_000 + at)).collect();
    let mut sort = int;
    for _ in 0..40 {
        sort = sheet.add_sort(SortRecord::Par(&names, sort)).expect("a sort");
    }
    let sort = sheet.add_sort(SortRecord::Tuple(&[sort; 30])).expect("a sort");
    let name = Names::new().name("x").expect("a name");
    for sort in [int, sort, int] {
        sheet.add_term(TermRecord::Var(name, sort)).expect("a term");
    }
    let sheet = sheet.finish();
    let pages = page(&sheet);
    let printed = print(&sheet);
    assert!(printed.len() > 500_000);
    assert_eq!(taken_apart(&pages), printed);
    let lines = pages.lines().count();
    for from in [1, 2, 60, 7_777, lines / 2, lines - 70, lines - 61] {
        for length in [80, 81, 161, 4_860, 100_000] {
            assert_eq!(piece(&sheet, from, length), fitting(&pages, from, length), "{from}, {length}");
        }
    }
    // Both texts, by the two functions over one dirty buffer.
    let mut out = vec![0xa5; 100];
    assert_eq!(print_into(&sheet, 0, &mut out), 11);
    assert_eq!(page_into(&sheet, 0, &mut out), PAGE_LINE);
}

#[test]
fn no_rows_and_refused_sheets() {
    assert_eq!(page(&[0; 6]), "");
    assert_eq!(piece(&[0; 6], 0, 1_000), "");
    assert_eq!(page(&[0; 7]), "!7\n");
    assert_eq!([2, 3, 4].map(|length| piece(&[0; 7], 0, length)), ["", "!7\n", "!7\n"]);
    assert_eq!(piece(&[0; 7], 1, 1_000), "");
}

/// The rows of a page of one sheet must be the indented lines that come next in a document, with blanks filled up; lines of blanks follow.
fn shown(sheet: &[u8], document: &str) {
    let mut lines: Vec<&str> = document
        .lines()
        .skip_while(|line| !line.starts_with("    "))
        .take_while(|line| line.starts_with("    "))
        .collect();
    assert!(!lines.is_empty());
    let pages = page(sheet);
    assert_eq!(pages.lines().count(), PAGE_LINES);
    lines.resize(PAGE_LINES, "    ");
    for (line, shown) in pages.lines().zip(lines) {
        assert_eq!(line, format!("{:<80}", &shown[4..]));
    }
}

#[test]
fn pages_in_the_documents() {
    let format = recorded::text("docs/FORMAT.md");
    let (_, pages) = format.split_once("\n## The pages\n").expect("the section on pages");
    let (_, example) = pages.split_once("The sheet `").expect("an example");
    let (bytes, behind) = example.split_once('`').expect("its bytes");
    let sheet: Vec<u8> = bytes.split(' ').map(|byte| u8::from_str_radix(byte, 16).expect("a byte")).collect();
    shown(&sheet, behind);

    let readme = recorded::text("README.md");
    let (_, behind) =
        readme.split_once("(cd crates/napsilo_page && rt run < ../../examples/session.sheet)\n").expect("the command");
    shown(&recorded::read("examples/session.sheet"), behind);
}
