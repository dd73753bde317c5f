//! What the example prints, and that it is what the READMEs show.

use std::cell::RefCell;

thread_local! {
    /// The lines that the example printed.
    static LINES: RefCell<Vec<String>> = const { RefCell::new(Vec::new()) };
}

/// The example, with its lines kept.
mod walk {
    macro_rules! println {
        ($($text:tt)*) => { super::LINES.with_borrow_mut(|lines| lines.push(format!($($text)*))) };
    }

    include!("../examples/walk.rs");

    /// Runs the example.
    pub fn run() {
        main();
    }
}

/// The lines that a README has indented, without the indentation.
fn indented(readme: &str) -> Vec<&str> {
    readme.lines().filter_map(|line| line.strip_prefix("    ")).collect()
}

#[test]
fn what_the_example_prints() {
    walk::run();
    let lines = LINES.take();
    let of_step = |id: &str| -> Vec<&str> {
        let is_head = |line: &&str| !line.starts_with(' ');
        let from = lines.iter().map(String::as_str).skip_while(|line| !line.starts_with(id));
        let (head, rest) = (from.clone().take(1), from.skip(1).take_while(|line| !is_head(line)));
        head.chain(rest.map(str::trim_start)).collect()
    };
    let mixed = [
        "t3: (not (locked current)) has no checked sort",
        "(locked current): argument 1, current, has sort Session, expected Account (!26)",
        "carcara infers Bool",
    ];
    assert_eq!(of_step("t3"), mixed);
    assert_eq!(of_step("t4")[1..], ["not judged: a tester of a datatype", "and no inferred one"]);
    let words = "no sheet can say the term: a list length, a number or a name list is outside what its kind takes";
    assert_eq!(of_step("t5")[1..], [&format!("{words} (!5)"), "and no inferred one"]);
    let part = "(=> (locked ..) (closed current))";
    let sum = format!("(+ 5 {part}): argument 2, {part}, has sort Bool, expected Int or Real (!26)");
    assert_eq!(of_step("t6")[1..], [&sum, "carcara infers Bool"]);
    // The steps before have sorts.
    assert_eq!(lines.first().map(String::as_str), Some(mixed[0]));
    assert_eq!(lines.len(), 12);
    let shown = lines[..3].join("\n");
    let own = indented(include_str!("../README.md")).join("\n");
    assert!(own.contains(&shown), "the README of this crate shows\n{shown}");
    let root = indented(include_str!("../../../README.md"));
    assert!(root.contains(&mixed[1]), "the first README shows\n{}", mixed[1]);
}
