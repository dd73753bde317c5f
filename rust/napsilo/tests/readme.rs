//! The program of the README: it is the example that is built here, and it prints what stands below it.

use std::cell::RefCell;

thread_local! {
    /// The lines that the program printed.
    static LINES: RefCell<Vec<String>> = const { RefCell::new(Vec::new()) };
}

/// The example, with its lines kept.
mod first {
    macro_rules! println {
        ($($text:tt)*) => { super::LINES.with_borrow_mut(|lines| lines.push(format!($($text)*))) };
    }

    include!("../examples/first.rs");

    /// Runs the program.
    pub fn run() {
        main().expect("the program ends well");
    }
}

/// The first indented block of the README behind some text, without the indentation.
fn block(behind: &str) -> String {
    let readme = recorded::text("README.md");
    let (_, rest) = readme.split_once(behind).unwrap_or_else(|| panic!("the README has {behind}"));
    let lines = rest.lines().skip_while(|line| !line.starts_with("    "));
    let indented = lines.take_while(|line| line.is_empty() || line.starts_with("    "));
    let text: Vec<&str> = indented.map(|line| line.get(4..).unwrap_or("")).collect();
    text.join("\n").trim_end().to_owned()
}

#[test]
fn the_program_of_the_readme() {
    let example = include_str!("../examples/first.rs");
    let (_, program) = example.split_once("\n\n").expect("a program behind the comment");
    assert_eq!(block("and its `src/main.rs`"), program.trim_end());
}

#[test]
fn what_it_prints() {
    first::run();
    assert_eq!(LINES.take(), [block("`cargo run` prints")]);
}
