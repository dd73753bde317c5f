//! The forms of the recorded files. What is not of its form panics: the files are this repository's own.

use crate::Buffers;

/// The bytes of a hexadecimal text; blanks are passed over.
///
/// # Panics
/// If something else stands in it, or half a byte.
pub fn bytes(hex: &str) -> Vec<u8> {
    let digits: Vec<u8> = hex.bytes().filter(|byte| !byte.is_ascii_whitespace()).collect();
    let byte = |pair: &[u8]| {
        let pair = std::str::from_utf8(pair).expect("digits");
        assert!(pair.len() == 2, "two digits a byte");
        u8::from_str_radix(pair, 16).expect("hexadecimal digits")
    };
    digits.chunks(2).map(byte).collect()
}

/// Bytes in hexadecimal.
pub fn hex(bytes: &[u8]) -> String {
    bytes.iter().map(|byte| format!("{byte:02x}")).collect()
}

/// The lines behind each line `# k`, with their newlines, in order.
pub(crate) fn numbered(text: &str) -> Vec<Vec<&str>> {
    let mut all: Vec<Vec<&str>> = Vec::new();
    for line in text.split_inclusive('\n') {
        match line.strip_prefix("# ") {
            Some(number) => {
                assert_eq!(number.trim_end().parse(), Ok(all.len()), "the numbers follow each other");
                all.push(Vec::new());
            }
            None => all.last_mut().expect("a number comes first").push(line),
        }
    }
    all
}

/// The blocks of lines that empty lines part.
pub(crate) fn blocks(text: &str) -> Vec<Vec<&str>> {
    let lines = |block: &'_ str| -> bool { !block.trim().is_empty() };
    text.split("\n\n").filter(|block| lines(block)).map(|block| block.trim_matches('\n').lines().collect()).collect()
}

/// Numbers with blanks between them.
pub(crate) fn numbers(text: &str) -> Vec<u32> {
    text.split_whitespace().map(|number| number.parse().expect("a number")).collect()
}

/// What the five lines outcome, records, places, rows and answers say.
pub(crate) fn buffers_of(sheet: Vec<u8>, lent: [usize; 4], lines: &[&str]) -> Buffers {
    let [outcome, records, places, rows, answers] = lines else {
        panic!("five lines: {lines:?}");
    };
    let behind = |line: &str, label: &str| line.trim().strip_prefix(label).expect("the label").to_owned();
    Buffers {
        sheet,
        lent,
        outcome: behind(outcome, "outcome").trim().parse().expect("a number"),
        records: bytes(&behind(records, "records")),
        places: numbers(&behind(places, "places")),
        rows: numbers(&behind(rows, "rows")),
        answers: numbers(&behind(answers, "answers")),
    }
}
