//! docs/FORMAT.md agrees with the example files and with itself. What its sheets give is tried by rust/model and rust/napsilo.

use recorded::format::{TAKEN_APART, all_numbers, every_kind, quoted, taken_apart};
use recorded::{hex, read};

#[test]
fn the_sheets_taken_apart_are_the_files() {
    for file in TAKEN_APART {
        assert_eq!(hex(&taken_apart(file).sheet), hex(&read(file)), "{file}");
    }
    assert_eq!(hex(&every_kind().sheet), hex(&read("examples/kinds.sheet")));
}

#[test]
fn every_number_has_an_example_that_shows_it() {
    let mut shown = Vec::new();
    for row in all_numbers() {
        let number: u32 = row[0].parse().expect("a number");
        let gives = quoted(&row[4])[0];
        let refused = gives.split([' ', '/']).any(|word| word == format!("!{number}"));
        let outcome = gives == format!("outcome {number}");
        let coded = gives.split(' ').any(|word| word == (number << 16).to_string());
        assert!(refused || outcome || coded, "{row:?}");
        shown.push(number);
    }
    shown.dedup();
    assert_eq!(shown, (1..=10).chain(20..=29).chain([34]).collect::<Vec<u32>>());
}

#[test]
fn the_recorded_files_are_whole() {
    assert!(recorded::printed().len() > 1_830);
    assert!(recorded::buffers().len() > 244);
    assert_eq!(recorded::paged().len(), 104);
}
