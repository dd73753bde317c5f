//! Runs the model on recorded sheets: those of the repository and of docs/FORMAT.md, and those of the folder that `NAPSILO_VECTORS` names.

use model::operator::{INDEXED, OPERATORS};
use model::{judge, printout};
use recorded::{format, hex, ranks};
use std::thread;

/// Runs on a stack that the model's recursion over the deepest recorded sorts fits.
fn on_stack(run: fn()) {
    let thread = thread::Builder::new().stack_size(256 << 20).spawn(run);
    if let Err(panic) = thread.expect("a thread starts").join() {
        std::panic::resume_unwind(panic);
    }
}

#[test]
fn program() {
    on_stack(|| {
        let sheets = recorded::printed();
        for vector in &sheets {
            assert_eq!(printout(&vector.sheet), vector.text, "{}", hex(&vector.sheet));
        }
        println!("{} sheets printed", sheets.len());
    });
}

#[test]
fn library() {
    on_stack(|| {
        let sheets = recorded::buffers();
        for vector in &sheets {
            let [records, places, rows, answers] = vector.lent;
            let judged = judge(&vector.sheet, records, places, rows, answers);
            assert_eq!(u32::from(judged.number), vector.outcome, "{}", hex(&vector.sheet));
            assert_eq!(hex(&judged.records), hex(&vector.records), "{}", hex(&vector.sheet));
            assert_eq!(judged.places, vector.places, "{}", hex(&vector.sheet));
            assert_eq!(judged.rows, vector.rows, "{}", hex(&vector.sheet));
            assert_eq!(judged.answers, vector.answers, "{}", hex(&vector.sheet));
        }
        println!("{} sheets with all buffers", sheets.len());
    });
}

#[test]
fn the_table_of_ranks() {
    let sheets = ranks::sheets();
    for ranked in &sheets {
        let text = printout(&ranked.sheet);
        assert!(ranked.is_in(&text), "{text}not {ranked:?}");
    }
    println!("{} terms", sheets.len());
    assert!(sheets.len() > 400);
}

#[test]
fn the_operators_of_the_page_are_all_in_order() {
    let listed = format::operators("Operators");
    let names: Vec<String> = OPERATORS.iter().map(|operator| format!("{operator:?}")).collect();
    assert!(listed.iter().map(|(_, name, _)| name).eq(&names));
    assert!(listed.iter().map(|(number, _, _)| *number).eq(0..135));
    assert_eq!(format::operators("Indexed operators").len(), INDEXED.len());
}
