//! The oracle and the model agree on the sweep and on random sheets.

use compare::random::Source;
use compare::{Counts, random, sweep};

#[test]
fn on_the_sweep() {
    let counts = oracle::on_stack(|| {
        let mut counts = Counts::default();
        sweep::sheets(&mut |sheet| counts.compare(sheet, None).expect("no program is run"));
        counts
    });
    println!("{}", counts.summary());
    assert_eq!(counts.refused, 0);
    assert!(counts.differences.is_empty(), "{}", counts.differences.join("\n"));
}

#[test]
fn on_random_sheets() {
    let counts = oracle::on_stack(|| {
        let mut counts = Counts::default();
        let mut source = Source::new(1);
        for _ in 0..4_000 {
            let sheet = random::sheet_or_wrong(&mut source);
            counts.compare(&sheet, None).expect("no program is run");
        }
        counts
    });
    println!("{}", counts.summary());
    assert!(counts.differences.is_empty(), "{}", counts.differences.join("\n"));
}
