//! A small trial; the program `beside` makes larger ones. And the wrapper's operators are carcara's.

use beside::batched::Batched;
use beside::random::Random;
use beside::{Trial, make};
use oracle::ast::lists::{BINDERS, INDEXED, OPERATORS, QUALIFIED};
use std::fmt::{Debug, Display};

#[test]
fn library_model_and_carcara_agree() {
    let mut trial = Trial::default();
    let mut random = Random::new(20_260_401);
    let done = oracle::on_stack(|| {
        for _ in 0..400 {
            let sheet = make::sheet(&mut random);
            trial.sheet(&sheet, &mut random, 2)?;
            let damaged = make::damaged(&mut random, &sheet);
            trial.sheet(&damaged, &mut random, 1)?;
            let sized = make::sized(&mut random, &sheet);
            trial.sheet(&sized, &mut random, 1)?;
            let wrong = make::wrong(&mut random, &sheet);
            trial.sheet(&wrong, &mut random, 2)?;
        }
        Ok(())
    });
    println!("{}", trial.summary());
    assert_eq!(done, Ok::<(), String>(()));
    // A written size is wrong, cut short, or stands where none may.
    assert!([34, 3, 4].iter().all(|number| trial.sheets[*number] > 0));
    // With little room a wrong one is told, or a sort before it without room.
    assert!([34, 10].iter().all(|number| trial.lent[*number] > 0));
    // Each cause is met, and enough terms fit.
    assert!(trial.checked[0] * 3 > trial.checked.iter().sum());
    for number in [20, 21] {
        assert!(trial.inferred[number] > 0);
    }
    for number in [20, 24, 25, 26, 27, 28] {
        assert!(trial.checked[number] > 0);
    }
    for number in [28, 29] {
        assert!(trial.answers[number] > 0);
    }
    assert!(trial.lent_rows[23] > 0);
}

/// The cases of an enum of operators by their names and symbols.
fn shown<T: Debug + Display>(operators: &[T]) -> Vec<(String, String)> {
    operators.iter().map(|operator| (format!("{operator:?}"), operator.to_string())).collect()
}

/// The names of the cases alone.
fn named<T: Debug>(operators: &[T]) -> Vec<String> {
    operators.iter().map(|operator| format!("{operator:?}")).collect()
}

/// What came of so many sheets of a seed, each over the program's buffers and over `others` lent lengths; no difference.
fn tried(seed: u64, count: usize, others: usize, make: fn(&mut Random) -> Vec<u8>) -> Trial {
    let mut trial = Trial::default();
    let mut random = Random::new(seed);
    let done = oracle::on_stack(|| {
        (0..count).try_for_each(|_| {
            let sheet = make(&mut random);
            trial.sheet(&sheet, &mut random, others)
        })
    });
    println!("{}", trial.summary());
    assert_eq!(done, Ok::<(), String>(()));
    trial
}

#[test]
fn int_and_real_beside_each_other() {
    let trial = tried(61, 300, 1, make::numbers);
    assert!([0, 20, 25, 26].iter().all(|number| trial.checked[*number] > 100));
}

#[test]
fn sets_and_relations() {
    let trial = tried(62, 300, 1, make::relations);
    assert!([0, 25, 26].iter().all(|number| trial.checked[*number] > 100));
    assert!([20, 22, 28].iter().all(|number| trial.checked[*number] > 10));
}

#[test]
fn matching_that_continues() {
    let trial = tried(63, 400, 2, make::continued);
    assert!([0, 28, 29].iter().all(|number| trial.answers[*number] > 100));
    assert!(trial.answers[22] > 0 && trial.lent_rows[23] > 10 && trial.sheets[5] > 10);
}

#[test]
fn sorts_past_the_limit_with_sizes() {
    let trial = tried(9, 60, 1, make::over);
    assert!(trial.sheets[9] > 10 && trial.sheets[34] > 10);
}

#[test]
fn a_store_that_is_nearly_full() {
    let trial = tried(34, 12, 0, make::heavy);
    assert!(trial.sheets[0] > 0 && trial.sheets[10] > 0);
}

#[test]
fn operators_are_carcaras() {
    assert_eq!(shown(napsilo::Operator::ALL), shown(&OPERATORS));
    // The last two are left out: the tester of a datatype and the selection from a tuple.
    assert_eq!(shown(napsilo::ParamOperator::ALL), shown(&INDEXED[..12]));
    assert_eq!(INDEXED.len(), 14);
    assert_eq!(shown(napsilo::QualifiedOperator::ALL), shown(&QUALIFIED));
    assert_eq!(named(napsilo::Binder::ALL), named(&BINDERS));
}

#[test]
fn batches_agree() {
    let mut batched = Batched::default();
    let (mut random, mut source) = (Random::new(5), compare::random::Source::new(5));
    let done = oracle::on_stack(|| {
        (0..1_000).try_for_each(|_| {
            batched.sheet(&make::sheet(&mut random), &mut random)?;
            batched.sheet(&compare::random::sheet(&mut source), &mut random)
        })
    });
    println!("{}", batched.summary());
    assert_eq!(done, Ok::<(), String>(()));
    // Several sheets to one, and each cause is met in both rows.
    assert!(batched.taken > 5 * batched.sheets[0] as u64);
    assert!([0, 20, 21, 22].iter().all(|number| batched.rows[0][*number] > 0));
    assert!([0, 20, 22, 24, 25, 26, 27, 28].iter().all(|number| batched.rows[1][*number] > 0));
}
