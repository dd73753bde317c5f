//! Explanations of refused rows, on recorded, swept and random sheets. The program `beside explain` makes larger trials.

use beside::explained::Explained;
use beside::make;
use beside::random::Random;
use compare::random::{Source, sheet};
use std::path::PathBuf;

/// So many of each of these causes were met, in the inferred column and in the checked one.
fn met(explained: &Explained, causes: [&[usize]; 2]) {
    println!("{}", explained.summary());
    for (rows, causes) in explained.rows.iter().zip(causes) {
        for cause in causes {
            assert!(rows[*cause].0 > 0, "cause {cause} is not met");
        }
    }
}

#[test]
fn recorded_sheets() {
    let Some(folder) = std::env::var_os("NAPSILO_VECTORS") else {
        eprintln!("skipped: NAPSILO_VECTORS names no folder with program.txt");
        return;
    };
    let text = std::fs::read_to_string(PathBuf::from(folder).join("program.txt")).expect("the file can be read");
    let mut explained = Explained::new(1);
    let sheets = text.lines().filter_map(|line| line.strip_prefix("sheet"));
    let mut count = 0;
    let done = oracle::on_stack(|| {
        for hex in sheets {
            explained.sheet(&bytes(hex.trim()))?;
            count += 1;
        }
        Ok::<(), String>(())
    });
    assert_eq!(done, Ok(()));
    println!("{count} sheets");
    assert!(count > 0);
    met(&explained, [&[20, 21, 22], &[20, 22, 24, 25, 26, 27, 28]]);
}

/// The bytes of a hexadecimal text.
fn bytes(hex: &str) -> Vec<u8> {
    let byte = |at: usize| u8::from_str_radix(&hex[at..at + 2], 16).expect("two digits");
    (0..hex.len()).step_by(2).map(byte).collect()
}

#[test]
fn swept_sheets() {
    let mut explained = Explained::new(61);
    let done = oracle::on_stack(|| {
        let mut done = Ok(());
        compare::sweep::sheets(&mut |sheet| {
            if done.is_ok() {
                done = explained.sheet(sheet);
            }
        });
        done
    });
    assert_eq!(done, Ok(()));
    // All its heads are functions without parameters, or take all that they have.
    met(&explained, [&[21, 22], &[20, 22, 24, 25, 26, 28]]);
}

#[test]
fn random_sheets() {
    let mut explained = Explained::new(1);
    let mut random = Random::new(17);
    let mut source = Source::new(17);
    let done = oracle::on_stack(|| {
        for at in 0..400 {
            explained.sheet(&match at % 20 {
                0 => make::large(&mut random),
                1 => make::repeated(&mut random),
                2 | 12 => make::numbers(&mut random),
                4 | 14 => make::relations(&mut random),
                at if at % 2 == 0 => make::sheet(&mut random),
                _ => sheet(&mut source),
            })?;
        }
        explained.sheet(&make::crowded(&mut random))
    });
    assert_eq!(done, Ok(()));
    met(&explained, [&[20, 21, 22], &[20, 22, 24, 25, 26, 27, 28]]);
}
