//! The least stack on which the library runs to its end: a thread of each size that is tried, in a process of its own.

use crate::commas;
use napsilo::{LINE_BUFFER, Lent, judge_into, page_into, print_into};
use std::env;
use std::fs;
use std::process::{Command, Stdio};
use std::thread;

/// Writes whole lines of a sheet's text.
type Writer = fn(&[u8], usize, &mut [u8]) -> usize;

/// Runs a function of the library on a sheet, on a thread of so many KiB; the process ends by a signal where they are too few.
pub fn run(function: &str, path: &str, kib: usize) -> Option<()> {
    let sheet = fs::read(path).ok()?;
    let Lent { records, places, rows, answers } = Lent::PROGRAM;
    let (mut bytes, mut from) = (vec![0; LINE_BUFFER.max(records)], 0);
    let [mut places, mut rows, mut answers] = [places, rows, answers].map(|length| vec![0; length]);
    let writer: Option<Writer> = match function {
        "text" => Some(print_into),
        "page" => Some(page_into),
        _ => None,
    };
    let work = move || {
        let Some(writer) = writer else {
            let _ = judge_into(&sheet, &mut bytes[..records], &mut places, &mut rows, &mut answers);
            return;
        };
        while let end @ 1.. = writer(&sheet, from, &mut bytes) {
            from += bytes[..end].iter().filter(|byte| **byte == b'\n').count();
        }
    };
    thread::Builder::new().stack_size(kib * 1024).spawn(work).ok()?.join().ok()
}

/// The least KiB, to 4, on which a function runs to its end.
fn least(function: &str, path: &str) -> Option<usize> {
    let enough = |kib: usize| {
        let mut child = Command::new(env::current_exe().ok()?);
        child.args(["stack-run", function, path, &kib.to_string()]).stderr(Stdio::null());
        Some(child.status().ok()?.success())
    };
    let (mut low, mut high) = (16, 8_192);
    while high - low > 4 {
        let middle = (low + high) / 8 * 4;
        if enough(middle)? {
            high = middle;
        } else {
            low = middle;
        }
    }
    Some(high)
}

/// Measures the functions on sheets, `napsilo_text` and `napsilo_page_text` by all pieces of the printout and of the pages.
pub fn measure(paths: &[String]) -> Option<()> {
    println!("| sheet | `napsilo_judge` | `napsilo_text` | `napsilo_page_text` |");
    println!("|---|---|---|---|");
    for path in paths {
        let name = path.rsplit('/').next().unwrap_or(path);
        let [judge, text, page] = ["judge", "text", "page"].map(|function| least(function, path).map(commas));
        println!("| {name} | {} | {} | {} |", judge?, text?, page?);
    }
    Some(())
}
