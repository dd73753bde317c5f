// The program of the README: a session is taken for an account, and the refusal is explained.
//
// Run it with `cargo run --example first`.

use napsilo::{Names, SheetWriter, SortRecord, TermRecord};

fn main() -> Result<(), Box<dyn std::error::Error>> {
    let (mut names, mut sheet) = (Names::new(), SheetWriter::new());
    let session = sheet.add_sort(SortRecord::Atom(names.name("Session")?, &[]))?;
    let account = sheet.add_sort(SortRecord::Atom(names.name("Account")?, &[]))?;
    let bool = sheet.add_sort(SortRecord::Bool)?;
    let of_account = sheet.add_sort(SortRecord::Function(&[account, bool]))?;
    let current = sheet.term(TermRecord::Var(names.name("current")?, session))?;
    let locked = sheet.term(TermRecord::Var(names.name("locked")?, of_account))?;
    let mixed_up = sheet.term(TermRecord::App(locked, &[current]))?;
    match sheet.judge()?.explain(mixed_up)? {
        Some(why) => println!("{}", why.with_names(&names)),
        None => println!("checked"),
    }
    Ok(())
}
