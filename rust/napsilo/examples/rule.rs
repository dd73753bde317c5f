//! A rule of a gateway, before it goes live.
//!
//! The rule says that a locked account's session is locked, and takes the session for its account. carcara infers the sort Bool for it.
//! Its checked row is refused, and so is the rule.
//!
//! Run it with `cargo run --example rule`.

use napsilo::{ForeignId, Judged, Names, Operator, SheetWriter, Sort, SortRecord, TermId, TermRecord};
use std::error::Error;

/// May a rule go live? Only a formula that is checked may: its inferred sort alone says too little.
fn goes_live(judged: &Judged, rule: TermId) -> Result<bool, ForeignId> {
    Ok(judged.checked(rule)?.as_deref() == Ok(&Sort::Bool))
}

fn main() -> Result<(), Box<dyn Error>> {
    let mut names = Names::new();
    let mut sheet = SheetWriter::new();

    // (declare-sort Session 0)
    // (declare-sort Account 0)
    let session = sheet.add_sort(SortRecord::Atom(names.name("Session")?, &[]))?;
    let account = sheet.add_sort(SortRecord::Atom(names.name("Account")?, &[]))?;
    let bool = sheet.add_sort(SortRecord::Bool)?;
    let of_session = sheet.add_sort(SortRecord::Function(&[session, account]))?;
    let of_account = sheet.add_sort(SortRecord::Function(&[account, bool]))?;

    // (declare-const current Session)
    // (declare-fun owner (Session) Account)
    // (declare-fun locked (Account) Bool)
    let current = sheet.term(TermRecord::Var(names.name("current")?, session))?;
    let owner = sheet.term(TermRecord::Var(names.name("owner")?, of_session))?;
    let locked = sheet.term(TermRecord::Var(names.name("locked")?, of_account))?;

    // (=> (locked (owner current)) (locked current))
    let owned = sheet.term(TermRecord::App(owner, &[current]))?;
    let premise = sheet.term(TermRecord::App(locked, &[owned]))?;
    let mixed_up = sheet.term(TermRecord::App(locked, &[current]))?;
    let wrong = sheet.term(TermRecord::Op(Operator::Implies, &[premise, mixed_up]))?;

    // (=> (locked (owner current)) (not (not (locked (owner current)))))
    let not = sheet.term(TermRecord::Op(Operator::Not, &[premise]))?;
    let not_not = sheet.term(TermRecord::Op(Operator::Not, &[not]))?;
    let right = sheet.term(TermRecord::Op(Operator::Implies, &[premise, not_not]))?;

    let judged = sheet.judge()?;
    print!("{}", judged.with_names(&names));

    for (name, rule) in [("mixed up", wrong), ("as it should be", right)] {
        match judged.explain(rule)? {
            Some(explanation) => println!("{name}: refused. {}", explanation.with_names(&names)),
            None => println!("{name}: checked"),
        }
    }
    assert!(!goes_live(&judged, wrong)?);
    assert!(goes_live(&judged, right)?);
    Ok(())
}
