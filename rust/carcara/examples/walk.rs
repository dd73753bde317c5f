// Walks the terms of a proof and prints what is refused, with its reason.
//
// A gateway closes the sessions of locked accounts. In one step of the proof somebody takes a session for an account; carcara's inference
// lets it pass. The terms are built in carcara's own pool, as its parser does.

use napsilo_batch::Row;
use napsilo_carcara::{Proof, Rows};
use oracle::ast::{Binder, BindingList, Constant, Operator, ParamOperator, Pool, Rc, Sort, Term};

/// A step of a proof, as carcara's `ProofStep`: its name and the terms of its clause.
struct Step {
    id: &'static str,
    clause: Vec<Rc<Term>>,
}

/// What the proof speaks of: declared functions and a variable.
struct Gateway {
    session: Rc<Sort>,
    owner: Rc<Term>,
    locked: Rc<Term>,
    closed: Rc<Term>,
    current: Rc<Term>,
}

impl Gateway {
    /// owner : Session -> Account, locked : Account -> Bool, closed : Session -> Bool, current : Session.
    fn new(pool: &mut Pool) -> Self {
        let [session, account] =
            ["Session", "Account"].map(|name| pool.add_sort(Sort::Atom(name.into(), Box::new([]))));
        let bool = pool.add_sort(Sort::Bool);
        let function = |pool: &mut Pool, name: &str, from: &Rc<Sort>, to: &Rc<Sort>| {
            let sort = pool.add_sort(Sort::Function(vec![from.clone(), to.clone()]));
            pool.add(Term::Var(name.to_owned(), sort))
        };
        let owner = function(pool, "owner", &session, &account);
        let locked = function(pool, "locked", &account, &bool);
        let closed = function(pool, "closed", &session, &bool);
        let current = pool.add(Term::Var("current".to_owned(), session.clone()));
        Gateway { session, owner, locked, closed, current }
    }

    /// (locked (owner s)), and the rule: a session s of a locked account is closed.
    fn rule(&self, pool: &mut Pool, s: &Rc<Term>) -> [Rc<Term>; 2] {
        let account = app(pool, &self.owner, s);
        let (locked, closed) = (app(pool, &self.locked, &account), app(pool, &self.closed, s));
        [locked.clone(), pool.add(Term::Op(Operator::Implies, vec![locked, closed]))]
    }
}

/// The application of a function to an argument.
fn app(pool: &mut Pool, head: &Rc<Term>, argument: &Rc<Term>) -> Rc<Term> {
    pool.add(Term::App(head.clone(), vec![argument.clone()]))
}

/// The negation of a term.
fn not(pool: &mut Pool, term: &Rc<Term>) -> Rc<Term> {
    pool.add(Term::Op(Operator::Not, vec![term.clone()]))
}

/// The proof's steps.
fn proof(pool: &mut Pool) -> Vec<Step> {
    let gateway = Gateway::new(pool);
    let Gateway { session, locked, closed, current, .. } = &gateway;
    let s = pool.add(Term::Var("s".to_owned(), session.clone()));
    let [_, body] = gateway.rule(pool, &s);
    let rule = pool.add(Term::Binder(Binder::Forall, BindingList(vec![("s".to_owned(), session.clone())]), body));
    let [is_locked, instance] = gateway.rule(pool, current);
    let is_closed = app(pool, closed, current);
    // Here the session is taken for its account.
    let mixed = app(pool, locked, current);
    let [no_rule, no_instance, not_locked, not_mixed] =
        [&rule, &instance, &is_locked, &mixed].map(|term| not(pool, term));
    let (op, op_args, args) = (ParamOperator::Tester, vec![current.clone()], vec![current.clone()]);
    let tester = pool.add(Term::ParamOp { op, op_args, args });
    let many = pool.add(Term::Op(Operator::And, vec![is_closed.clone(); 65]));
    let five = pool.add(Term::Const(Constant::Integer(5.into())));
    let sum = pool.add(Term::Op(Operator::Add, vec![five.clone(), instance.clone()]));
    let positive = pool.add(Term::Op(Operator::LessThan, vec![five, sum]));
    vec![
        Step { id: "h1", clause: vec![rule] },
        Step { id: "h2", clause: vec![is_locked] },
        Step { id: "t1", clause: vec![no_rule, instance] },
        Step { id: "t2", clause: vec![no_instance, not_locked, is_closed.clone()] },
        Step { id: "t3", clause: vec![not_mixed, is_closed] },
        Step { id: "t4", clause: vec![tester] },
        Step { id: "t5", clause: vec![many] },
        Step { id: "t6", clause: vec![positive] },
    ]
}

/// The text of a term, without what lies deep.
fn text(term: &Term, depth: usize) -> String {
    let list = |head: String, parts: &[Rc<Term>]| {
        let few = parts.iter().take(4).map(|part| format!(" {}", text(part, depth + 1))).collect::<String>();
        let more = if parts.len() > 4 { " .." } else { "" };
        format!("({head}{few}{more})")
    };
    match term {
        _ if depth > 4 => "..".to_owned(),
        Term::Const(Constant::Integer(value)) => value.to_string(),
        Term::Var(name, _) => name.clone(),
        Term::App(head, args) => list(text(head, depth + 1), args),
        Term::Op(op, args) => list(op.to_string(), args),
        Term::Binder(Binder::Forall, bindings, body) => {
            let names: Vec<&str> = bindings.0.iter().map(|(name, _)| name.as_str()).collect();
            format!("(forall ({}) {})", names.join(" "), text(body, depth + 1))
        }
        Term::ParamOp { op, op_args, args } => list(list(format!("_ {op}"), op_args), args),
        _ => "..".to_owned(),
    }
}

/// Prints why a term has no checked sort, and what carcara infers for it.
fn explain(rows: &Rows<'_>, id: &str, term: &Rc<Term>) {
    let Some(why) = rows.explain(term, Row::Checked) else { return };
    println!("{id}: {} has no checked sort", text(term, 0));
    println!("    {why}");
    match rows.inferred(term) {
        Ok(sort) => println!("    carcara infers {}", rows.text(sort)),
        Err(_) => println!("    and no inferred one"),
    }
}

fn main() {
    let mut pool = Pool::new();
    let steps = proof(&mut pool);
    let mut taken = Proof::new();
    for term in steps.iter().flat_map(|step| &step.clause) {
        // What is not taken is told below.
        let _ = taken.take(term);
    }
    let rows = taken.judge();
    for step in &steps {
        for term in &step.clause {
            explain(&rows, step.id, term);
        }
    }
}
