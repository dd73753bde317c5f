//! Sorts whose parts are shared: comparing, hashing and measuring them takes time for their distinct parts, not for their trees.

mod common;

use common::{Random, n, outcome};
use napsilo::{Refusal, SheetWriter, Sort};
use std::collections::HashSet;
use std::hash::{BuildHasher, RandomState};
use std::sync::Arc;
use std::thread;
use std::time::{Duration, Instant};

/// A sort doubled so many times over a leaf: one node a level.
fn doubled(leaf: Sort, levels: usize) -> Arc<Sort> {
    (0..levels).fold(Arc::new(leaf), |sort, _| Arc::new(Sort::Array(sort.clone(), sort)))
}

/// The same tree with two nodes a level, each over both of the level below; `last` stands in one of the deepest places.
fn crossed(leaf: Sort, last: Sort, levels: usize) -> Arc<Sort> {
    let mut two = (Arc::new(leaf), Arc::new(last));
    for _ in 0..levels {
        let node = || Arc::new(Sort::Array(two.0.clone(), two.1.clone()));
        two = (node(), node());
    }
    two.0
}

/// The same tree with nothing shared.
fn apart(leaf: &Sort, levels: usize) -> Arc<Sort> {
    match levels {
        0 => Arc::new(leaf.clone()),
        _ => Arc::new(Sort::Array(apart(leaf, levels - 1), apart(leaf, levels - 1))),
    }
}

/// Two sorts are equal both ways, and then have the same hash, or are not.
fn assert_same(one: &Sort, two: &Sort, same: bool) {
    let state = RandomState::new();
    for (one, two) in [(one, two), (two, one)] {
        assert!((one == two) == same);
    }
    assert!(!same || state.hash_one(one) == state.hash_one(two));
}

#[test]
fn sixty_levels() {
    let start = Instant::now();
    let one = doubled(Sort::Int, 60);
    assert_same(&one, &doubled(Sort::Int, 60), true);
    assert_same(&one, &crossed(Sort::Int, Sort::Int, 60), true);
    assert_same(&crossed(Sort::Int, Sort::Int, 60), &crossed(Sort::Int, Sort::Int, 60), true);
    assert_same(&one, &crossed(Sort::Int, Sort::Real, 60), false);
    assert_same(&one, &doubled(Sort::Int, 61), false);
    assert_same(&one, &doubled(Sort::Bool, 60), false);
    assert_eq!(one.tree_size(), (1 << 61) - 1);
    assert_eq!(crossed(Sort::Int, Sort::Int, 60).tree_size(), (1 << 61) - 1);
    assert_eq!(doubled(Sort::Int, 62).tree_size(), (1 << 63) - 1);
    assert_eq!(doubled(Sort::Int, 63).tree_size(), usize::MAX);
    assert_eq!(doubled(Sort::Int, 500).tree_size(), usize::MAX);
    let known: HashSet<Arc<Sort>> = [one.clone(), doubled(Sort::Bool, 60)].into();
    assert!(known.contains(&crossed(Sort::Int, Sort::Int, 60)) && !known.contains(&doubled(Sort::Real, 60)));
    assert!(start.elapsed() < Duration::from_secs(10), "{:?}", start.elapsed());
}

/// Nothing shared on one side, all on the other.
#[test]
fn shared_and_apart() {
    for levels in 0..=12 {
        let one = apart(&Sort::BitVec(8), levels);
        assert_same(&one, &doubled(Sort::BitVec(8), levels), true);
        assert_same(&one, &crossed(Sort::BitVec(8), Sort::BitVec(8), levels), true);
        assert_eq!(one.tree_size(), (2 << levels) - 1);
        assert_same(&one, &doubled(Sort::BitVec(9), levels), false);
        assert_same(&one, &apart(&Sort::BitVec(9), levels), false);
    }
}

/// Random sorts over shared parts: equal if their texts are, and then with the same hash and size.
#[test]
fn equal_as_their_texts() {
    let mut random = Random::new(5);
    let (mut equal, mut all) = (0, 0);
    for _ in 0..300 {
        let mut sorts: Vec<Arc<Sort>> = vec![Arc::new(Sort::Int), Arc::new(Sort::Int), Arc::new(Sort::Var(n(1)))];
        for _ in 0..9 {
            let mut part = || sorts[random.under(sorts.len())].clone();
            let (one, two) = (part(), part());
            sorts.push(Arc::new(match random.under(6) {
                0 => Sort::Set(one),
                1 => Sort::Tuple(vec![one, two]),
                2 => Sort::Par(vec![n(1)], one),
                3 => Sort::Atom(n(1), vec![one]),
                _ => Sort::Array(one, two),
            }));
        }
        for one in &sorts {
            for two in &sorts {
                let same = one.to_string() == two.to_string();
                assert_same(one, two, same);
                assert!(!same || one.tree_size() == two.tree_size());
                (equal, all) = (equal + usize::from(same), all + 1);
            }
        }
    }
    println!("{equal} equal of {all}");
    // Each of the twelve is equal to itself at least.
    assert!(equal > 12 * 300 && equal < all / 2);
}

/// Deep sorts need no stack.
#[test]
fn deep_on_a_small_stack() {
    let deep = || (0..200_000).fold(Arc::new(Sort::Int), |sort, _| Arc::new(Sort::Set(sort)));
    let run = move || {
        let (one, two) = (deep(), deep());
        assert_same(&one, &two, true);
        assert_eq!(one.tree_size(), 200_001);
        assert_eq!(one.to_string().len(), 200_000 * "(Set )".len() + 3);
    };
    let thread = thread::Builder::new().stack_size(64 << 10).spawn(run).unwrap();
    thread.join().unwrap();
}

/// A writer goes through shared parts once; the library refuses the tree.
#[test]
fn a_doubled_sort_on_a_sheet() {
    let mut sheet = SheetWriter::new();
    let id = sheet.sort(&doubled(Sort::Int, 60)).unwrap();
    assert_eq!((id.number(), sheet.sorts()), (60, 61));
    assert_eq!(sheet.sort(&crossed(Sort::Int, Sort::Int, 60)), Ok(id));
    assert_eq!(outcome(&sheet.finish()), Err(Refusal::TreeSize));
}
