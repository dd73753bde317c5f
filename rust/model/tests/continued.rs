//! Question 3, matching that continues, by hand from the request: its record, the order of its refusals, and its answers.

use model::{judge, printout};
use recorded::bytes;

/// Int, 'n1, (Set 'n1), (Set Int), (par (n1) 'n1), Type, Bool, 'n3, (_ BitVec ?), (_ BitVec 0): sorts 0 to 9.
const SORTS: &str = "0104 03020100 110e010100 110e010000 510c0101000101 00 010d 0103 03020300 010a 050900000000";

/// A list's bytes: a byte of its length, then the numbers of two bytes each.
fn list(numbers: &[u16]) -> String {
    let entries: String = numbers.iter().map(|number| format!("{:02x}{:02x}", number & 255, number >> 8)).collect();
    format!("{:02x}{entries}", numbers.len())
}

/// The field of the pairs.
fn pairs(given: &[(u16, u16)]) -> String {
    let entries: Vec<u16> = given.iter().flat_map(|(name, sort)| [*name, *sort]).collect();
    format!("{:02x}{}", given.len(), &list(&entries)[2..])
}

/// What the sheet of the ten sorts and this question prints.
fn asked(record: &str) -> String {
    printout(&bytes(&format!("0a00 0000 0100 {SORTS} {record}"))).trim_end().to_owned()
}

/// The answer to question 3.
fn answer(sorts: [u16; 3], given: &[(u16, u16)], names: &[u16]) -> String {
    asked(&format!("7103 {} {} {}", list(&sorts), pairs(given), list(names))).replace("Q0 ", "")
}

#[test]
fn nothing_given_is_question_1() {
    for sorts in [[1, 0, 2], [2, 3, 4], [0, 0, 4], [1, 1, 0], [4, 0, 0], [0, 6, 0], [7, 7, 2]] {
        let first = asked(&format!("5101 {} {}", list(&sorts), list(&[1])));
        assert_eq!(format!("Q0 {}", answer(sorts, &[], &[1])), first);
    }
}

#[test]
fn what_is_given_is_kept() {
    // 'n1 against Int with n1 := Int, n1 := Bool; the target is no place for what is given.
    assert_eq!(answer([1, 0, 2], &[(1, 0)], &[1]), "(Set Int)");
    assert_eq!(answer([1, 0, 2], &[(1, 6)], &[1]), "!29");
    // A sort with a variable is compared as it stands: (Set 'n1) against (Set Int) with n1 := 'n3.
    assert_eq!(answer([2, 3, 1], &[(1, 7)], &[1]), "!29");
    assert_eq!(answer([1, 7, 2], &[(1, 7)], &[1]), "(Set 'n3)");
}

#[test]
fn a_given_name_that_the_pattern_lacks_is_assigned() {
    // Int against Int; a Par in the result loses the name.
    assert_eq!(answer([0, 0, 1], &[(1, 6)], &[1]), "Bool");
    assert_eq!(answer([0, 0, 4], &[(1, 6)], &[1]), "Bool");
    assert_eq!(answer([0, 0, 1], &[], &[1]), "'n1");
    // Two are given, the pattern has one: 'n1 against Int, result 'n3.
    assert_eq!(answer([1, 0, 7], &[(3, 6), (1, 0)], &[1, 3]), "Bool");
}

#[test]
fn given_sorts_are_held_to_the_premise_of_the_target() {
    // A listed variable, its own too, one behind another given sort, a Par, an unknown width: 28, whatever would match.
    for held in [1, 2, 4, 8] {
        assert_eq!(answer([1, 0, 0], &[(1, held)], &[1]), "!28");
        assert_eq!(answer([0, 6, 0], &[(3, 0), (1, held)], &[1, 3]), "!28");
    }
    assert_eq!(answer([1, 0, 0], &[(1, 7)], &[1, 3]), "!28");
    // Type and width 0 are fine.
    assert_eq!(answer([0, 0, 2], &[(1, 5)], &[1]), "(Set Type)");
    assert_eq!(answer([0, 0, 2], &[(1, 9)], &[1]), "(Set (_ BitVec 0))");
    // Pattern and target as in question 1.
    assert_eq!(answer([4, 0, 0], &[(1, 0)], &[1]), "!28");
    assert_eq!(answer([0, 8, 0], &[(1, 0)], &[1]), "!28");
    assert_eq!(answer([1, 1, 0], &[(1, 0)], &[1]), "!28");
}

#[test]
fn given_names_are_parameters_and_given_once() {
    assert_eq!(answer([0, 0, 0], &[(1, 0)], &[]), "!5");
    assert_eq!(answer([0, 0, 0], &[(1, 0), (2, 0)], &[1]), "!5");
    assert_eq!(answer([0, 0, 0], &[(1, 0), (1, 0)], &[1]), "!5");
    assert_eq!(answer([0, 0, 0], &[(2, 6), (1, 0)], &[3, 1, 2]), "Int");
    // Parameters that are not distinct, as in question 1.
    assert_eq!(answer([0, 0, 0], &[(1, 0)], &[1, 1]), "!5");
}

#[test]
fn a_field_after_the_other() {
    // The list: cut, too long, a sort that is not there.
    assert_eq!(asked("7103 03 0000 0000"), "!3");
    assert_eq!(asked("7103 02 0000 0000 00 00"), "!5");
    assert_eq!(asked("7103 03 0000 0000 0a00 01"), "!6");
    // The pairs: cut, before their length; a sort that is not there, before the names.
    let three = list(&[0; 3]);
    assert_eq!(asked(&format!("7103 {three}")), "!3");
    assert_eq!(asked(&format!("7103 {three} 41")), "!3");
    assert_eq!(asked(&format!("7103 {three} {}", pairs(&[(1, 0); 65]))), "!5");
    assert_eq!(asked(&format!("7103 {three} {}", pairs(&[(1, 10), (1, 0)]))), "!6");
    // The names: cut, before what is given is looked at; then their length.
    assert_eq!(asked(&format!("7103 {three} {}", pairs(&[(1, 0), (1, 0)]))), "!3");
    assert_eq!(asked(&format!("7103 {three} 00 02 0100")), "!3");
    let many: Vec<u16> = (1..=65).collect();
    assert_eq!(asked(&format!("7103 {three} 00 {}", list(&many))), "!5");
    // All 64 may be given.
    let given: Vec<(u16, u16)> = many[..64].iter().map(|name| (*name, 6)).collect();
    assert_eq!(answer([0, 0, 2], &given, &many[..64]), "(Set Bool)");
    assert_eq!(asked(&format!("7103 {three} 00 00 00")), "!7");
}

#[test]
fn the_map_is_113() {
    for map in ["11", "51", "31", "53", "f1"] {
        assert_eq!(asked(&format!("{map}03 {} 00 00", list(&[0; 3]))), "!4");
    }
    assert_eq!(asked(&format!("7003 {} 00 00", list(&[0; 3]))), "!4");
    assert_eq!(asked(&format!("7101 {} 00 00", list(&[0; 3]))), "!4");
    assert_eq!(asked(&format!("7104 {} 00 00", list(&[0; 3]))), "!4");
}

#[test]
fn an_answer_has_the_limits_of_all_answers() {
    // (Set 'n1) with n1 := Bool is new: with room for the sorts of the sheet alone it is 23, also where the pattern lacks n1.
    let sheet = format!("0a00 0000 0100 {SORTS} 7103 {} {} {}", list(&[0, 0, 2]), pairs(&[(1, 6)]), list(&[1]));
    let answer = |places: usize| judge(&bytes(&sheet), 200, places, 0, 1).answers;
    assert_eq!((answer(10), answer(11)), (vec![23 << 16], vec![10]));
    // A tuple of 64 with n1 := a tree of 65: 22.
    let wide = format!("110f {}", list(&[1; 64]));
    let tree = format!("110f {}", list(&[0; 64]));
    let record = format!("7103 {} {} {}", list(&[0, 0, 2]), pairs(&[(1, 3)]), list(&[1]));
    let sheet = format!("0400 0000 0100 0104 03020100 {wide} {tree} {record}");
    assert_eq!(printout(&bytes(&sheet)), "Q0 !22\n");
}
