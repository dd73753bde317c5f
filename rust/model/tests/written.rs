//! Tree sizes that are written in sort records, by hand from the request: where they may stand, what a wrong one gives, and the store's own.

use model::{judge, printout};
use recorded::{bytes, hex};

/// What a sheet gets over buffers that its store just fills: the number, the bytes of the store and its places.
fn filled(sheet: &str, records: usize, places: usize) -> (u8, String, Vec<u32>) {
    let judged = judge(&bytes(sheet), records, places, 2, 1);
    (judged.number, hex(&judged.records), judged.places)
}

/// The number that a sheet gets with so many bytes of records, enough of all else being lent.
fn number(sheet: &str, records: usize) -> u8 {
    judge(&bytes(sheet), records, 64, 64, 64).number
}

#[test]
fn the_store_has_sizes_always() {
    // Int without the bit and with it: bytes 129 4 1 0.
    for sheet in ["0100 0000 0000 0104", "0100 0000 0000 8104 0100"] {
        assert_eq!(filled(sheet, 4, 1), (0, "81040100".to_owned(), vec![0]));
        // Three bytes have no room for it.
        assert_eq!(filled(sheet, 3, 1), (10, "000000".to_owned(), vec![0]));
    }
    // An integer constant: a row finds no room in three bytes.
    let rows = |records: usize| judge(&bytes("0000 0100 0000 0500 0700 0000"), records, 1, 2, 0).rows;
    assert_eq!((rows(3), rows(4)), (vec![23 << 16; 2], vec![0; 2]));
    // (Array Int Int): a record of nine bytes behind Int's; the size is 3.
    let array = "0200 0000 0000 0104 1108 02 0000 0000";
    assert_eq!(filled(array, 13, 2), (0, "81040100910802000000000300".to_owned(), vec![0, 4]));
    assert_eq!(number(array, 12), 10);
}

#[test]
fn a_size_stands_behind_the_names_of_a_par_and_does_not_count_them() {
    let par = |size: &str| format!("0200 0000 0000 0104 d10c 01 0000 02 0100 0200 {size}");
    let records = "81040100d10c0100000201000200".to_owned() + "0200";
    assert_eq!(filled(&par("0200"), 16, 2), (0, records, vec![0, 4]));
    for wrong in ["0000", "0100", "0300", "0400", "0201", "ffff"] {
        assert_eq!(number(&par(wrong), 64), 34, "{wrong}");
    }
}

#[test]
fn sorts_are_equal_with_and_without_the_bit() {
    // Bool twice, Int twice, a set of each Int: three sorts, and the two sets are one.
    let sheet = "0600 0000 0100 0103 8103 0100 8104 0100 0104 110e 01 0200 910e 01 0300 0200 1100 02 0400 0500";
    let records = "8103010081040100910e0101000200".to_owned();
    assert_eq!(filled(sheet, 15, 3), (0, records, vec![0, 4, 8]));
    assert_eq!(printout(&bytes(sheet)), "Q0 yes\n");
}

#[test]
fn a_wrong_size_comes_after_the_tree_and_before_the_room() {
    // No room, and a faulty next record: still the size.
    assert_eq!(number("0100 0000 0000 8104 0200", 0), 34);
    assert_eq!(number("0200 0000 0000 8104 0200 00", 64), 34);
    // The record before it finds no room: that comes first.
    assert_eq!(number("0200 0000 0000 0104 8103 0200", 0), 10);
    // Twelve tuples, each of two of the one before: a tree of 8,191.
    let doubled: String = (0..12).map(|part: u8| format!("110f 02 {part:02x}00 {part:02x}00")).collect();
    let last = "910f 02 0b00 0b00";
    let most = doubled.rsplit_once("110f").expect("twelve").0;
    assert_eq!(number(&format!("0d00 0000 0000 0104 {most} {last} 0100"), 4096), 9);
    assert_eq!(number(&format!("0d00 0000 0000 0104 {most} {last} ff1f"), 4096), 9);
    // Eleven of them: 4,095, which is ff 0f.
    let most = "0c00 0000 0000 0104".to_owned() + doubled.rsplitn(3, "110f").last().expect("ten");
    let last = "910f 02 0a00 0a00";
    assert_eq!(number(&format!("{most} {last} ff0f"), 4096), 0);
    assert_eq!(number(&format!("{most} {last} fe0f"), 4096), 34);
    assert_eq!(number(&format!("{most} {last} 0010"), 4096), 34);
}

#[test]
fn a_size_that_is_cut_short() {
    assert_eq!(number("0100 0000 0000 8104", 64), 3);
    assert_eq!(number("0100 0000 0000 8104 01", 64), 3);
    // The fields before it are judged before it: a width, a reference.
    assert_eq!(number("0100 0000 0000 8509 0000 0100", 64), 5);
    assert_eq!(number("0100 0000 0000 910e 01 0000", 64), 6);
    // A map that is the kind's but for the bit, and one that is not.
    assert_eq!(number("0100 0000 0000 8504 0100", 64), 4);
    assert_eq!(number("0100 0000 0000 8004 0100", 64), 4);
    assert_eq!(number("0100 0000 0000 8110 0100", 64), 4);
}

#[test]
fn terms_and_questions_have_no_size() {
    assert_eq!(number("0000 0100 0000 8101 0100", 64), 4);
    assert_eq!(number("0100 0000 0100 0104 9100 02 0000 0000 0100", 64), 4);
    assert_eq!(printout(&bytes("0000 0100 0000 8101 0100")), "!4\n");
}
