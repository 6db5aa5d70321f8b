//! What is stored, told beyond the paper: all cards in slot order, and what one card was stored with.

use crate::{after_line_6, done, reading, refused};
use model::calls::Model;
use model::distance::{FAULT_BITS, READINGS};
use model::index::{Answer, Index};
use model::record::RECORD;
use model::refusal::{ABSENT, ARGUMENT, DONE, LOOSE, SHORT, SIZE, TABLE};

/// The answer, and a list of so many sevens as the call leaves it.
fn cards(table: &[u8], places: usize) -> (Answer, Vec<u32>) {
    let mut list = vec![7; places];
    (Model.cards(table, &mut list), list)
}

/// The answer, and a row of so many sevens as the call leaves it.
fn card(table: &[u8], card: u32, bytes: usize) -> (Answer, Vec<u8>) {
    let mut row = vec![7; bytes];
    (Model.card(table, card, &mut row), row)
}

fn of_kind(kind: u8) -> Answer {
    Answer { refusal: DONE, count: 0, found: 0, kind }
}

#[test]
fn cards_stand_in_slot_order_and_later_entries_stay() {
    // The tree has 16 before 15, and 14 before 13 by its branches.
    assert_eq!(cards(&after_line_6(), 6), (done(0, 6), vec![11, 12, 13, 14, 15, 16]));
    assert_eq!(cards(&after_line_6(), 9), (done(0, 6), vec![11, 12, 13, 14, 15, 16, 7, 7, 7]));
    assert_eq!(cards(&[0; 3 * RECORD], 0), (done(0, 0), vec![]));
    assert_eq!(cards(&[0; 3 * RECORD], 2), (done(0, 0), vec![7, 7]));
}

#[test]
fn a_list_is_short_by_the_used_records() {
    assert_eq!(cards(&after_line_6(), 5), (refused(SHORT), vec![7; 5]));
    assert_eq!(cards(&after_line_6()[..6 * RECORD], 5), (refused(SHORT), vec![7; 5]));
    assert_eq!(cards(&after_line_6()[..6 * RECORD], 6).0, done(0, 6));
}

#[test]
fn a_freed_slot_is_skipped_and_used_again() {
    let mut table = after_line_6();
    Model.delete(&mut table, 12, 2);
    assert_eq!(cards(&table, 8), (done(0, 5), vec![11, 13, 14, 15, 16, 7, 7, 7]));
    // 16 was put back and keeps what it was stored with.
    assert_eq!(card(&table, 16, 32), (of_kind(READINGS), reading(78).to_vec()));
    assert_eq!(card(&table, 12, 32), (refused(ABSENT), vec![7; 32]));
    Model.insert(&mut table, 17, READINGS, &reading(81), 2);
    assert_eq!(cards(&table, 8).1[..6], [11, 17, 13, 14, 15, 16]);
    assert_eq!(card(&table, 17, 32), (of_kind(READINGS), reading(81).to_vec()));
}

#[test]
fn a_row_takes_32_bytes_and_keeps_the_rest() {
    let table = after_line_6();
    assert_eq!(card(&table, 14, 31), (refused(SHORT), vec![7; 31]));
    assert_eq!(card(&table, 14, 32), (of_kind(READINGS), reading(52).to_vec()));
    assert_eq!(card(&table, 14, 40), (of_kind(READINGS), [&reading(52)[..], &[7; 8]].concat()));
    let mut faults = vec![0; RECORD];
    let mask: [u8; 32] = std::array::from_fn(|byte| 255 - byte as u8);
    Model.insert(&mut faults, u32::MAX, FAULT_BITS, &mask, 1);
    assert_eq!(card(&faults, u32::MAX, 32), (of_kind(FAULT_BITS), mask.to_vec()));
    assert_eq!(cards(&faults, 1), (done(0, 1), vec![u32::MAX]));
}

#[test]
fn refusals_come_in_the_order_of_their_numbers() {
    for length in [0, 1, 63, 65, 65_535, 65_537, 65_600] {
        assert_eq!(cards(&vec![9; length], 0).0, refused(SIZE));
        assert_eq!(card(&vec![9; length], 0, 0).0, refused(SIZE));
    }
    let mut bad = after_line_6();
    bad[15] = 3;
    assert_eq!(cards(&bad, 0).0, refused(TABLE));
    assert_eq!(cards(&bad, 8), (refused(TABLE), vec![7; 8]));
    assert_eq!(card(&bad, 0, 0).0, refused(TABLE));
    assert_eq!(card(&bad, 14, 32), (refused(TABLE), vec![7; 32]));
    // Card 0 is in no record, not even in a free one.
    assert_eq!(card(&after_line_6(), 0, 32), (refused(ARGUMENT), vec![7; 32]));
    assert_eq!(card(&after_line_6(), 0, 0).0, refused(ARGUMENT));
    assert_eq!(card(&after_line_6(), 99, 32), (refused(ABSENT), vec![7; 32]));
    assert_eq!(card(&after_line_6(), 99, 31).0, refused(ABSENT));
    assert_eq!(card(&[0; RECORD], 99, 0).0, refused(ABSENT));
}

#[test]
fn a_loose_table_is_told_as_well() {
    let mut table = after_line_6();
    table[8] = 29;
    assert_eq!(Model.check(&table), refused(LOOSE));
    assert_eq!(cards(&table, 6).0, done(0, 6));
    assert_eq!(card(&table, 11, 32), (of_kind(READINGS), reading(50).to_vec()));
}
