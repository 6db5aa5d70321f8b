//! The paper's edges to try: lengths, arities, timestamps near the last, refusals in their order, ties.

use crate::{after_line_6, done, reading, refused, search};
use model::calls::Model;
use model::distance::{FAULT_BITS, READINGS};
use model::index::{Answer, Index, Search};
use model::judge::{judge, Verdict};
use model::record::{parse_table, Record, RECORD};
use model::refusal::{ARGUMENT, CLOCK, DONE, FULL, KIND, SHORT, SIZE, TABLE, TWICE};

/// A search with radius 0.
fn same(table: &[u8], kind: u8, signature: &[u8], list: &mut [u32]) -> Answer {
    Model.search(table, Search { kind, signature, radius: 0, list })
}

#[test]
fn edge_lengths() {
    for length in [0, 1, 63, 65, 65_535, 65_537, 65_600] {
        let mut table = vec![0; length];
        assert_eq!(judge(&table), Verdict::Size);
        let mut list = [7; 4];
        assert_eq!(Model.clear(&mut table), refused(SIZE));
        assert_eq!(Model.insert(&mut table, 0, 0, &[], 0), refused(SIZE));
        assert_eq!(Model.delete(&mut table, 0, 0), refused(SIZE));
        assert_eq!(same(&table, 0, &[], &mut list), refused(SIZE));
        assert_eq!(Model.check(&table), refused(SIZE));
        assert_eq!((list, table), ([7; 4], vec![0; length]));
    }
    for length in [64, 65_536] {
        let mut table = vec![9; length];
        assert_eq!(Model.clear(&mut table), done(0, 0));
        assert_eq!(table, vec![0; length]);
        assert_eq!(Model.insert(&mut table, 1, READINGS, &reading(3), 1), done(0, 0));
        assert_eq!(search(&table, 3, 0), (done(1, 1), vec![1]));
        assert_eq!(Model.check(&table), done(0, 0));
        assert_eq!(Model.delete(&mut table, 1, 1), done(0, 0));
    }
}

#[test]
fn edge_arity_0_and_9() {
    let mut table = after_line_6();
    let before = table.clone();
    for arity in [0, 9, 255] {
        assert_eq!(Model.insert(&mut table, 17, READINGS, &reading(1), arity), refused(ARGUMENT));
        assert_eq!(Model.delete(&mut table, 12, arity), refused(ARGUMENT));
    }
    assert_eq!(table, before);
}

#[test]
fn edge_arity_1_makes_a_chain() {
    let mut table = vec![0; 16 * RECORD];
    for card in 1..=16 {
        let count = Model.insert(&mut table, card, READINGS, &reading((card * 37 % 11) as u16), 1).count;
        assert_eq!(count, card - 1);
    }
    let records = parse_table(&table);
    assert!(records[..15].iter().enumerate().all(|(slot, record)| record.children() == [slot as u16 + 1]));
    assert!(records[15].children().is_empty());
    // A record with more children than a later arity takes no more.
    let mut table = after_line_6();
    assert_eq!(Model.insert(&mut table, 17, READINGS, &reading(50), 1), done(5, 0));
    assert_eq!(parse_table(&table)[0].children(), [1, 2]);
}

#[test]
fn edge_largest_timestamp() {
    let mut table = after_line_6();
    table[5 * RECORD + 4..5 * RECORD + 8].copy_from_slice(&4_294_967_294u32.to_le_bytes());
    assert_eq!(judge(&table), Verdict::WellFormed);
    assert_eq!(Model.insert(&mut table, 17, READINGS, &reading(50), 2).refusal, DONE);
    assert_eq!(parse_table(&table)[6].timestamp, u32::MAX);
    let before = table.clone();
    assert_eq!(Model.insert(&mut table, 18, READINGS, &reading(50), 2), refused(CLOCK));
    // Card 16 has the second largest timestamp and nothing below it, so nothing is put back.
    assert_eq!(table, before);
    assert_eq!(Model.delete(&mut table, 16, 2).refusal, DONE);
}

#[test]
fn edge_clock_of_delete_counts_the_records_that_stay() {
    // Record 13 of timestamp 3 has 15 below it. What stays decides, not what is removed.
    let mut table = after_line_6();
    table[4 * RECORD + 4..4 * RECORD + 8].copy_from_slice(&u32::MAX.to_le_bytes());
    assert_eq!(Model.delete(&mut table.clone(), 13, 2).refusal, DONE);
    // The youngest stays: one record put back passes the last timestamp, none does not.
    let mut table = after_line_6();
    table[5 * RECORD + 4..5 * RECORD + 8].copy_from_slice(&u32::MAX.to_le_bytes());
    let before = table.clone();
    assert_eq!(Model.delete(&mut table, 13, 2), refused(CLOCK));
    assert_eq!(table, before);
    assert_eq!(Model.delete(&mut table.clone(), 15, 2).refusal, DONE);
    // Nothing stays: deleting the root always has room.
    assert_eq!(Model.delete(&mut table, 11, 2).refusal, DONE);
    assert_eq!(parse_table(&table).iter().map(|record| record.timestamp).max(), Some(5));
    let root = parse_table(&table).into_iter().find(Record::is_root).unwrap();
    assert_eq!((root.card, root.timestamp), (12, 1));
}

#[test]
fn edge_full_table_and_a_stored_card() {
    let mut table = after_line_6()[..6 * RECORD].to_vec();
    let before = table.clone();
    assert_eq!(Model.insert(&mut table, 14, READINGS, &reading(1), 2), refused(TWICE));
    assert_eq!(Model.insert(&mut table, 17, READINGS, &reading(1), 2), refused(FULL));
    assert_eq!(table, before);
}

#[test]
fn edge_deleting_the_only_card_leaves_all_zeros() {
    let mut table = vec![0; 3 * RECORD];
    Model.insert(&mut table, u32::MAX, FAULT_BITS, &[255; 32], 8);
    assert_eq!(Model.delete(&mut table, u32::MAX, 8), done(0, 0));
    assert_eq!(table, vec![0; 3 * RECORD]);
}

#[test]
fn edge_refusals_in_their_order() {
    let mut list = [5; 8];
    // TABLE before ARGUMENT.
    let mut bad = after_line_6();
    bad[15] = 3;
    assert_eq!(Model.insert(&mut bad, 0, 0, &[], 0), refused(TABLE));
    assert_eq!(Model.delete(&mut bad, 0, 0), refused(TABLE));
    assert_eq!(same(&bad, 0, &[], &mut list), refused(TABLE));
    assert_eq!(Model.check(&bad), refused(TABLE));
    // ARGUMENT before KIND, TWICE, ABSENT and SHORT.
    let mut table = after_line_6();
    assert_eq!(Model.insert(&mut table, 0, FAULT_BITS, &reading(1), 2), refused(ARGUMENT));
    assert_eq!(Model.insert(&mut table, 11, FAULT_BITS, &[0; 31], 2), refused(ARGUMENT));
    assert_eq!(Model.insert(&mut table, 11, 3, &reading(1), 2), refused(ARGUMENT));
    assert_eq!(Model.delete(&mut table, 0, 2), refused(ARGUMENT));
    assert_eq!(same(&table, FAULT_BITS, &[0; 33], &mut []), refused(ARGUMENT));
    assert_eq!(same(&table, 0, &reading(1), &mut []), refused(ARGUMENT));
    // KIND before TWICE, FULL, CLOCK and SHORT.
    assert_eq!(Model.insert(&mut table, 11, FAULT_BITS, &reading(1), 2), refused(KIND));
    assert_eq!(same(&table, FAULT_BITS, &reading(1), &mut []), refused(KIND));
    // FULL before CLOCK.
    let mut full = table[..6 * RECORD].to_vec();
    full[5 * RECORD + 4..5 * RECORD + 8].copy_from_slice(&u32::MAX.to_le_bytes());
    assert_eq!(Model.insert(&mut full, 17, READINGS, &reading(1), 2), refused(FULL));
    // SHORT by the used records, not by what is found; a longer list keeps its later entries.
    assert_eq!(same(&table, READINGS, &reading(40), &mut [0; 5]), refused(SHORT));
    assert_eq!(same(&table, READINGS, &reading(40), &mut list[..6]), done(4, 1));
    assert_eq!(list, [15, 5, 5, 5, 5, 5, 5, 5]);
    // A free table takes either kind and needs no list.
    let everything = Search { kind: FAULT_BITS, signature: &reading(1), radius: u32::MAX, list: &mut [] };
    assert_eq!(Model.search(&[0; 64], everything), done(0, 0));
}

#[test]
fn edge_sums_without_loss() {
    let mut table = after_line_6();
    // Radius 4,294,967,295 in the table and in the query: a sum that wrapped would enter nothing.
    table[8..12].copy_from_slice(&u32::MAX.to_le_bytes());
    assert_eq!(search(&table, 48, u32::MAX), (done(6, 6), vec![11, 12, 14, 16, 13, 15]));
}

#[test]
fn edge_root_not_entered_counts_1() {
    let table = after_line_6();
    assert_eq!(search(&table, 1000, 5), (done(1, 0), vec![]));
}

#[test]
fn edge_freed_slot_is_used_again() {
    let mut table = after_line_6();
    Model.delete(&mut table, 12, 2);
    Model.insert(&mut table, 17, READINGS, &reading(81), 2);
    assert_eq!(parse_table(&table)[1].card, 17);
    assert_eq!(parse_table(&table)[1].timestamp, 8);
}

#[test]
fn edge_equal_signatures_tie_to_the_oldest() {
    // Two children equally near: the oldest takes the card in.
    let mut table = vec![0; 4 * RECORD];
    for (card, value) in [(1, 50), (2, 60), (3, 40), (4, 50)] {
        Model.insert(&mut table, card, READINGS, &reading(value), 2);
    }
    // Card 4 has card 1's signature; both children are 10 away, and card 1 is full.
    assert_eq!(parse_table(&table)[1].children(), [3]);
    assert_eq!(search(&table, 50, 0), (done(4, 2), vec![1, 4]));
}

#[test]
fn edge_not_strictly_nearer_goes_down() {
    let mut table = vec![0; 3 * RECORD];
    for (card, value) in [(1, 40), (2, 60), (3, 50)] {
        Model.insert(&mut table, card, READINGS, &reading(value), 8);
    }
    assert_eq!(parse_table(&table)[0].children(), [1]);
    assert_eq!(parse_table(&table)[1].children(), [2]);
}
