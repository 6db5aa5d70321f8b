//! P1 to P13, and the listing as the program prints it.

use crate::{after_line_6, done, reading, refused, search, LISTING_INSERTS};
use model::calls::Model;
use model::distance::{distance, FAULT_BITS, READINGS};
use model::index::Index;
use model::program;
use model::record::{parse_table, table_bytes, Record, NO_SLOT, RECORD};
use model::refusal::{ABSENT, DONE, LOOSE};

#[test]
fn the_listing_as_the_program_prints_it() {
    let mut input = Vec::new();
    for (card, value) in LISTING_INSERTS {
        input.extend(program::command(program::INSERT, 1, 2, card, 0, &reading(value)));
    }
    let query = program::command(program::SEARCH, 1, 2, 0, 5, &reading(48));
    input.extend(&query);
    input.extend(program::command(program::DELETE, 1, 2, 12, 0, &reading(0)));
    input.extend(&query);
    input.extend(program::command(program::DELETE, 1, 2, 99, 0, &reading(0)));
    input.extend(program::command(program::CHECK, 0, 0, 0, 0, &reading(0)));
    let lines = "1 0 0 0\n2 0 1 0\n3 0 2 0\n4 0 3 0\n5 0 3 0\n6 0 4 0\n7 0 5 2 11 14\n8 0 5 0\n9 0 4 2 11 14\n\
                 10 6 0 0\n11 0 0 0\n";
    assert_eq!(program::run(&mut Model, &input), lines);
    // Left-over bytes, and an operation that is none.
    input.extend([9; 47]);
    assert_eq!(program::run(&mut Model, &input), format!("{lines}cut 47\n"));
    input.push(9);
    assert_eq!(program::run(&mut Model, &input), format!("{lines}12 3 0 0\n"));
    assert_eq!(program::run(&mut Model, &[]), "");
}

#[test]
fn p1_to_p6_inserts() {
    let mut table = vec![0; 8 * RECORD];
    for ((card, value), count) in LISTING_INSERTS.into_iter().zip([0, 1, 2, 3, 3, 4]) {
        assert_eq!(Model.insert(&mut table, card, READINGS, &reading(value), 2), done(count, 0), "card {card}");
    }
    // slot: card, radius, parent, children; timestamps rise with the slot.
    let rows: [(u32, u32, u16, &[u16]); 6] = [
        (11, 30, NO_SLOT, &[1, 2]),
        (12, 28, 0, &[3, 5]),
        (13, 20, 0, &[4]),
        (14, 0, 1, &[]),
        (15, 0, 2, &[]),
        (16, 0, 1, &[]),
    ];
    assert_table(&table, &[(0, 1), (1, 2), (2, 3), (3, 4), (4, 5), (5, 6)], &rows);
}

/// Holds the table against rows given by hand: (slot, timestamp), and for each of them the fields.
fn assert_table(table: &[u8], places: &[(usize, u32)], rows: &[(u32, u32, u16, &[u16])]) {
    let values: std::collections::BTreeMap<u32, u16> = LISTING_INSERTS.into();
    let mut records = vec![Record::free(); table.len() / RECORD];
    for ((slot, timestamp), (card, radius, parent, children)) in places.iter().zip(rows) {
        let record = &mut records[*slot];
        record.card = *card;
        record.timestamp = *timestamp;
        record.radius = *radius;
        record.parent = *parent;
        record.kind = READINGS;
        record.signature = reading(values[card]);
        record.set_children(children);
    }
    assert_eq!(parse_table(table), records);
    assert_eq!(table, table_bytes(&records));
}

#[test]
fn p7_search() {
    assert_eq!(search(&after_line_6(), 48, 5), (done(5, 2), vec![11, 14]));
}

#[test]
fn p8_delete() {
    let mut table = after_line_6();
    assert_eq!(Model.delete(&mut table, 12, 2), done(5, 0));
    // 14 and 16 in their own slots with timestamps 6 and 7; 11's radius has not shrunk; slot 1 is free.
    let rows: [(u32, u32, u16, &[u16]); 5] =
        [(11, 30, NO_SLOT, &[2, 3]), (13, 20, 0, &[4]), (14, 26, 0, &[5]), (15, 0, 2, &[]), (16, 0, 3, &[])];
    assert_table(&table, &[(0, 1), (2, 3), (3, 6), (4, 5), (5, 7)], &rows);
}

#[test]
fn p9_the_same_search_after_the_delete() {
    let mut table = after_line_6();
    Model.delete(&mut table, 12, 2);
    assert_eq!(search(&table, 48, 5), (done(4, 2), vec![11, 14]));
    // Lines 10 and 11.
    let before = table.clone();
    assert_eq!(Model.delete(&mut table, 99, 2), refused(ABSENT));
    assert_eq!(table, before);
    assert_eq!(Model.check(&table), done(0, 0));
}

#[test]
fn p10_all_readings_0_against_all_65535() {
    assert_eq!(distance(READINGS, &[0; 32], &[255; 32]), 1_048_560);
}

#[test]
fn p11_no_bits_against_all_bits() {
    assert_eq!(distance(FAULT_BITS, &[0; 32], &[255; 32]), 256);
}

#[test]
fn p12_search_40_with_radius_0() {
    assert_eq!(search(&after_line_6(), 40, 0), (done(4, 1), vec![15]));
}

#[test]
fn p13_radius_29_is_loose() {
    let mut table = after_line_6();
    assert_eq!(Model.check(&table), refused(DONE));
    assert_eq!(table[8], 30);
    table[8] = 29;
    assert_eq!(Model.check(&table), refused(LOOSE));
}
