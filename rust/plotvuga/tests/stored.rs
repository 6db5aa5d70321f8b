//! What a table tells of itself: the stored cards, what each was stored with, and how much room is left; and what a
//! caller does when a table is full, out of timestamps, or not sound.

use plotvuga::{library, Kind, Refusal, Signature, Table, MOST_RECORDS, RECORD};

fn reading(value: u16) -> Signature {
    let mut readings = [0; 16];
    readings[0] = value;
    Signature::readings(readings)
}

/// Six cards in seven records, the paper's table after line 6 with a record to spare.
fn six() -> Table {
    let mut table = Table::new(7).unwrap();
    for (card, value) in [(11, 50), (12, 80), (13, 20), (14, 52), (15, 40), (16, 78)] {
        table.insert(card, &reading(value), 2).unwrap();
    }
    table
}

fn all(table: &Table) -> Vec<u32> {
    table.cards().unwrap().collect()
}

#[test]
fn cards_stand_in_slot_order_and_later_entries_stay() {
    let mut table = six();
    let mut list = [1000; 9];
    assert_eq!(plotvuga::cards(table.bytes(), &mut list[1..8]), Ok(&[11, 12, 13, 14, 15, 16][..]));
    assert_eq!(list, [1000, 11, 12, 13, 14, 15, 16, 1000, 1000]);
    // A freed slot is used again, by whatever comes.
    table.delete(12, 2).unwrap();
    assert_eq!(all(&table), [11, 13, 14, 15, 16]);
    table.insert(u32::MAX, &reading(1), 2).unwrap();
    assert_eq!(all(&table), [11, u32::MAX, 13, 14, 15, 16]);
    assert_eq!((table.stored(), table.free(), table.records()), (Ok(6), Ok(1), 7));
}

#[test]
fn each_card_is_told_as_it_was_stored() {
    let mut table = six();
    assert_eq!(table.card(14), Ok(reading(52)));
    // Those below the root are put back when it leaves, and keep what they are.
    table.delete(11, 1).unwrap();
    for (card, value) in [(12, 80), (13, 20), (14, 52), (15, 40), (16, 78)] {
        assert_eq!(table.card(card), Ok(reading(value)));
    }
    assert_eq!(table.card(11), Err(Refusal::Absent));
    let mask = Signature::faults([1, 2, u64::MAX, 1 << 63]);
    let mut masks = Table::new(1).unwrap();
    masks.insert(7, &mask, 8).unwrap();
    assert_eq!(masks.card(7), Ok(mask));
}

#[test]
fn the_row_gets_32_bytes_and_later_ones_stay() {
    let table = six();
    let (mut row, mut kind) = ([9; 40], 9);
    assert_eq!(library::card(table.bytes(), 14, &mut row[1..], &mut kind), 0);
    assert_eq!((row[0], &row[1..33], &row[33..], kind), (9, &reading(52).bytes()[..], &[9; 7][..], 1));
}

#[test]
fn an_empty_table_and_a_full_one() {
    let mut table = Table::new(MOST_RECORDS).unwrap();
    assert_eq!((all(&table).len(), table.stored(), table.free()), (0, Ok(0), Ok(MOST_RECORDS)));
    assert_eq!(plotvuga::cards(table.bytes(), &mut []), Ok(&[][..]));
    assert_eq!(table.card(1), Err(Refusal::Absent));
    for card in 1..=MOST_RECORDS as u32 {
        table.insert(card, &reading(card as u16), 8).unwrap();
    }
    assert_eq!(all(&table), (1..=MOST_RECORDS as u32).collect::<Vec<_>>());
    assert_eq!((table.stored(), table.free()), (Ok(MOST_RECORDS), Ok(0)));
    assert_eq!(table.card(MOST_RECORDS as u32), Ok(reading(MOST_RECORDS as u16)));
}

#[test]
fn the_iterator_knows_how_many_are_left() {
    let mut cards = six().cards().unwrap();
    assert_eq!((cards.len(), cards.size_hint()), (6, (6, Some(6))));
    assert_eq!((cards.next(), cards.next_back(), cards.len()), (Some(11), Some(16), 4));
    assert_eq!(cards.by_ref().collect::<Vec<_>>(), [12, 13, 14, 15]);
    assert_eq!((cards.next(), cards.next(), cards.len()), (None, None, 0));
}

/// Each refusal with every later one due as well, so that the order is seen too.
#[test]
fn refusals_of_cards_in_their_order() {
    let table = six().into_bytes();
    let mut bad = table.clone();
    bad[15] = 3;
    for (bytes, entries, refusal) in
        [(&bad[..63], 5, Refusal::Size), (&bad, 5, Refusal::Table), (&table, 5, Refusal::Short)]
    {
        let (mut list, mut found) = ([9; 5], 9);
        assert_eq!(library::cards(bytes, &mut list[..entries], &mut found), refusal.number());
        // A refusal sets the count to 0 and leaves the list.
        assert_eq!((list, found), ([9; 5], 0));
        assert_eq!(plotvuga::cards(bytes, &mut list), Err(refusal));
    }
    assert_eq!(plotvuga::cards(&table, &mut [0; 6]).map(<[u32]>::len), Ok(6));
    for (bytes, refusal) in [(&table[..63], Refusal::Size), (&bad, Refusal::Table)] {
        let held = Table::over(bytes);
        assert_eq!(held.cards().map(|cards| cards.len()), Err(refusal));
        assert_eq!((held.stored(), held.free()), (Err(refusal), Err(refusal)));
    }
    let long = vec![0; (MOST_RECORDS + 1) * RECORD];
    assert_eq!(plotvuga::stored(&long), Err(Refusal::Size));
}

#[test]
fn refusals_of_card_in_their_order() {
    let table = six().into_bytes();
    let mut bad = table.clone();
    bad[15] = 3;
    for (bytes, card, refusal) in [
        (&bad[..63], 0, Refusal::Size),
        (&bad, 0, Refusal::Table),
        (&table, 0, Refusal::Argument),
        (&table, 17, Refusal::Absent),
    ] {
        let (mut row, mut kind) = ([9; 31], 9);
        assert_eq!(library::card(bytes, card, &mut row, &mut kind), refusal.number());
        assert_eq!((row, kind), ([9; 31], 0));
        assert_eq!(plotvuga::card(bytes, card), Err(refusal));
        assert_eq!(Table::over(bytes).card(card), Err(refusal));
    }
    // The typed call lends 32 bytes always, so only the function itself can be lent fewer.
    for bytes in [0, 31] {
        let (mut row, mut kind) = ([9; 31], 9);
        assert_eq!(library::card(&table, 14, &mut row[..bytes], &mut kind), Refusal::Short.number());
        assert_eq!((row, kind), ([9; 31], 0));
    }
    let (mut row, mut kind) = ([9; 32], 9);
    assert_eq!(library::card(&table, 14, &mut row, &mut kind), 0);
    assert_eq!((&row, kind), (reading(52).bytes(), Kind::Readings.number()));
}

/// The advice for FULL.
#[test]
fn zeros_behind_a_full_table_make_room() {
    let mut bytes = six().into_bytes();
    bytes.truncate(6 * RECORD);
    let mut table = Table::over(bytes);
    assert_eq!(table.insert(17, &reading(41), 2), Err(Refusal::Full));
    let mut longer = table.into_bytes();
    longer.resize(8 * RECORD, 0);
    let mut table = Table::over(longer);
    table.check().unwrap();
    assert_eq!(table.free(), Ok(2));
    table.insert(17, &reading(41), 2).unwrap();
    assert_eq!(table.search(&reading(40), 1).unwrap().cards, [15, 17]);
}

/// Every card of a table stored in an empty one: the advice for CLOCK and for LOOSE.
fn anew(old: &Table) -> Table {
    let mut table = Table::new(old.records()).unwrap();
    for card in old.cards().unwrap() {
        table.insert(card, &old.card(card).unwrap(), 4).unwrap();
    }
    table
}

#[test]
fn a_table_without_fresh_timestamps_is_stored_anew() {
    let mut bytes = six().into_bytes();
    bytes[5 * RECORD + 4..5 * RECORD + 8].fill(255);
    let mut table = Table::over(bytes);
    assert_eq!(table.insert(17, &reading(41), 2), Err(Refusal::Clock));
    let mut fresh = anew(&table);
    fresh.insert(17, &reading(41), 2).unwrap();
    assert_eq!(all(&fresh), [11, 12, 13, 14, 15, 16, 17]);
}

#[test]
fn a_table_that_is_not_sound_misses_a_card_until_it_is_stored_anew() {
    let mut bytes = six().into_bytes();
    // The root's covering radius no longer reaches card 12, 30 away.
    bytes[8] = 29;
    let table = Table::over(bytes);
    assert_eq!(table.check(), Err(Refusal::Loose));
    assert_eq!(table.search(&reading(80), 0).unwrap().cards, [0u32; 0]);
    let fresh = anew(&table);
    fresh.check().unwrap();
    assert_eq!(fresh.search(&reading(80), 0).unwrap().cards, [12]);
}
