//! The wrapper: every call and every refusal reaches the caller with its type, its number and its counts.

use plotvuga::{Cards, Deleted, Inserted, Kind, Refusal, Signature, Table};

fn reading(value: u16) -> Signature {
    let mut readings = [0; 16];
    readings[0] = value;
    Signature::readings(readings)
}

/// The paper's table after line 6.
fn listing(records: usize) -> Table {
    let mut table = Table::new(records).unwrap();
    let counts = [(11, 50, 0), (12, 80, 1), (13, 20, 2), (14, 52, 3), (15, 40, 3), (16, 78, 4)];
    for (card, value, distances) in counts {
        assert_eq!(table.insert(card, &reading(value), 2), Ok(Inserted { distances }));
    }
    table
}

/// The timestamp field of one record.
fn set_timestamp(table: &mut [u8], slot: usize, timestamp: u32) {
    table[64 * slot + 4..64 * slot + 8].copy_from_slice(&timestamp.to_le_bytes());
}

#[test]
fn the_listing() {
    let mut table = listing(512);
    let near = Ok(Cards { distances: 5, cards: vec![11, 14] });
    assert_eq!(table.search(&reading(48), 5), near);
    assert_eq!(table.delete(12, 2), Ok(Deleted { distances: 5 }));
    assert_eq!(table.search(&reading(48), 5), Ok(Cards { distances: 4, cards: vec![11, 14] }));
    assert_eq!(table.delete(99, 2), Err(Refusal::Absent));
    assert_eq!(table.check(), Ok(()));
}

#[test]
fn every_refusal_comes_as_its_own_type() {
    let (signature, faults) = (reading(1), Signature::faults([1, 0, 0, 0]));
    let table = listing(6).into_bytes();
    let mut lent = table.clone();
    assert_eq!(plotvuga::clear(&mut lent[..63]), Err(Refusal::Size));
    lent[15] = 3;
    assert_eq!(plotvuga::check(&lent), Err(Refusal::Table));
    lent.copy_from_slice(&table);
    assert_eq!(plotvuga::insert(&mut lent, 0, &signature, 2), Err(Refusal::Argument));
    assert_eq!(plotvuga::insert(&mut lent, 17, &signature, 9), Err(Refusal::Argument));
    assert_eq!(plotvuga::insert(&mut lent, 17, &faults, 2), Err(Refusal::Kind));
    assert_eq!(plotvuga::insert(&mut lent, 14, &signature, 2), Err(Refusal::Twice));
    assert_eq!(plotvuga::delete(&mut lent, 17, 2), Err(Refusal::Absent));
    assert_eq!(plotvuga::insert(&mut lent, 17, &signature, 2), Err(Refusal::Full));
    let mut list = [9; 5];
    assert_eq!(plotvuga::search(&lent, &signature, 5, &mut list), Err(Refusal::Short));
    // Refused calls touched nothing.
    assert_eq!((&lent, list), (&table, [9; 5]));
    set_timestamp(&mut lent, 5, u32::MAX);
    assert_eq!(plotvuga::delete(&mut lent, 13, 2), Err(Refusal::Clock));
    lent.copy_from_slice(&table);
    lent[8] = 29;
    assert_eq!(plotvuga::check(&lent), Err(Refusal::Loose));
}

#[test]
fn a_refusal_has_a_number_a_name_and_a_text() {
    let names = ["SIZE", "TABLE", "ARGUMENT", "KIND", "TWICE", "ABSENT", "FULL", "CLOCK", "SHORT", "LOOSE"];
    for (refusal, (number, name)) in Refusal::ALL.into_iter().zip((1..).zip(names)) {
        assert_eq!((refusal.number(), refusal.name()), (number, name));
        assert_eq!(Refusal::from_number(number), Some(refusal));
        assert!(refusal.to_string().starts_with(&format!("{number} {name}: ")), "{refusal}");
    }
    assert_eq!(Refusal::from_number(0), None);
    assert_eq!(Refusal::from_number(11), None);
    let error: Box<dyn std::error::Error> = Box::new(Refusal::Absent);
    assert_eq!(error.to_string(), "6 ABSENT: the card is not stored");
}

#[test]
fn a_search_fills_the_front_of_the_list_and_leaves_the_rest() {
    let table = listing(8).into_bytes();
    let mut list = [1000; 9];
    let found = plotvuga::search(&table, &reading(48), 5, &mut list[1..8]).unwrap();
    assert_eq!((found.distances, found.cards), (5, &[11, 14][..]));
    assert_eq!(list, [1000, 11, 14, 1000, 1000, 1000, 1000, 1000, 1000]);
}

#[test]
fn a_table_over_lent_bytes_or_an_array_or_bytes_to_read() {
    let mut bytes = listing(8).into_bytes();
    assert_eq!(Table::over(&bytes[..]).search(&reading(40), 0).unwrap().cards, [15]);
    let mut lent = Table::over(&mut bytes[..]);
    lent.insert(17, &reading(41), 8).unwrap();
    lent.delete(15, 8).unwrap();
    assert_eq!(Table::over(&bytes).search(&reading(40), 1).unwrap().cards, [17]);
    let mut array = Table::over([7u8; 128]);
    assert_eq!(array.check(), Err(Refusal::Table));
    array.clear().unwrap();
    assert_eq!(array.into_bytes(), [0; 128]);
}

#[test]
fn sizes() {
    for records in [0, 1025, usize::MAX] {
        assert_eq!(Table::new(records), Err(Refusal::Size));
    }
    for records in [1, 1024] {
        let mut table = Table::new(records).unwrap();
        assert_eq!(table.records(), records);
        table.insert(u32::MAX, &reading(65_535), 1).unwrap();
        assert_eq!(table.search(&reading(0), 65_535).unwrap().cards, [u32::MAX]);
        table.delete(u32::MAX, 1).unwrap();
        assert!(table.bytes().iter().all(|byte| *byte == 0));
    }
    let mut empty: [u8; 0] = [];
    assert_eq!(plotvuga::clear(&mut empty), Err(Refusal::Size));
    assert_eq!(plotvuga::search(&[0; 64], &reading(0), 0, &mut []).unwrap().cards, [0u32; 0]);
}

#[test]
fn signatures_are_their_bytes() {
    let readings = Signature::readings(std::array::from_fn(|place| 256 * place as u16 + 7));
    assert_eq!(readings.bytes()[..6], [7, 0, 7, 1, 7, 2]);
    assert_eq!(Signature::from_bytes(Kind::Readings, *readings.bytes()), readings);
    let faults = Signature::from([1, 2, 0, 1 << 63]);
    assert_eq!((faults.bytes()[0], faults.bytes()[8], faults.bytes()[31]), (1, 2, 128));
    assert_eq!((faults.kind(), faults.kind().number()), (Kind::Faults, 2));
}

#[test]
fn a_signature_gives_back_what_it_was_made_of() {
    let numbers: [u16; 16] = std::array::from_fn(|place| 4099 * place as u16);
    assert_eq!(Signature::readings(numbers).as_readings(), Some(numbers));
    assert_eq!(Signature::readings(numbers).as_faults(), None);
    let words = [1, u64::MAX, 0, 0x8000_0000_0000_0002];
    assert_eq!(Signature::faults(words).as_faults(), Some(words));
    assert_eq!(Signature::faults(words).as_readings(), None);
    assert_eq!([0, 1, 2, 3].map(Kind::from_number), [None, Some(Kind::Readings), Some(Kind::Faults), None]);
}
