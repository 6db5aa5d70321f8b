//! Tables to begin with, and what is picked in them.

use model::calls::Model;
use model::distance::Signature;
use model::index::Index;
use model::random::Random;
use model::record::{parse_table, table_bytes, Record, NO_SLOT, RECORD};
use model::signature::{Flavour, Source};

/// Kind 1 with reading 0 as given and the others 0.
pub fn reading(value: u16) -> Signature {
    let mut signature = [0; 32];
    signature[..2].copy_from_slice(&value.to_le_bytes());
    signature
}

/// A table of so many records after these inserts of reading 0, kind 1.
pub fn inserted(records: usize, cards: &[(u32, u16)], arity: u8) -> Vec<u8> {
    let mut table = vec![0; records * RECORD];
    for (card, value) in cards {
        assert_eq!(Model.insert(&mut table, *card, 1, &reading(*value), arity).refusal, 0);
    }
    table
}

/// A full table that is a chain down the slots: cards and timestamps count from 1, and so do the readings 0 of kind 1.
pub fn chain(records: usize) -> Vec<u8> {
    let mut row = vec![Record::free(); records];
    for (slot, record) in row.iter_mut().enumerate() {
        let number = slot + 1;
        record.card = number as u32;
        record.timestamp = number as u32;
        record.radius = (records - number) as u32;
        record.parent = if slot == 0 { NO_SLOT } else { slot as u16 - 1 };
        record.kind = 1;
        record.signature = reading(number as u16);
        let child = [number as u16];
        record.set_children(if number < records { &child } else { &[] });
    }
    table_bytes(&row)
}

/// A table with so many used records, inserted by the model.
pub fn grown(
    random: &mut Random,
    records: usize,
    used: usize,
    kind: u8,
    flavour: Flavour,
    arity: Option<u8>,
) -> Vec<u8> {
    let mut source = Source::new(random, kind, flavour);
    let mut table = vec![0; records * RECORD];
    for card in random.distinct(used, 1, u64::from(u32::MAX)) {
        let signature = source.next(random);
        let arity = arity.unwrap_or_else(|| random.from_to(1, 8) as u8);
        assert_eq!(Model.insert(&mut table, card, kind, &signature, arity).refusal, 0);
    }
    table
}

/// The table with every timestamp moved up so that the youngest is this one.
pub fn aged(table: &[u8], youngest: u32) -> Vec<u8> {
    let mut records = parse_table(table);
    let last = records.iter().map(|record| record.timestamp).max().unwrap_or(0);
    for record in records.iter_mut().filter(|record| record.used()) {
        record.timestamp += youngest - last;
    }
    table_bytes(&records)
}

/// The table with the timestamp of one record set.
pub fn with_timestamp(table: &[u8], slot: usize, timestamp: u32) -> Vec<u8> {
    let mut records = parse_table(table);
    records[slot].timestamp = timestamp;
    table_bytes(&records)
}

/// What a card is in its tree, for choosing one to delete.
#[derive(Clone, Copy, Debug, PartialEq, Eq)]
pub enum Role {
    Root,
    Leaf,
    /// Below the root, with some below it.
    Middle,
    Any,
}

impl Role {
    pub const ALL: [Role; 4] = [Role::Root, Role::Leaf, Role::Middle, Role::Any];
}

/// A card of the table with that role, if there is one.
pub fn some_card(random: &mut Random, table: &[u8], role: Role) -> Option<u32> {
    let fits = |record: &Record| match role {
        Role::Root => record.is_root(),
        Role::Leaf => record.count == 0,
        Role::Middle => !record.is_root() && record.count > 0,
        Role::Any => true,
    };
    let records = parse_table(table);
    let cards: Vec<u32> = records.iter().filter(|record| record.used() && fits(record)).map(|r| r.card).collect();
    random.any(&cards)
}

pub fn used(table: &[u8]) -> usize {
    parse_table(table).iter().filter(|record| record.used()).count()
}

/// The kind of the table's cards; 1 for a free table, which takes either.
pub fn kind_of(table: &[u8]) -> u8 {
    parse_table(table).iter().find(|record| record.used()).map_or(1, |record| record.kind)
}
