//! Blind damage to bytes, fields and links.

use crate::random::Random;
use crate::record::{parse_table, table_bytes, RECORD};

/// Changes that look at nothing; what they break, if anything, is for the judge to say.
#[derive(Clone, Copy, Debug, PartialEq, Eq)]
pub enum Blind {
    /// One to three bytes anywhere.
    Bytes,
    /// One to three bytes before the signatures.
    HeadBytes,
    /// One bit.
    Bit,
    /// One to three whole fields.
    Fields,
    /// One to three parents or child slots set to some slot.
    Links,
    /// One to three bytes of the last record.
    LastRecord,
    /// Two records in each other's place, the links left.
    Exchange,
}

impl Blind {
    pub const ALL: [Blind; 7] =
        [Blind::Bytes, Blind::HeadBytes, Blind::Bit, Blind::Fields, Blind::Links, Blind::LastRecord, Blind::Exchange];

    pub fn apply(self, random: &mut Random, table: &mut [u8]) {
        let records = table.len() / RECORD;
        let times = random.from_to(1, 3);
        match self {
            Blind::Bytes => (0..times).for_each(|_| table[random.below(table.len())] = odd_byte(random)),
            Blind::HeadBytes => (0..times).for_each(|_| {
                table[random.below(records) * RECORD + random.below(32)] = odd_byte(random);
            }),
            Blind::Bit => table[random.below(records) * RECORD + random.below(32)] ^= 1 << random.below(8),
            Blind::Fields => (0..times).for_each(|_| some_field(random, table)),
            Blind::Links => (0..times).for_each(|_| {
                let place = random.pick(&[12, 16, 18, 20, 22, 24, 26, 28, 30]);
                let at = random.below(records) * RECORD + place;
                let slot = if random.percent(80) { random.below(records) as u16 } else { random.word() as u16 };
                table[at..at + 2].copy_from_slice(&slot.to_le_bytes());
            }),
            Blind::LastRecord => (0..times).for_each(|_| {
                table[(records - 1) * RECORD + random.below(32)] = odd_byte(random);
            }),
            Blind::Exchange => {
                let mut row = parse_table(table);
                row.swap(random.below(records), random.below(records));
                table.copy_from_slice(&table_bytes(&row));
            }
        }
    }
}

fn odd_byte(random: &mut Random) -> u8 {
    match random.below(4) {
        0 => random.pick(&[0, 1, 2, 3, 8, 9, 127, 128, 255]),
        1 => random.below(16) as u8,
        _ => random.byte(),
    }
}

/// Sets one field of one record to a number that often means something: a small one, or another record's.
fn some_field(random: &mut Random, table: &mut [u8]) {
    let records = table.len() / RECORD;
    let (from, width) = random.pick(&[(0, 4), (4, 4), (8, 4), (12, 2), (14, 1), (15, 1), (16, 2), (18, 2), (30, 2)]);
    let at = random.below(records) * RECORD + from;
    let other = random.below(records) * RECORD + from;
    match random.below(3) {
        0 => table.copy_within(other..other + width, at),
        1 => {
            let small = (random.below(12) as u32).to_le_bytes();
            table[at..at + width].copy_from_slice(&small[..width]);
        }
        _ => (at..at + width).for_each(|place| table[place] = random.byte()),
    }
}
