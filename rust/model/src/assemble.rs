//! Well-formed tables put together by hand and not by calls: any shape of tree, any slots, any timestamps that rise,
//! any radius. Most are not sound; every one must be accepted as well formed.

use crate::distance::{FAULT_BITS, READINGS};
use crate::random::Random;
use crate::record::{table_bytes, Record, CHILD_SLOTS, MOST_RECORDS, NO_SLOT};
use crate::signature::Source;

/// How the records of a table hang together.
#[derive(Clone, Copy, Debug, PartialEq, Eq)]
pub enum Shape {
    Chain,
    /// Every record takes eight children before the next one takes any.
    Full,
    Random,
    /// Random, but most hang below the youngest few.
    Deep,
}

impl Shape {
    pub const ALL: [Shape; 4] = [Shape::Chain, Shape::Full, Shape::Random, Shape::Deep];
}

/// How the timestamps of a table are spread, oldest first.
#[derive(Clone, Copy, Debug, PartialEq, Eq)]
pub enum Clock {
    /// 1, 2, 3 and on.
    Dense,
    /// Anywhere from 1 to 4,294,967,295.
    Sparse,
    /// The last of all timestamps, up to 4,294,967,295.
    Late,
    /// Equal in their low bits, so that a table of buckets by those would overflow.
    Coarse,
}

impl Clock {
    pub const ALL: [Clock; 4] = [Clock::Dense, Clock::Sparse, Clock::Late, Clock::Coarse];
}

/// A number of records to try: mostly few, sometimes many, sometimes all 1,024.
pub fn some_records(random: &mut Random) -> usize {
    match random.below(100) {
        0..=9 => random.from_to(1, 3) as usize,
        10..=69 => random.from_to(2, 40) as usize,
        70..=89 => random.from_to(30, 200) as usize,
        90..=96 => random.from_to(200, MOST_RECORDS as u64) as usize,
        _ => MOST_RECORDS,
    }
}

/// A well-formed table of any shape.
pub fn any_table(random: &mut Random) -> Vec<u8> {
    let records = some_records(random);
    let used = match random.below(10) {
        0 => 0,
        1..=3 => records,
        4..=6 => records - records / 4,
        _ => random.below(records + 1),
    };
    let shape = random.pick(&Shape::ALL);
    let clock = random.pick(&Clock::ALL);
    let kind = random.pick(&[READINGS, FAULT_BITS]);
    table(random, records, used, shape, clock, kind)
}

/// A well-formed table of so many records, so many of them used.
pub fn table(random: &mut Random, records: usize, used: usize, shape: Shape, clock: Clock, kind: u8) -> Vec<u8> {
    let mut row = vec![Record::free(); records];
    let mut slots: Vec<u16> = (0..records as u16).collect();
    if random.percent(80) {
        random.shuffle(&mut slots);
    }
    let timestamps = rising(random, used, clock);
    let cards = some_cards(random, used);
    let mut source = Source::any_flavour(random, kind);
    let widest = random.pick(&[0, 0, 12, 150, 400_000, u32::MAX, u32::MAX, u32::MAX]);
    // The slots, oldest first, of records that can take another child.
    let mut open: Vec<u16> = Vec::new();
    for (age, slot) in slots.into_iter().take(used).enumerate() {
        let parent = if age == 0 { NO_SLOT } else { hang(random, shape, &mut row, &mut open, slot) };
        let record = &mut row[usize::from(slot)];
        record.card = cards[age];
        record.timestamp = timestamps[age];
        record.radius = random.from_to(0, u64::from(widest)) as u32;
        record.parent = parent;
        record.kind = kind;
        record.signature = source.next(random);
        record.set_children(&[]);
        open.push(slot);
    }
    table_bytes(&row)
}

/// Makes the slot the youngest child of an open record, as the shape has it; returns that record's slot.
fn hang(random: &mut Random, shape: Shape, row: &mut [Record], open: &mut Vec<u16>, slot: u16) -> u16 {
    let place = match shape {
        Shape::Chain => open.len() - 1,
        Shape::Full => 0,
        Shape::Random => random.below(open.len()),
        Shape::Deep => open.len() - 1 - random.below(open.len().min(4)),
    };
    let parent = open[place];
    let record = &mut row[usize::from(parent)];
    let children = [record.children(), &[slot]].concat();
    record.set_children(&children);
    if children.len() == CHILD_SLOTS {
        open.remove(place);
    }
    parent
}

fn some_cards(random: &mut Random, many: usize) -> Vec<u32> {
    match random.below(3) {
        0 => random.distinct(many, 1, u64::from(u32::MAX)),
        1 => random.distinct(many, 1, 4096),
        _ => coarse(random, many),
    }
}

fn rising(random: &mut Random, many: usize, clock: Clock) -> Vec<u32> {
    match clock {
        Clock::Dense => (1..=many as u32).collect(),
        Clock::Sparse => {
            let mut list = random.distinct(many, 1, u64::from(u32::MAX));
            list.sort();
            list
        }
        Clock::Late => (0..many as u32).rev().map(|before_last| u32::MAX - before_last).collect(),
        Clock::Coarse => {
            let mut list = coarse(random, many);
            list.sort();
            list
        }
    }
}

/// Distinct numbers other than 0 that are equal in their low bits.
fn coarse(random: &mut Random, many: usize) -> Vec<u32> {
    let step = random.pick(&[256u64, 4096, 65_536, 1 << 21]);
    let low = random.below(step as usize) as u64;
    let last = (1u64 << 32) / step - 1;
    random.distinct(many, 1, last).into_iter().map(|high| (u64::from(high) * step + low) as u32).collect()
}

#[cfg(test)]
mod tests {
    use super::*;
    use crate::judge::{judge, Verdict};

    #[test]
    fn every_assembled_table_is_well_formed() {
        let mut random = Random::new(4);
        for round in 0..4000 {
            let table = any_table(&mut random);
            assert_eq!(judge(&table), Verdict::WellFormed, "round {round}");
        }
    }
}
