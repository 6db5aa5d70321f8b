//! Command records to try.

use model::distance::{FAULT_BITS, READINGS};
use model::program::{command, CHECK, COMMAND, DELETE, INSERT, SEARCH};
use model::random::Random;
use model::signature::Source;

/// The paper's listing.
pub fn listing() -> Vec<u8> {
    let reading = |value: u8| {
        let mut signature = [0; 32];
        signature[0] = value;
        signature
    };
    let inserts = [(11, 50), (12, 80), (13, 20), (14, 52), (15, 40), (16, 78)];
    let mut all: Vec<u8> =
        inserts.iter().flat_map(|(card, value)| command(INSERT, 1, 2, *card, 0, &reading(*value))).collect();
    all.extend(command(SEARCH, 1, 2, 0, 5, &reading(48)));
    all.extend(command(DELETE, 1, 2, 12, 0, &reading(0)));
    all.extend(command(SEARCH, 1, 2, 0, 5, &reading(48)));
    all.extend(command(DELETE, 1, 2, 99, 0, &reading(0)));
    all.extend(command(CHECK, 0, 0, 0, 0, &reading(0)));
    all
}

/// A record of this operation whose other bytes are anything.
pub fn noise(random: &mut Random, operation: u8) -> Vec<u8> {
    let mut record: Vec<u8> = (0..COMMAND).map(|_| random.byte()).collect();
    record[0] = operation;
    record
}

/// Writes the commands of one history.
pub struct Writer {
    kind: u8,
    source: Source,
    cards: Vec<u32>,
}

impl Writer {
    pub fn new(random: &mut Random) -> Writer {
        let kind = random.pick(&[READINGS, FAULT_BITS]);
        let pool = random.pick(&[8, 60, 700]);
        Writer { kind, source: Source::any_flavour(random, kind), cards: random.distinct(pool, 1, u64::from(u32::MAX)) }
    }

    /// Inserts of so many new cards.
    pub fn fill(&mut self, random: &mut Random, many: usize) -> Vec<u8> {
        let cards = random.distinct(many, 1, u64::from(u32::MAX));
        cards.into_iter().flat_map(|card| self.record(random, INSERT, card)).collect()
    }

    pub fn commands(&mut self, random: &mut Random, many: usize) -> Vec<u8> {
        let mut all = Vec::with_capacity(many * COMMAND);
        for _ in 0..many {
            let operation = match random.below(100) {
                0..=49 => INSERT,
                50..=64 => DELETE,
                65..=95 => SEARCH,
                96..=98 => CHECK,
                _ => random.byte(),
            };
            let card = if random.percent(1) { 0 } else { random.pick(&self.cards) };
            all.extend(self.record(random, operation, card));
        }
        all
    }

    /// A record that fits its operation, mostly; what the operation does not need is anything.
    fn record(&mut self, random: &mut Random, operation: u8, card: u32) -> Vec<u8> {
        let kind = if random.percent(1) { random.byte() } else { self.kind };
        let arity = if random.percent(1) { random.pick(&[0, 9, 255]) } else { random.from_to(1, 8) as u8 };
        let most: u64 = if self.kind == READINGS { 1_048_560 } else { 256 };
        let radius = random.pick(&[0, random.clone().from_to(0, most / 8) as u32, most as u32, u32::MAX]);
        let mut record = command(operation, kind, arity, card, radius, &self.source.next(random));
        let unneeded: &[usize] = match operation {
            INSERT => &[3, 8, 9, 10, 11, 12, 13, 14, 15],
            DELETE => &[1, 3, 8, 11, 12, 15, 16, 47],
            SEARCH => &[2, 3, 4, 7, 12, 15],
            CHECK => &[1, 2, 3, 4, 8, 12, 16, 47],
            _ => &[3],
        };
        unneeded.iter().for_each(|at| record[*at] = random.byte());
        record
    }
}
