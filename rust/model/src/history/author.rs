//! The author of a history: draws one command after another, mostly fitting ones.

use super::Command;
use crate::distance::{FAULT_BITS, READINGS};
use crate::random::Random;
use crate::signature::Source;
use std::collections::BTreeSet;

/// Draws the commands of one history.
pub struct Author {
    records: usize,
    pub kind: u8,
    source: Source,
    /// The cards that inserts, deletes and questions are of.
    cards: Vec<u32>,
    /// Those of them that are stored, as far as the commands drawn so far can tell.
    likely: BTreeSet<u32>,
    /// One arity for the history, or none for any at each call.
    arity: Option<u8>,
    /// Inserts in a hundred of the inserts and deletes.
    growth: u64,
}

impl Author {
    pub fn new(random: &mut Random, records: usize) -> Author {
        let kind = random.pick(&[READINGS, FAULT_BITS]);
        let pool = records + records / 3 + 2;
        let last = random.pick(&[u64::from(u32::MAX), 2 * pool as u64]);
        Author {
            records,
            kind,
            source: Source::any_flavour(random, kind),
            cards: random.distinct(pool, 1, last),
            likely: BTreeSet::new(),
            arity: random.percent(50).then(|| random.from_to(1, 8) as u8),
            growth: random.pick(&[50, 65, 80, 95]),
        }
    }

    /// Cards that stand in the table to begin with.
    pub fn begins_with(&mut self, stored: &[u32]) {
        self.cards.extend(stored);
        self.likely.extend(stored);
    }

    fn some_signature(&mut self, random: &mut Random) -> Vec<u8> {
        let mut signature = self.source.next(random).to_vec();
        if random.percent(1) {
            signature.resize(random.pick(&[0, 16, 31, 33, 64]), 7);
        }
        signature
    }

    fn some_arity(&mut self, random: &mut Random) -> u8 {
        if random.percent(2) {
            return random.pick(&[0, 9, 128, 255]);
        }
        self.arity.unwrap_or_else(|| random.from_to(1, 8) as u8)
    }

    fn some_kind(&self, random: &mut Random) -> u8 {
        if random.percent(2) {
            return random.pick(&[0, 1, 2, 3, 255]);
        }
        self.kind
    }

    fn some_card(&self, random: &mut Random) -> u32 {
        if random.percent(1) {
            return 0;
        }
        random.pick(&self.cards)
    }

    fn some_radius(&self, random: &mut Random) -> u32 {
        let most: u64 = if self.kind == READINGS { 1_048_560 } else { 256 };
        match random.below(6) {
            0 => 0,
            1 => random.from_to(0, 12) as u32,
            2 => random.from_to(0, most / 40) as u32,
            3 => random.from_to(0, most / 4) as u32,
            4 => random.from_to(0, most) as u32,
            _ => random.pick(&[most as u32, most as u32 + 1, u32::MAX, u32::MAX - 1, 1 << 31]),
        }
    }

    fn some_places(&self, random: &mut Random) -> usize {
        if random.percent(10) {
            return random.below(self.records + 2);
        }
        self.records + random.below(4)
    }

    /// Mostly few, often about as many as are stored, sometimes at or beside the ends.
    fn some_k(&self, random: &mut Random) -> u32 {
        let stored = self.likely.len() as u32;
        match random.below(10) {
            0..=3 => random.from_to(1, 6) as u32,
            4 => random.from_to(1, 64) as u32,
            5..=7 => random.pick(&[stored.saturating_sub(1), stored, stored + 1]),
            8 => random.pick(&[1, 2, 63, 64]),
            _ => random.pick(&[0, 1, 64, 65, u32::MAX]),
        }
    }

    /// A list for k cards: mostly long enough, but for a k that no list is as long as.
    fn some_pairs(&self, random: &mut Random, k: u32) -> usize {
        let k = k.min(70) as usize;
        match random.below(10) {
            0 if random.percent(50) => random.below(k + 1),
            0 => random.pick(&[0, k.saturating_sub(1)]),
            1..=5 => k,
            6 | 7 => k + 1,
            _ => k + random.below(40),
        }
    }

    fn some_row(&self, random: &mut Random) -> usize {
        if random.percent(15) {
            return random.pick(&[0, 1, 16, 31]);
        }
        random.pick(&[32, 32, 33, 40, 64])
    }

    pub fn command(&mut self, random: &mut Random) -> Command {
        let command = self.draw(random);
        match &command {
            Command::Insert { card, .. } if self.likely.len() < self.records => _ = self.likely.insert(*card),
            Command::Delete { card, .. } => _ = self.likely.remove(card),
            Command::Clear => self.likely.clear(),
            _ => {}
        }
        command
    }

    fn draw(&mut self, random: &mut Random) -> Command {
        match random.below(100) {
            0..=57 if random.percent(self.growth) => {
                let kind = self.some_kind(random);
                Command::Insert {
                    card: self.some_card(random),
                    kind,
                    signature: self.some_signature(random),
                    arity: self.some_arity(random),
                }
            }
            0..=57 => Command::Delete { card: self.some_card(random), arity: self.some_arity(random) },
            58..=60 => Command::Cards { places: self.some_places(random) },
            61..=64 => Command::Card { card: self.some_card(random), row: self.some_row(random) },
            65..=83 => Command::Search {
                kind: self.some_kind(random),
                signature: self.some_signature(random),
                radius: self.some_radius(random),
                places: self.some_places(random),
            },
            84..=94 => {
                let k = self.some_k(random);
                Command::Nearest {
                    kind: self.some_kind(random),
                    signature: self.some_signature(random),
                    k,
                    places: self.some_pairs(random, k),
                }
            }
            95..=98 => Command::Check,
            _ => self.rarely(random),
        }
    }

    /// A change of course: another growth, or a clear and perhaps the other kind.
    fn rarely(&mut self, random: &mut Random) -> Command {
        self.growth = random.pick(&[20, 50, 65, 80, 95]);
        if random.percent(70) {
            return Command::Check;
        }
        self.kind = random.pick(&[READINGS, FAULT_BITS]);
        self.source = Source::any_flavour(random, self.kind);
        Command::Clear
    }
}
