//! The drawings: the walk against the library's search (`walk`), what the pictures hold and where (`pictures`); here
//! the tables that both try.

#[path = "draw/pictures.rs"]
mod pictures;
#[path = "draw/walk.rs"]
mod walk;

use plotvuga::{Signature, Table, RECORD};
use rack::draw::{Record, Tree};

/// Numbers that are the same in every run.
struct Source(u64);

impl Source {
    fn below(&mut self, end: u64) -> u64 {
        self.0 = self.0.wrapping_mul(6_364_136_223_846_793_005).wrapping_add(1_442_695_040_888_963_407);
        (self.0 >> 33) % end
    }

    /// Readings or a mask in one of a few clusters, so that walks cut off much and equal distances are frequent.
    fn signature(&mut self, masks: bool) -> Signature {
        let cluster = self.below(5);
        if masks {
            let near = |source: &mut Source| 0xffff << source.below(9);
            return Signature::faults([0, 1, 2, 3].map(|at| if at == cluster { near(self) } else { self.below(8) }));
        }
        let reading = |at: usize| if at < 3 { 40 * cluster + self.below(1 + 4 * at as u64) } else { 0 };
        Signature::readings(std::array::from_fn(reading).map(|reading: u64| reading as u16))
    }

    /// A table that calls have made, with cards that have left it.
    fn table(&mut self, masks: bool, cards: u32) -> Table {
        let mut table = Table::new(cards as usize + 3).unwrap();
        let arity = 1 + self.below(8) as u8;
        for card in 1..=cards {
            let signature = self.signature(masks);
            table.insert(card, &signature, arity).unwrap();
            let other = 1 + self.below(u64::from(card)) as u32;
            if self.below(6) == 0 && table.card(other).is_ok() {
                table.delete(other, arity).unwrap();
            }
        }
        table
    }

    fn radius(&mut self) -> u32 {
        match self.below(8) {
            0 => 0,
            1 => u32::MAX - self.below(3) as u32,
            2 => 1_000_000,
            _ => self.below(70) as u32,
        }
    }

    /// The same bytes with covering radii that may be too small.
    fn loosened(&mut self, table: &Table) -> Table {
        let mut bytes = table.bytes().to_vec();
        for row in bytes.chunks_exact_mut(RECORD) {
            if row[..4] != [0; 4] && self.below(3) == 0 {
                row[8..12].copy_from_slice(&(self.below(30) as u32).to_le_bytes());
            }
        }
        Table::over(bytes)
    }
}

/// Reading 0 as given, the others 0.
fn one(reading: u16) -> Signature {
    Signature::readings(std::array::from_fn(|at| if at == 0 { reading } else { 0 }))
}

/// The paper's listing after line 6.
fn listing() -> Table {
    let mut table = Table::new(512).unwrap();
    for (card, reading) in [(11, 50), (12, 80), (13, 20), (14, 52), (15, 40), (16, 78)] {
        table.insert(card, &one(reading), 2).unwrap();
    }
    table
}

/// So many cards, each below the one before, with numbers of ten digits.
fn chain(cards: u32) -> Table {
    let mut table = Table::new(cards as usize).unwrap();
    for card in 0..cards {
        table.insert(4_294_960_000 + card, &one(7 * card as u16), 1).unwrap();
    }
    table
}

fn all(tree: &Tree) -> Vec<&Record> {
    tree.in_order().map(|(record, _)| record).collect()
}
