//! Tables lent to the probe functions: at any address, between guard bytes, and shown to a reader when they fail.

use model::random::Random;
use model::record::RECORD;

const GUARD: usize = 80;

/// A copy of a table at an odd place among guard bytes, so that a write beside it is seen.
pub struct Lent {
    bytes: Vec<u8>,
    from: usize,
    length: usize,
}

impl Lent {
    pub fn new(random: &mut Random, table: &[u8]) -> Lent {
        let from = GUARD + random.below(8);
        let mut bytes = vec![0xa5; from + table.len() + GUARD];
        bytes[from..from + table.len()].copy_from_slice(table);
        Lent { bytes, from, length: table.len() }
    }

    pub fn table(&self) -> &[u8] {
        &self.bytes[self.from..self.from + self.length]
    }

    pub fn table_mut(&mut self) -> &mut [u8] {
        &mut self.bytes[self.from..self.from + self.length]
    }

    /// Whether the table is these bytes and nothing beside it was written.
    pub fn is(&self, table: &[u8]) -> bool {
        let guards = self.bytes[..self.from].iter().chain(&self.bytes[self.from + self.length..]);
        self.table() == table && guards.into_iter().all(|byte| *byte == 0xa5)
    }
}

/// The records of a table that are not all zero, at most twelve of them, as hexadecimal bytes.
pub fn shown(table: &[u8]) -> String {
    let mut text = format!("table of {} bytes", table.len());
    let used = table.chunks(RECORD).enumerate().filter(|(_, record)| record.iter().any(|byte| *byte != 0));
    for (slot, record) in used.take(12) {
        text += &format!("\n  record {slot}: ");
        record.iter().for_each(|byte| text += &format!("{byte:02x}"));
    }
    text
}
