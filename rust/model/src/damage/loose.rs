//! Tables well formed but not sound.

use crate::random::Random;
use crate::record::{parse_table, table_bytes};
use crate::soundness::sound;
use crate::tree::Tree;

/// Lowers a covering radius or changes a signature until the table is not sound; false, and the table as it was, if
/// a few tries do not do it.
pub fn loosen(random: &mut Random, table: &mut [u8]) -> bool {
    for _ in 0..12 {
        let mut records = parse_table(table);
        let used: Vec<usize> = (0..records.len()).filter(|slot| records[*slot].used()).collect();
        let Some(slot) = random.any(&used) else { return false };
        let record = &mut records[slot];
        match random.below(3) {
            0 => record.radius = record.radius.saturating_sub(1),
            1 => record.radius = random.from_to(0, u64::from(record.radius)) as u32,
            _ => (0..3).for_each(|_| record.signature[random.below(32)] ^= 1 << random.below(8)),
        }
        let loose = table_bytes(&records);
        if !sound(&Tree::of(&loose)) {
            table.copy_from_slice(&loose);
            return true;
        }
    }
    false
}
