//! Whether a table is well formed: one pass over the records, counting links, then cards told apart, and timestamps
//! unless they rise with the slots.

use crate::record::{
    card, child_slots, count, kind, parent, records, timestamp, Record, CHILD_SLOTS, MOST_RECORDS, NO_SLOT, RECORD,
};

/// What a pass over a well-formed table tells besides.
#[derive(Clone, Copy, Debug)]
pub struct Survey {
    pub used: usize,
    /// The root's slot; 0 in a free table.
    pub root: usize,
    /// The kind of every used record; 0 in a free table.
    pub kind: u8,
    pub youngest: u32,
}

pub fn size_is_right(length: usize) -> bool {
    length.is_multiple_of(RECORD) && (1..=MOST_RECORDS).contains(&(length / RECORD))
}

/// The survey of a well-formed table, none of another. The length has been judged.
///
/// Every link within a count names a used record that names this one back and is younger, and siblings rise. So no
/// record is linked twice, and with one root, as many links as used records less one leave no record out.
pub fn judge(table: &[u8]) -> Option<Survey> {
    let table = records(table);
    let mut survey = Survey { used: 0, root: 0, kind: 0, youngest: 0 };
    let (mut roots, mut links) = (0, 0);
    // Timestamps that rise with the slots are different by that alone.
    let mut rising = true;
    for (slot, record) in table.iter().enumerate() {
        if card(record) == 0 {
            if record.iter().any(|byte| *byte != 0) {
                return None;
            }
            continue;
        }
        if survey.used == 0 {
            survey.kind = kind(record);
        }
        if !own_fields_are_right(record, survey.kind) || !links_are_right(table, slot, record) {
            return None;
        }
        if parent(record) == NO_SLOT {
            roots += 1;
            survey.root = slot;
        }
        links += count(record);
        rising &= survey.youngest < timestamp(record);
        survey.youngest = survey.youngest.max(timestamp(record));
        survey.used += 1;
    }
    let used = survey.used;
    if used > 0 && (roots != 1 || links != used - 1) {
        return None;
    }
    (all_distinct(table, card) && (rising || all_distinct(table, timestamp))).then_some(survey)
}

fn own_fields_are_right(record: &Record, first_kind: u8) -> bool {
    let (own, count) = (kind(record), count(record));
    if timestamp(record) == 0 || count > CHILD_SLOTS || !(1..=2).contains(&own) || own != first_kind {
        return false;
    }
    // The slots past the count are all ones.
    let slots = child_slots(record);
    FIRST_FLOORS[count] <= slots as u64 && LAST_FLOORS[count] <= (slots >> 64) as u64
}

/// By the count of children: the least number that the first four child slots make if those past the count are 65,535.
const FIRST_FLOORS: [u64; 9] = [u64::MAX, u64::MAX << 16, u64::MAX << 32, u64::MAX << 48, 0, 0, 0, 0, 0];
/// The same of the last four.
const LAST_FLOORS: [u64; 9] =
    [u64::MAX, u64::MAX, u64::MAX, u64::MAX, u64::MAX, u64::MAX << 16, u64::MAX << 32, u64::MAX << 48, 0];

fn links_are_right(table: &[Record], slot: usize, record: &Record) -> bool {
    let mut slots = child_slots(record);
    let mut before = timestamp(record);
    for _ in 0..count(record) {
        // A free record's timestamp is 0, so it is no younger one.
        let Some(below) = table.get(usize::from(slots as u16)) else { return false };
        let younger = timestamp(below);
        if usize::from(parent(below)) != slot || younger <= before {
            return false;
        }
        before = younger;
        slots >>= 16;
    }
    true
}

/// Cells of the hash table: four times the most keys, so that chains stay short.
const CELLS: usize = 4 * MOST_RECORDS;
/// The cells that a key may look at before the keys are sorted instead, so that no choice of keys makes this slow.
const PROBES: usize = 32;

/// Whether no two records have the same key, 0 aside.
fn all_distinct(table: &[Record], key: impl Fn(&Record) -> u32) -> bool {
    let mut cells = [0u32; CELLS];
    for record in table {
        let key_here = key(record);
        let first = (key_here.wrapping_mul(0x9e37_79b9) >> 20) as usize;
        let free = (first..first + PROBES).find(|cell| [0, key_here].contains(&cells[cell % CELLS]));
        let Some(cell) = free else { return all_distinct_by_order(table, key) };
        if cells[cell % CELLS] != 0 {
            return false;
        }
        cells[cell % CELLS] = key_here;
    }
    true
}

fn all_distinct_by_order(table: &[Record], key: impl Fn(&Record) -> u32) -> bool {
    let mut sorted = [0; MOST_RECORDS];
    let sorted = &mut sorted[..table.len()];
    for (place, record) in sorted.iter_mut().zip(table) {
        *place = key(record);
    }
    sorted.sort_unstable();
    sorted.windows(2).all(|pair| pair[0] == 0 || pair[0] != pair[1])
}
