//! The scans that the index is held against.

use crate::few::MOST;
use model::index::{Nearest, Pair, Search};
use plotvuga::library;
use twin::record::{card, distance, records, signature, Signature};

/// The plain scan: every used record's distance to the query, the cards within the radius listed, nothing judged. It is
/// never inlined, so that the yardstick does not change with the place that it is called from.
#[inline(never)]
pub fn plain(table: &[u8], lent: Search) -> usize {
    let query: &Signature = lent.signature.try_into().expect("a whole signature");
    let mut found = 0;
    for record in records(table) {
        if card(record) != 0 && distance(lent.kind, signature(record), query) <= lent.radius {
            lent.list[found] = card(record);
            found += 1;
        }
    }
    found
}

/// The library's own judging of the whole table and nothing else: a search with kind 0 is refused with 3 right after.
pub fn judge(table: &[u8], signature: &[u8]) -> u32 {
    let (mut count, mut found) = (0, 0);
    library::search(table, 0, signature, 0, &mut [], &mut count, &mut found)
}

/// The plain scan after the library's own judging.
pub fn validated(table: &[u8], lent: Search) -> usize {
    assert_eq!(judge(table, lent.signature), 3);
    plain(table, lent)
}

/// The plain scan for the nearest few: every used record's distance to the query, the first k kept in a rising row,
/// nothing judged.
#[inline(never)]
pub fn nearest(table: &[u8], lent: Nearest) -> usize {
    let query: &Signature = lent.signature.try_into().expect("a whole signature");
    let mut row = [u64::MAX; MOST as usize];
    let row = &mut row[..lent.k as usize];
    let last = row.len() - 1;
    for record in records(table) {
        let key = u64::from(distance(lent.kind, signature(record), query)) << 32 | u64::from(card(record));
        if key < row[last] && card(record) != 0 {
            let mut at = last;
            while at > 0 && row[at - 1] > key {
                row[at] = row[at - 1];
                at -= 1;
            }
            row[at] = key;
        }
    }
    let found = row.iter().take_while(|key| **key != u64::MAX).count();
    for (entry, key) in lent.list.iter_mut().zip(&row[..found]) {
        *entry = Pair { card: *key as u32, distance: (key >> 32) as u32 };
    }
    found
}

/// That scan after the library's own judging.
pub fn validated_nearest(table: &[u8], lent: Nearest) -> usize {
    assert_eq!(judge(table, lent.signature), 3);
    nearest(table, lent)
}
