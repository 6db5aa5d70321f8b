//! Whether a well-formed table is sound: every record is held against each one above it, and their siblings.

use crate::calls::admit;
use crate::record::{card, child, count, distance, parent, radius, records, signature, timestamp, Record, NO_SLOT};
use model::index::Answer;
use model::refusal::{DONE, LOOSE};

pub fn check(table: &[u8]) -> Answer {
    match admit(table) {
        Err(refusal) => Answer::refused(refusal),
        Ok(survey) => {
            let table = records(table);
            let sound = table.iter().all(|x| card(x) == 0 || stands_right(table, x, survey.kind));
            Answer::refused(if sound { DONE } else { LOOSE })
        }
    }
}

/// Goes up from x: each record above reaches it, and is no farther from it than any sibling that is older than x.
fn stands_right(table: &[Record], x: &Record, kind: u8) -> bool {
    let mut up = parent(x);
    while up != NO_SLOT {
        let b = &table[usize::from(up)];
        let far = distance(kind, signature(b), signature(x));
        if far > radius(b) {
            return false;
        }
        let host = parent(b);
        if host != NO_SLOT {
            let host = &table[usize::from(host)];
            for place in 0..count(host) {
                let slot = child(host, place);
                let c = &table[usize::from(slot)];
                // Siblings rise.
                if timestamp(c) >= timestamp(x) {
                    break;
                }
                if slot != up && distance(kind, signature(c), signature(x)) < far {
                    return false;
                }
            }
        }
        up = host;
    }
    true
}
