//! The paper's listing, its edges and its errors that look right, worked out by hand and held against the model; those
//! of the nearest few cards; and edges of the calls that go beyond the paper.

mod edges;
mod errors;
mod listing;
mod nearest;
mod stored;

use model::calls::Model;
use model::distance::{Signature, READINGS};
use model::index::{Answer, Index, Search};
use model::record::RECORD;
use model::refusal::DONE;

/// Kind 1 with reading 0 as given and the others 0.
fn reading(value: u16) -> Signature {
    let mut signature = [0; 32];
    signature[..2].copy_from_slice(&value.to_le_bytes());
    signature
}

const LISTING_INSERTS: [(u32, u16); 6] = [(11, 50), (12, 80), (13, 20), (14, 52), (15, 40), (16, 78)];

/// The table after line 6, of eight records.
fn after_line_6() -> Vec<u8> {
    let mut table = vec![0; 8 * RECORD];
    for (card, value) in LISTING_INSERTS {
        assert_eq!(Model.insert(&mut table, card, READINGS, &reading(value), 2).refusal, DONE);
    }
    table
}

fn search(table: &[u8], value: u16, radius: u32) -> (Answer, Vec<u32>) {
    let mut list = vec![0; table.len() / RECORD];
    let answer = Model.search(table, Search { kind: READINGS, signature: &reading(value), radius, list: &mut list });
    list.truncate(answer.found as usize);
    (answer, list)
}

fn done(count: u32, found: u32) -> Answer {
    Answer { refusal: DONE, count, found, kind: 0 }
}

fn refused(refusal: u32) -> Answer {
    Answer::refused(refusal)
}
