//! Tables made to cost a call for the nearest few as much as can be: hundreds of records wait at once, each comes to
//! wait before or behind all that do already, and then hundreds more come, one after the other, before all of these.

use crate::tables::{Bench, Setting, ITEMS};
use model::record::{table_bytes, Record, MOST_RECORDS, NO_SLOT};
use model::signature::Flavour;
use std::ops::Range;

// Slots, which stand in the order of age: the root, five below it, and eight below each of these make the top.
const MIDDLES: Range<usize> = 1..6;
const PARENTS: Range<usize> = 6..46;
/// Each the only child of the one before, the first a child of the root.
const CHAIN: Range<usize> = 46..384;
/// Eight below each parent.
const CROWD: Range<usize> = 384..704;
/// One below each of the crowd.
const LEAVES: Range<usize> = 704..MOST_RECORDS;

/// Where those of the crowd come to wait: equal bounds go by age.
#[derive(Clone, Copy, Debug, PartialEq, Eq)]
pub enum Order {
    /// The youngest eight below the first parent that is taken, so that later ones wait before earlier ones.
    Before,
    /// The oldest eight below the first.
    Behind,
}

/// All cards have one signature, and each query is as far from it as can be. So a covering radius alone makes a
/// record's bound: 0 in the top, 1 in the chain and 2 in the crowd. The top is taken first, then the chain.
pub fn crowd(kind: u8, order: Order) -> Bench {
    let parent = |slot: usize| parent(slot, order);
    let farthest = if kind == 1 { 1_048_560 } else { 256 };
    let mut row = vec![Record::free(); MOST_RECORDS];
    for (slot, record) in row.iter_mut().enumerate() {
        let children = (0..MOST_RECORDS).filter(|child| parent(*child) == Some(slot)).map(|child| child as u16);
        record.set_children(&children.collect::<Vec<u16>>());
        record.timestamp = slot as u32 + 1;
        record.radius = match slot {
            _ if CHAIN.contains(&slot) => farthest - 1,
            _ if CROWD.contains(&slot) => farthest - 2,
            _ => farthest,
        };
        record.parent = parent(slot).map_or(NO_SLOT, |parent| parent as u16);
        record.kind = kind;
    }
    for (before, slot) in in_turn(order).into_iter().enumerate() {
        // Whatever is compared later comes before all that are held.
        row[slot].card = (MOST_RECORDS - before) as u32;
    }
    let full = table_bytes(&row);
    let setting = Setting { records: MOST_RECORDS, flavour: Flavour::Few, kind, arity: 8 };
    Bench { setting, room: full.clone(), full, queries: vec![[255; 32]; ITEMS] }
}

fn parent(slot: usize, order: Order) -> Option<usize> {
    let of_eight = |slot: usize, range: Range<usize>| (slot - range.start) / 8;
    match slot {
        0 => None,
        _ if MIDDLES.contains(&slot) || slot == CHAIN.start => Some(0),
        _ if PARENTS.contains(&slot) => Some(MIDDLES.start + of_eight(slot, PARENTS)),
        _ if CHAIN.contains(&slot) => Some(slot - 1),
        _ if CROWD.contains(&slot) && order == Order::Before => Some(PARENTS.end - 1 - of_eight(slot, CROWD)),
        _ if CROWD.contains(&slot) => Some(PARENTS.start + of_eight(slot, CROWD)),
        _ => Some(slot - LEAVES.len()),
    }
}

/// The slots in the order in which they are compared.
fn in_turn(order: Order) -> Vec<usize> {
    let crowd = PARENTS.flat_map(|host| CROWD.filter(move |slot| parent(*slot, order) == Some(host)));
    let top = [0].into_iter().chain(MIDDLES).chain([CHAIN.start]).chain(PARENTS);
    top.chain(crowd).chain(CHAIN.skip(1)).chain(LEAVES).collect()
}
