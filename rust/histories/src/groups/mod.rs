//! The groups of histories, and their running. The same seed and amount give the same histories.

mod arguments;
mod author;
mod damaged;
mod few;
mod roles;
mod run;
mod shapes;
mod sizes;

pub use run::{run_all, Report};

use model::history::History;
use model::random::Random;
use model::record::MOST_RECORDS;

pub const DEFAULT_SEED: u64 = 20_260_601;
/// The gate's amount; every number of histories is taken as so many hundredths.
pub const DEFAULT_AMOUNT: usize = 100;

/// Draws one history; the number tells which of the group's it is.
type Draw = fn(&mut Random, usize) -> History;

/// Each group with its number of histories at the gate's amount. A group is drawn after the one before it from the same
/// numbers, so the order is part of what a seed gives.
const GROUPS: [(&str, usize, Draw); 22] = [
    ("calls alone from a free table, 1 to 24 records", 6000, sizes::fresh_small),
    ("calls alone from a free table, 25 to 200 records", 240, sizes::fresh_medium),
    ("calls alone from a free table, 201 to 1,024 records", 12, sizes::fresh_large),
    ("from well-formed tables of any shape, mostly not sound", 2000, sizes::assembled),
    ("bytes turned from outside now and then", 2400, sizes::rough),
    ("every size from 1 to 1,024", MOST_RECORDS, sizes::every_size),
    ("cards by their place in the tree: root, leaf, middle, any", 1200, roles::roles),
    ("the same in full tables of 512, 1,023 and 1,024 records", 12, roles::roles_large),
    ("every card deleted, down to the free table", 1000, roles::down_to_free),
    ("one signature for all cards", 500, shapes::one_signature),
    ("stars, where only the arity ends a record's children", 500, shapes::star),
    ("timestamps near 4,294,967,295", 2000, shapes::late),
    ("named damage, every call", 27 * 100, damaged::damaged),
    ("blind damage, every call", 2500, damaged::blind),
    ("well formed but not sound", 1200, damaged::loosened),
    ("lists shorter than, as long as and longer than the stored cards", 600, arguments::lists),
    ("rows shorter than, as long as and longer than a signature", 600, arguments::rows),
    ("arguments in all combinations", 24, arguments::arguments),
    ("the nearest few, every k from 1 to 64", 400, few::every_k),
    ("the nearest few in full tables of 1,024 records, any shape", 20, few::largest),
    ("the nearest few, arguments in all combinations", 24, few::arguments),
    ("chains and full trees of 1,024 records", 8, shapes::largest),
];
