//! Histories by their arguments: lists and rows of every length, and all arguments at and beside their ends.

use super::author::Author;
use super::damaged::small_table;
use crate::starts::{aged, grown, kind_of, used};
use model::history::{Command, History};
use model::random::Random;
use model::record::{parse_table, RECORD};
use model::signature::Flavour;

/// The records of a table that all arguments are tried on.
const RECORDS: usize = 5;
const ARITIES: [u8; 5] = [0, 1, 8, 9, 255];

pub fn lists(random: &mut Random, _: usize) -> History {
    let start = small_table(random);
    let many = used(&start);
    let mut author = Author::on(random, &start, kind_of(&start));
    let mut commands = Vec::new();
    for places in [0, 1, many / 2, many.saturating_sub(1), many, many + 1, many + 300] {
        let Command::Search { kind, signature, .. } = author.search(random) else { unreachable!() };
        let radius = random.pick(&[0, u32::MAX, 1 << 20]);
        commands.extend([Command::Search { kind, signature, radius, places }, Command::Cards { places }]);
    }
    History { start, commands }
}

/// The cards of the first and the last slot and of some between, and those beside them, into rows of every length. A
/// free slot's card is 0.
pub fn rows(random: &mut Random, _: usize) -> History {
    let start = small_table(random);
    let records = parse_table(&start);
    let mut slots = vec![0, records.len() - 1];
    slots.extend((0..8).map(|_| random.below(records.len())));
    let mut commands = vec![Command::Cards { places: used(&start) }];
    for slot in slots {
        for card in [records[slot].card, records[slot].card.wrapping_add(1)] {
            commands.push(Command::Card { card, row: random.pick(&[0, 16, 31, 32, 32, 32, 33, 64, 300]) });
        }
    }
    History { start, commands }
}

/// Every combination of arguments at and beside their ends, on a table of each sort.
pub fn arguments(random: &mut Random, round: usize) -> History {
    let start = sort(random, round % 6);
    let stored = parse_table(&start)[0].card;
    let mut commands = Vec::new();
    for kind in [0, 1, 2, 3, 255] {
        for length in [0, 1, 31, 32, 33, 64] {
            let signature = vec![random.byte(); length];
            inserts(&mut commands, stored, kind, &signature);
            for places in [0, RECORDS - 1, RECORDS, RECORDS + 1] {
                let radius = random.pick(&[0, 1, 300, u32::MAX]);
                commands.push(Command::Search { kind, signature: signature.clone(), radius, places });
            }
        }
    }
    for arity in ARITIES {
        for card in [0, u32::MAX, stored] {
            commands.push(Command::Delete { card, arity });
        }
    }
    questions(&mut commands, stored);
    History { start, commands }
}

/// What is stored, with lists and rows of every length at and beside the ends.
fn questions(commands: &mut Vec<Command>, stored: u32) {
    for places in [0, 1, RECORDS - 2, RECORDS - 1, RECORDS, RECORDS + 1] {
        commands.push(Command::Cards { places });
    }
    for card in [0, stored, u32::MAX] {
        for row in [0, 1, 31, 32, 33, 64] {
            commands.push(Command::Card { card, row });
        }
    }
}

/// A table of one sort: free, of either kind, full, at the last timestamp, or not well formed.
fn sort(random: &mut Random, sort: usize) -> Vec<u8> {
    match sort {
        0 => vec![0; RECORDS * RECORD],
        1 | 2 => grown(random, RECORDS, 3, sort as u8, Flavour::Line, None),
        3 => grown(random, RECORDS, RECORDS, 1, Flavour::Few, None),
        4 => aged(&grown(random, RECORDS, 4, 2, Flavour::Extreme, None), u32::MAX),
        _ => {
            let mut table = grown(random, RECORDS, RECORDS, 2, Flavour::Uniform, None);
            table[15] = 0;
            table
        }
    }
}

/// Inserts with every arity of card 0, a stored card and a new one.
fn inserts(commands: &mut Vec<Command>, stored: u32, kind: u8, signature: &[u8]) {
    for arity in ARITIES {
        for card in [0, stored, u32::MAX] {
            commands.push(Command::Insert { card, kind, signature: signature.to_vec(), arity });
            // What was let in goes out again, so that the table stays of its sort.
            if (1..=8).contains(&arity) && card == u32::MAX {
                commands.push(Command::Delete { card, arity });
            }
        }
    }
}
