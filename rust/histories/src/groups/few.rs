//! Histories of the nearest few: every k on tables of each sort, and all arguments at and beside their ends.

use super::author::Author;
use super::damaged::small_table;
use crate::starts::{grown, kind_of};
use model::assemble::{self, Clock, Shape};
use model::damage::loosen;
use model::history::{grown_table, Command, History};
use model::random::Random;
use model::record::MOST_RECORDS;
use model::signature::Flavour;

/// The most cards that can be asked for.
const MOST: u32 = 64;

/// One query with every k from 1 to 64, so that each list goes on where the one before it ended, then other queries.
pub fn every_k(random: &mut Random, round: usize) -> History {
    let records = random.from_to(1, 120) as usize;
    let start = match round % 4 {
        0 => small_table(random),
        1 => {
            let mut table = grown_table(random, records);
            loosen(random, &mut table);
            table
        }
        2 => grown_table(random, records),
        _ => {
            let (kind, flavour) = (random.pick(&[1, 2]), random.pick(&Flavour::ALL));
            grown(random, records, records, kind, flavour, None)
        }
    };
    let mut author = Author::on(random, &start, kind_of(&start));
    let signature = author.signature(random);
    let every = |k: u32| Command::Nearest { kind: author.kind, signature: signature.clone(), k, places: k as usize };
    let mut commands: Vec<Command> = (1..=MOST).map(every).collect();
    commands.extend((0..20).map(|_| author.nearest(random)));
    History { start, commands }
}

/// Full tables of 1,024 records: many wait at once, and as many as can be are held.
pub fn largest(random: &mut Random, round: usize) -> History {
    let (shape, clock) = (Shape::ALL[round % 4], random.pick(&Clock::ALL));
    let kind = random.pick(&[1, 2]);
    let start = assemble::table(random, MOST_RECORDS, MOST_RECORDS, shape, clock, kind);
    let mut author = Author::on(random, &start, kind);
    let commands = (0..30).map(|_| author.nearest(random)).collect();
    History { start, commands }
}

/// Every k and every list at and beside its end, for kinds and signatures right and wrong.
pub fn arguments(random: &mut Random, _: usize) -> History {
    let start = small_table(random);
    let mut commands = Vec::new();
    for kind in [0, 1, 2, 3, 255] {
        for length in [0, 31, 32, 32, 33] {
            let signature = vec![random.byte(); length];
            for k in [0, 1, 2, MOST - 1, MOST, MOST + 1, 256, u32::MAX] {
                let k_places = k.min(100) as usize;
                for places in [k_places.saturating_sub(1), k_places, k_places + 1] {
                    commands.push(Command::Nearest { kind, signature: signature.clone(), k, places });
                }
            }
        }
    }
    History { start, commands }
}
