//! Histories and tables drawn at random: of any manner and size, and tables as calls leave them.

use super::author::Author;
use super::{Command, History, Lent};
use crate::assemble;
use crate::calls::Model;
use crate::distance::Signature;
use crate::index::Index;
use crate::random::Random;
use crate::record::{MOST_RECORDS, RECORD};
use crate::signature::Source;

/// Where a history begins and what may happen in it.
#[derive(Clone, Copy, Debug, PartialEq, Eq)]
pub enum Manner {
    /// From a free table, by calls alone: the table is sound throughout.
    Fresh,
    /// From a table assembled by hand, mostly not sound, often near the last timestamp.
    Assembled,
    /// Bytes are turned from outside now and then, and often turned back.
    Rough,
}

impl Manner {
    pub const ALL: [Manner; 3] = [Manner::Fresh, Manner::Assembled, Manner::Rough];
}

/// A history of so many commands over a table of so many records.
pub fn history(random: &mut Random, manner: Manner, records: usize, commands: usize) -> History {
    let mut author = Author::new(random, records);
    let mut start = vec![0; records * RECORD];
    if manner == Manner::Assembled {
        let used = random.below(records + 1);
        let (shape, clock) = (random.pick(&assemble::Shape::ALL), random.pick(&assemble::Clock::ALL));
        start = assemble::table(random, records, used, shape, clock, author.kind);
        author.begins_with(&Model::cards_from_the_root(&start));
    }
    let mut list = Vec::new();
    while list.len() < commands {
        if manner == Manner::Rough && random.percent(6) {
            let place = if random.percent(80) { random.below(32) } else { random.below(RECORD) };
            let turn = Command::Turn { at: random.below(records.min(12)) * RECORD + place, bits: 1 << random.below(8) };
            list.push(turn.clone());
            (0..random.below(4)).for_each(|_| list.push(author.command(random)));
            if random.percent(90) {
                list.push(turn);
            }
        }
        list.push(author.command(random));
    }
    History { start, commands: list }
}

/// A history of any manner and size, mostly small; a few over bytes that are no table's length.
pub fn any_history(random: &mut Random) -> History {
    let manner = random.pick(&[Manner::Fresh, Manner::Fresh, Manner::Assembled, Manner::Rough]);
    let records = match random.below(20) {
        0..=13 => random.from_to(1, 24) as usize,
        14..=18 => random.from_to(20, 90) as usize,
        _ => random.from_to(100, 400) as usize,
    };
    let mut history = history(random, manner, records, 30 + 3 * records);
    if random.percent(2) {
        history.start.resize(random.pick(&[0, 63, 65, 65_600]), 0);
        history.commands.push(Command::Clear);
    }
    history
}

/// A table as the calls leave it after a random history from a free one.
pub fn grown_table(random: &mut Random, records: usize) -> Vec<u8> {
    let mut author = Author::new(random, records);
    let mut table = vec![0; records * RECORD];
    for _ in 0..random.below(3 * records + 4) {
        let command = author.command(random);
        if matches!(command, Command::Insert { .. } | Command::Delete { .. } | Command::Clear) {
            command.make(&mut Model, &mut table, &mut Lent::default());
        }
    }
    table
}

/// A full table of all 1,024 records, or of fewer, inserted by the model from one source of signatures.
pub fn full_table(random: &mut Random, source: &mut Source, kind: u8, records: usize) -> Vec<u8> {
    assert!((1..=MOST_RECORDS).contains(&records));
    let mut table = vec![0; records * RECORD];
    for card in random.distinct(records, 1, u64::from(u32::MAX)) {
        let signature: Signature = source.next(random);
        let arity = random.from_to(1, 8) as u8;
        Model.insert(&mut table, card, kind, &signature, arity);
    }
    table
}
