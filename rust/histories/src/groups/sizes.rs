//! Histories by the size of their table: from free tables, from assembled ones, with bytes turned, and of every size.

use super::author::Author;
use crate::starts::Role;
use model::assemble::{self, Clock, Shape};
use model::history::{history, Command, History, Manner};
use model::random::Random;
use model::record::MOST_RECORDS;

pub fn fresh_small(random: &mut Random, _: usize) -> History {
    let records = random.from_to(1, 24) as usize;
    history(random, Manner::Fresh, records, 30 + 4 * records)
}

pub fn fresh_medium(random: &mut Random, _: usize) -> History {
    let records = random.from_to(25, 200) as usize;
    history(random, Manner::Fresh, records, 30 + 3 * records)
}

pub fn fresh_large(random: &mut Random, round: usize) -> History {
    let records = if round.is_multiple_of(2) { MOST_RECORDS } else { random.from_to(201, 1023) as usize };
    history(random, Manner::Fresh, records, 2 * records)
}

pub fn assembled(random: &mut Random, _: usize) -> History {
    let records = assemble::some_records(random).min(300);
    history(random, Manner::Assembled, records, 60)
}

pub fn rough(random: &mut Random, _: usize) -> History {
    let records = random.from_to(1, 60) as usize;
    history(random, Manner::Rough, records, 30 + 3 * records)
}

/// Fourteen calls or so on a table of so many records, not quite full, or full.
pub fn every_size(random: &mut Random, round: usize) -> History {
    let records = round + 1;
    let free = random.pick(&[0, 1, 1, 2, records / 3]);
    let (shape, clock) = (random.pick(&Shape::ALL), random.pick(&[Clock::Dense, Clock::Sparse, Clock::Coarse]));
    let kind = random.pick(&[1, 2]);
    let start = assemble::table(random, records, records.saturating_sub(free), shape, clock, kind);
    let mut author = Author::on(random, &start, kind);
    let mut commands = vec![author.search(random), author.nearest(random)];
    commands.extend([author.insert(random), author.insert(random)]);
    commands.extend(author.delete(random, Role::Leaf));
    commands.extend(author.delete(random, Role::Any));
    commands.extend([author.insert(random), author.search(random), author.nearest(random), Command::Check]);
    commands.extend([author.cards(random), author.card(random)]);
    History { start, commands }
}
