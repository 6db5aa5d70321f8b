//! Histories by the place in the tree of the cards that are deleted: root, leaf, middle, any, and in the end all.

use super::author::Author;
use crate::starts::{grown, used, Role};
use model::history::{Command, History};
use model::random::Random;
use model::record::RECORD;
use model::signature::{Flavour, Source};

pub fn roles(random: &mut Random, _: usize) -> History {
    let records = random.from_to(1, 48) as usize;
    by_role(random, records, 24)
}

pub fn roles_large(random: &mut Random, round: usize) -> History {
    by_role(random, [512, 1023, 1024][round % 3], 12)
}

/// A full table, then deletes by role with inserts and searches between them.
fn by_role(random: &mut Random, records: usize, deletes: usize) -> History {
    let (kind, flavour) = (random.pick(&[1, 2]), random.pick(&Flavour::ALL));
    let arity = random.percent(40).then(|| random.from_to(1, 8) as u8);
    let start = grown(random, records, records, kind, flavour, arity);
    let mut author = Author::on(random, &start, kind);
    author.source = Source::new(random, kind, flavour);
    let mut commands = vec![author.insert(random)];
    for _ in 0..deletes {
        let role = random.pick(&Role::ALL);
        commands.extend(author.delete(random, role));
        commands.extend([author.search(random), author.nearest(random), author.cards(random)]);
        if random.percent(60) {
            commands.push(author.insert(random));
        }
        commands.push(author.card(random));
    }
    commands.push(Command::Check);
    History { start, commands }
}

pub fn down_to_free(random: &mut Random, _: usize) -> History {
    let records = random.from_to(1, 20) as usize;
    let (kind, flavour) = (random.pick(&[1, 2]), random.pick(&Flavour::ALL));
    let start = vec![0; records * RECORD];
    let mut author = Author::on(random, &start, kind);
    author.source = Source::new(random, kind, flavour);
    let mut commands: Vec<Command> = (0..records).map(|_| author.insert(random)).collect();
    while used(&author.table) > 0 {
        let role = random.pick(&Role::ALL);
        commands.extend(author.delete(random, role));
        commands.extend([author.search(random), author.nearest(random)]);
        commands.extend([author.cards(random), author.card(random), Command::Check]);
    }
    // The single card that was left stood as root; the table is free again and takes the other kind.
    author.kind = 3 - kind;
    author.source = Source::any_flavour(random, author.kind);
    commands.extend([author.insert(random), author.search(random), author.cards(random), author.card(random)]);
    History { start, commands }
}
