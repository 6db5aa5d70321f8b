//! Histories on tables made wrong: named damage, blind damage, and tables well formed but not sound.

use super::author::Author;
use crate::starts::{kind_of, Role};
use model::assemble::any_table;
use model::damage::{loosen, Blind, Wrong};
use model::history::{grown_table, Command, History};
use model::random::Random;
use model::record::{parse_table, RECORD};

pub fn damaged(random: &mut Random, round: usize) -> History {
    let wrong = Wrong::ALL[round % Wrong::ALL.len()];
    let mut table = small_table(random);
    let mut tries = 0;
    while !wrong.apply(random, &mut table) && tries < 50 {
        table = small_table(random);
        tries += 1;
    }
    every_call(random, table)
}

pub fn blind(random: &mut Random, round: usize) -> History {
    let mut table = small_table(random);
    Blind::ALL[round % Blind::ALL.len()].apply(random, &mut table);
    every_call(random, table)
}

pub fn small_table(random: &mut Random) -> Vec<u8> {
    loop {
        let table = any_table(random);
        if table.len() <= 200 * RECORD || random.percent(10) {
            return table;
        }
    }
}

/// Every call once on this table, whatever it is, with right arguments and with wrong ones, and then clear.
fn every_call(random: &mut Random, start: Vec<u8>) -> History {
    let kind = random.pick(&[1, 2]);
    let mut author = Author::blind(random, start.len() / RECORD, kind);
    let stored = parse_table(&start).iter().map(|record| record.card).find(|card| *card != 0).unwrap_or(1);
    let mut commands = vec![
        Command::Check,
        author.search(random),
        author.nearest(random),
        author.insert(random),
        Command::Delete { card: stored, arity: 3 },
        Command::Insert { card: 0, kind: 9, signature: vec![1; 5], arity: 0 },
        Command::Search { kind: 0, signature: vec![], radius: 0, places: 0 },
        Command::Nearest { kind: 0, signature: vec![], k: 0, places: 0 },
        Command::Delete { card: 0, arity: 0 },
        Command::Cards { places: start.len() / RECORD },
        Command::Cards { places: 0 },
        Command::Card { card: stored, row: 32 },
        Command::Card { card: 0, row: 0 },
    ];
    random.shuffle(&mut commands);
    commands.extend([Command::Clear, author.insert(random), author.search(random), author.nearest(random)]);
    commands.extend([Command::Cards { places: 1 }, Command::Card { card: stored, row: 32 }]);
    History { start, commands }
}

pub fn loosened(random: &mut Random, _: usize) -> History {
    let records = random.from_to(2, 60) as usize;
    let mut start = grown_table(random, records);
    loosen(random, &mut start);
    let mut author = Author::on(random, &start, kind_of(&start));
    let mut commands = vec![Command::Check];
    for _ in 0..6 {
        commands.extend([author.search(random), author.nearest(random), author.insert(random)]);
        let role = random.pick(&Role::ALL);
        commands.extend(author.delete(random, role));
        commands.extend([author.cards(random), author.card(random)]);
    }
    commands.push(Command::Check);
    History { start, commands }
}
