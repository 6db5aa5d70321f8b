//! Histories on trees of a chosen shape or age: ties alone, stars, timestamps near the last, chains and full trees.

use super::author::Author;
use crate::starts::{aged, grown, Role};
use model::assemble::{self, Clock, Shape};
use model::history::{Command, History};
use model::random::Random;
use model::record::{MOST_RECORDS, RECORD};
use model::signature::Flavour;

pub fn one_signature(random: &mut Random, _: usize) -> History {
    let records = random.from_to(2, 40) as usize;
    let kind = random.pick(&[1, 2]);
    let start = vec![0; records * RECORD];
    let mut author = Author::on(random, &start, kind);
    author.only = Some(random.pick(&[[0; 32], [255; 32], [7; 32]]).to_vec());
    let mut commands: Vec<Command> = (0..records).map(|_| author.insert(random)).collect();
    for _ in 0..10 {
        let role = random.pick(&Role::ALL);
        commands.extend(author.delete(random, role));
        commands.extend([author.search(random), author.nearest(random)]);
        commands.extend([author.cards(random), author.card(random), author.insert(random)]);
    }
    History { start, commands }
}

/// The root's signature is all zero and every other card has one reading or one bit of its own, so that each is nearer
/// to the root than to any other.
pub fn star(random: &mut Random, _: usize) -> History {
    let records = random.from_to(4, 24) as usize;
    let kind = random.pick(&[1, 2]);
    let start = vec![0; records * RECORD];
    let mut author = Author::on(random, &start, kind);
    author.arity = random.percent(80).then(|| random.from_to(1, 8) as u8);
    let mut commands = Vec::new();
    for card in 0..records {
        let mut signature = vec![0; 32];
        if card > 0 {
            signature[2 * (card % 16)] = 1 << (card / 16);
        }
        author.only = Some(signature);
        commands.push(author.insert(random));
    }
    author.only = None;
    for role in Role::ALL {
        commands.extend([author.search(random), author.search(random), author.nearest(random)]);
        commands.extend(author.delete(random, role));
        commands.push(author.insert(random));
    }
    History { start, commands }
}

/// Inserts and deletes around the last timestamp, by calls' own tables and by assembled ones.
pub fn late(random: &mut Random, _: usize) -> History {
    let records = random.from_to(1, 24) as usize;
    let (kind, flavour) = (random.pick(&[1, 2]), random.pick(&Flavour::ALL));
    let many = random.from_to(1, records as u64) as usize;
    let table = grown(random, records, many, kind, flavour, None);
    let start = aged(&table, u32::MAX - random.below(5) as u32);
    let mut author = Author::on(random, &start, kind);
    let mut commands = Vec::new();
    for _ in 0..14 {
        match random.below(6) {
            0 | 1 => commands.push(author.insert(random)),
            2 => commands.extend([author.search(random), author.nearest(random)]),
            3 => commands.extend([author.cards(random), author.card(random)]),
            _ => {
                let role = random.pick(&Role::ALL);
                commands.extend(author.delete(random, role));
            }
        }
    }
    History { start, commands }
}

pub fn largest(random: &mut Random, round: usize) -> History {
    let shape = [Shape::Chain, Shape::Full, Shape::Random, Shape::Deep][round % 4];
    let clock = [Clock::Dense, Clock::Coarse][round / 4 % 2];
    let kind = random.pick(&[1, 2]);
    let start = assemble::table(random, MOST_RECORDS, MOST_RECORDS, shape, clock, kind);
    let mut author = Author::on(random, &start, kind);
    let everything = |author: &mut Author, random: &mut Random| {
        let Command::Search { kind, signature, places, .. } = author.search(random) else { unreachable!() };
        Command::Search { kind, signature, radius: u32::MAX, places }
    };
    let mut commands = vec![everything(&mut author, random), Command::Check, author.insert(random)];
    commands.extend([Command::Cards { places: MOST_RECORDS }, author.nearest(random), author.nearest(random)]);
    commands.extend(author.delete(random, Role::Root));
    commands.extend([everything(&mut author, random), Command::Check, author.insert(random)]);
    commands.extend([author.cards(random), author.card(random)]);
    commands.extend(author.delete(random, Role::Middle));
    commands.extend([author.search(random), author.search(random), author.nearest(random)]);
    History { start, commands }
}
