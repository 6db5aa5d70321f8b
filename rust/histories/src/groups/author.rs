//! The author of these histories: draws calls that fit the table that they are made on.

use crate::starts::{some_card, used, Role};
use model::calls::Model;
use model::history::{Command, Lent};
use model::random::Random;
use model::record::{parse_table, RECORD};
use model::signature::Source;

/// Draws calls that fit the table, which it follows with the model.
pub struct Author {
    pub table: Vec<u8>,
    pub kind: u8,
    pub source: Source,
    /// The one signature of all cards, if there is but one.
    pub only: Option<Vec<u8>>,
    /// One arity for all inserts, or any at each.
    pub arity: Option<u8>,
    /// Whether the table is followed at all.
    follows: bool,
}

impl Author {
    pub fn on(random: &mut Random, table: &[u8], kind: u8) -> Author {
        let source = Source::any_flavour(random, kind);
        Author { table: table.to_vec(), kind, source, only: None, arity: None, follows: true }
    }

    /// One that does not look at the table.
    pub fn blind(random: &mut Random, records: usize, kind: u8) -> Author {
        Author { follows: false, ..Author::on(random, &vec![0; records * RECORD], kind) }
    }

    pub fn signature(&mut self, random: &mut Random) -> Vec<u8> {
        let stored: Vec<Vec<u8>> = match random.percent(25) {
            true => parse_table(&self.table).iter().filter(|r| r.used()).map(|r| r.signature.to_vec()).collect(),
            false => Vec::new(),
        };
        match &self.only {
            Some(only) => only.clone(),
            None if stored.is_empty() => self.source.next(random).to_vec(),
            None => stored[random.below(stored.len())].clone(),
        }
    }

    fn made(&mut self, command: Command) -> Command {
        if self.follows {
            command.make(&mut Model, &mut self.table, &mut Lent::default());
        }
        command
    }

    pub fn insert(&mut self, random: &mut Random) -> Command {
        let card = random.number().max(1);
        let arity = self.arity.unwrap_or_else(|| random.from_to(1, 8) as u8);
        let command = Command::Insert { card, kind: self.kind, signature: self.signature(random), arity };
        self.made(command)
    }

    pub fn delete(&mut self, random: &mut Random, role: Role) -> Option<Command> {
        let card = some_card(random, &self.table, role)?;
        Some(self.made(Command::Delete { card, arity: random.from_to(1, 8) as u8 }))
    }

    pub fn search(&mut self, random: &mut Random) -> Command {
        let most: u64 = if self.kind == 1 { 1_048_560 } else { 256 };
        let ends = [0, most, most + 1, u64::from(u32::MAX)];
        let drawn = [random.from_to(0, 12), random.from_to(0, most / 40), random.from_to(0, most / 4)];
        let radius = if random.percent(30) { random.pick(&ends) } else { random.pick(&drawn) } as u32;
        let places = self.table.len() / RECORD + random.below(3);
        Command::Search { kind: self.kind, signature: self.signature(random), radius, places }
    }

    /// The nearest few, sometimes as many as are stored or about that, mostly with a list that is long enough.
    pub fn nearest(&mut self, random: &mut Random) -> Command {
        let stored = used(&self.table).clamp(1, 63) as u32;
        let k = match random.below(10) {
            0 => random.pick(&[0, 65, u32::MAX]),
            1..=3 => random.pick(&[stored, stored + 1, (stored - 1).max(1)]),
            4 | 5 => random.pick(&[1, 63, 64]),
            _ => random.from_to(1, 64) as u32,
        };
        let places = k.min(70) as usize + random.pick(&[0, 0, 1, 9]);
        let places = if random.percent(5) { places.saturating_sub(1) } else { places };
        Command::Nearest { kind: self.kind, signature: self.signature(random), k, places }
    }

    /// All cards, into a list that is long enough or just about.
    pub fn cards(&mut self, random: &mut Random) -> Command {
        let stored = used(&self.table);
        let places = random.pick(&[stored, stored, stored + 1, stored + 9, stored.saturating_sub(1)]);
        Command::Cards { places }
    }

    /// A stored card mostly, and otherwise any.
    pub fn card(&mut self, random: &mut Random) -> Command {
        let stored = some_card(random, &self.table, Role::Any).filter(|_| random.percent(85));
        let row = random.pick(&[0, 31, 32, 32, 32, 33, 40]);
        Command::Card { card: stored.unwrap_or_else(|| random.number()), row }
    }
}
