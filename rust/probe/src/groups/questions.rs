//! The questions that calls ask of a table, on well-formed tables and on others.

use super::Run;
use crate::answers::Answers;
use crate::tables::{shown, Lent};
use crate::tally::Group;
use crate::Probe;
use model::assemble::any_table;
use model::calls::Model;
use model::damage::Wrong;
use model::record::parse_table;

type Question = fn(&dyn Probe, &[u8]) -> u32;

const QUESTIONS: [(&str, Question); 5] = [
    ("used", |probe, table| probe.used(table)),
    ("lowest_free", |probe, table| probe.lowest_free(table)),
    ("largest_timestamp", |probe, table| probe.largest_timestamp(table)),
    ("root", |probe, table| probe.root(table)),
    ("kind", |probe, table| probe.kind(table)),
];

impl Run<'_> {
    pub fn questions(&mut self, rounds: usize) {
        let mut groups: Vec<Group> = QUESTIONS.iter().map(|(name, _)| Group::new(format!("question {name}"))).collect();
        let mut slot_of = Group::new("question slot_of");
        let mut refused = Group::new("questions on tables that are not well formed");
        for round in 0..rounds * 2 {
            let mut table = if round % 3 == 0 { self.grown() } else { any_table(&mut self.random) };
            for ((name, ask), group) in QUESTIONS.iter().zip(&mut groups) {
                self.ask(group, name, &table, *ask);
            }
            for card in self.some_cards(&table) {
                self.ask(&mut slot_of, &format!("slot_of {card}"), &table, |probe, table| probe.slot_of(table, card));
            }
            let wrong = self.random.pick(&Wrong::ALL);
            if round % 4 == 0 && wrong.apply(&mut self.random, &mut table) {
                let table = if round % 8 == 0 { &table[..] } else { &table[..table.len() - 1] };
                for (name, ask) in QUESTIONS {
                    self.ask(&mut refused, name, table, ask);
                }
                self.ask(&mut refused, "slot_of", table, |probe, table| probe.slot_of(table, 1));
            }
        }
        groups.push(slot_of);
        groups.push(refused);
        groups.into_iter().for_each(|group| self.finish(group));
    }

    /// Cards stored, cards near to those, and cards that no table has.
    fn some_cards(&mut self, table: &[u8]) -> Vec<u32> {
        let stored = Model::cards_from_the_root(table);
        let mut cards = vec![0, 1, u32::MAX, self.random.number()];
        for _ in 0..3 {
            if let Some(card) = self.random.any(&stored) {
                cards.extend([card, card ^ 1 << self.random.below(32)]);
            }
        }
        cards.extend(stored.first());
        cards.extend(parse_table(table).last().map(|record| record.card));
        cards
    }

    fn ask(&mut self, group: &mut Group, name: &str, table: &[u8], ask: impl Fn(&dyn Probe, &[u8]) -> u32) {
        let lent = Lent::new(&mut self.random, table);
        let (answer, right) = (ask(self.probe, lent.table()), ask(&Answers::default(), table));
        group.count(answer == right && lent.is(table), table.len(), || {
            let written = if lent.is(table) { "" } else { ", and bytes were written" };
            format!("{name}: {answer} and not {right}{written}\n{}", shown(table))
        });
    }
}
