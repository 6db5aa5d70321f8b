//! Judging: well-formed tables, tables damaged by name and blindly, and whole families of small ones.

use super::clauses::Clauses;
use super::Run;
use crate::tables::{shown, Lent};
use crate::tally::Group;
use model::assemble::any_table;
use model::damage::{loosen, Blind, Wrong};
use model::distance::{FAULT_BITS, READINGS};
use model::history::{full_table, grown_table};
use model::judge::{judge, Clause, Verdict};
use model::record::MOST_RECORDS;
use model::refusal::{DONE, SIZE, TABLE};
use model::signature::{Flavour, Source};

impl Run<'_> {
    pub fn judging(&mut self, rounds: usize) -> Clauses {
        let mut clauses = Clauses::new();
        self.valid_tables(rounds);
        self.named_damage(rounds, &mut clauses);
        self.blind_damage(rounds, &mut clauses);
        self.families(&mut clauses);
        clauses
    }

    /// Judges a table and holds the verdict against the model's.
    pub fn judged(&mut self, group: &mut Group, clauses: Option<&mut Clauses>, how: &str, table: &[u8]) -> Verdict {
        let verdict = judge(table);
        let right = match &verdict {
            Verdict::WellFormed => DONE,
            Verdict::Size => SIZE,
            Verdict::Table(..) => TABLE,
        };
        let lent = Lent::new(&mut self.random, table);
        let answer = self.probe.judge(lent.table());
        group.count(answer == right && lent.is(table), table.len(), || {
            let names: Vec<&str> = verdict.violated().into_iter().map(Clause::name).collect();
            let written = if lent.is(table) { "" } else { ", and bytes were written" };
            format!("{how}: {answer} and not {right}{written}; clauses violated: {names:?}\n{}", shown(table))
        });
        if let Some(clauses) = clauses {
            let violated = verdict.violated();
            for clause in &violated {
                let hits = clauses.entry(*clause).or_default();
                hits.violated += 1;
                hits.alone += usize::from(violated.len() == 1);
                hits.refused += usize::from(answer == TABLE);
            }
        }
        verdict
    }

    /// A table as the calls leave it: small ones mostly.
    pub fn grown(&mut self) -> Vec<u8> {
        let records = if self.random.percent(90) { self.random.from_to(1, 40) } else { self.random.from_to(40, 130) };
        grown_table(&mut self.random, records as usize)
    }

    fn valid_tables(&mut self, rounds: usize) {
        let mut group = Group::new("judge, tables grown by calls");
        for _ in 0..rounds * 2 {
            let table = self.grown();
            self.judged(&mut group, None, "grown", &table);
        }
        for kind in [READINGS, FAULT_BITS] {
            let mut source = Source::new(&mut self.random, kind, Flavour::Clustered);
            let records = (rounds * 4).clamp(64, MOST_RECORDS);
            let table = full_table(&mut self.random, &mut source, kind, records);
            self.judged(&mut group, None, "full", &table);
        }
        self.finish(group);

        let mut group = Group::new("judge, tables of any shape assembled by hand");
        for _ in 0..rounds * 10 {
            let table = any_table(&mut self.random);
            self.judged(&mut group, None, "assembled", &table);
        }
        self.finish(group);

        let mut group = Group::new("judge, well formed but not sound");
        for _ in 0..rounds {
            let mut table = self.grown();
            if loosen(&mut self.random, &mut table) {
                let verdict = self.judged(&mut group, None, "loosened", &table);
                assert_eq!(verdict, Verdict::WellFormed);
            }
        }
        self.finish(group);
    }

    fn named_damage(&mut self, rounds: usize, clauses: &mut Clauses) {
        for wrong in Wrong::ALL {
            let mut group = Group::new(format!("judge, damage {wrong:?}"));
            for round in 0..rounds {
                // Now and then a table has no place for this damage, so a few are tried.
                for _ in 0..8 {
                    let mut table = if round % 8 == 0 { self.grown() } else { any_table(&mut self.random) };
                    if wrong.apply(&mut self.random, &mut table) {
                        let verdict = self.judged(&mut group, Some(clauses), &format!("{wrong:?}"), &table);
                        assert!(verdict.violated().contains(&wrong.clause()));
                        break;
                    }
                }
            }
            let times = group.passed + group.failed;
            group.count(times > 0, 0, || "no table was damaged so".to_string());
            self.finish(group);
        }
    }

    fn blind_damage(&mut self, rounds: usize, clauses: &mut Clauses) {
        for blind in Blind::ALL {
            let mut group = Group::new(format!("judge, blind damage {blind:?}"));
            let mut well_formed = 0;
            for _ in 0..rounds {
                let mut table = if self.random.percent(20) { self.grown() } else { any_table(&mut self.random) };
                blind.apply(&mut self.random, &mut table);
                let verdict = self.judged(&mut group, Some(clauses), &format!("{blind:?}"), &table);
                well_formed += usize::from(verdict == Verdict::WellFormed);
            }
            group.name += &format!(" ({well_formed} still well formed)");
            self.finish(group);
        }
    }
}
