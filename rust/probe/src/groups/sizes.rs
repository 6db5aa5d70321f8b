//! Lengths by name, and clear, which looks at nothing but the length.

use super::Run;
use crate::tables::Lent;
use crate::tally::Group;
use crate::NO_ANSWER;
use model::assemble::any_table;
use model::calls::Model;
use model::index::Index;
use model::record::RECORD;
use model::refusal::{DONE, SIZE, TABLE};

impl Run<'_> {
    pub fn sizes(&mut self) {
        let mut group = Group::new("sizes by name");
        for length in [0, 1, 63, 64, 65, 127, 128, 4096, 65_472, 65_535, 65_536, 65_537, 65_599, 65_600, 131_072] {
            let right = if (64..=65_536).contains(&length) && length % 64 == 0 { DONE } else { SIZE };
            let mut lent = Lent::new(&mut self.random, &vec![0; length]);
            let answer = self.probe.judge(lent.table());
            group.count(answer == right, length, || format!("judge gives {answer} and not {right} for {length} bytes"));
            let answer = self.probe.used(lent.table());
            let none = if right == DONE { 0 } else { NO_ANSWER };
            group.count(answer == none, length, || format!("used gives {answer} and not {none} for {length} bytes"));
            // Bytes that are no table: clear zeroes them or leaves them all.
            let bytes: Vec<u8> = (0..length).map(|_| self.random.byte() | 1).collect();
            lent.table_mut().copy_from_slice(&bytes);
            let judged = if right == DONE { TABLE } else { SIZE };
            let answer = self.probe.judge(lent.table());
            group.count(answer == judged, length, || format!("judge gives {answer} for {length} bytes of noise"));
            let answer = self.probe.clear(lent.table_mut());
            group.count(answer == right, length, || format!("clear gives {answer} and not {right} for {length} bytes"));
            let after = if right == DONE { vec![0; length] } else { bytes };
            group.count(lent.is(&after), length, || format!("wrong bytes in or beside {length} bytes after clear"));
        }
        self.finish(group);
    }

    pub fn clear(&mut self, rounds: usize) {
        let mut group = Group::new("clear, answer and every byte in and beside the table");
        for round in 0..rounds {
            let mut table = any_table(&mut self.random);
            if round % 2 == 0 {
                // Noise, and every second time a length that is no table's.
                table.iter_mut().for_each(|byte| *byte = self.random.byte());
                let cut = if round % 4 == 0 { self.random.below(RECORD) } else { 0 };
                table.truncate(table.len() - cut);
            }
            let mut lent = Lent::new(&mut self.random, &table);
            let answer = self.probe.clear(lent.table_mut());
            let mut after = table.clone();
            let right = Model.clear(&mut after).refusal;
            group.count(answer == right && lent.is(&after), table.len(), || {
                format!("{answer} and not {right}, or wrong bytes, for {} bytes", table.len())
            });
        }
        self.finish(group);
    }
}
