//! Families of small tables, all of which are judged, so that what chance would not put together is tried too.

use super::clauses::Clauses;
use super::Run;
use crate::tally::Group;
use model::calls::Model;
use model::distance::READINGS;
use model::index::Index;
use model::judge::Verdict;
use model::record::{table_bytes, Record, NO_SLOT, RECORD};
use model::refusal::DONE;

impl Run<'_> {
    /// Judges a family of tables, each of them or one in so many.
    fn family(&mut self, name: &str, tables: impl Iterator<Item = Vec<u8>>, clauses: &mut Clauses) {
        let mut group = Group::new("");
        let mut well_formed = 0;
        for (number, table) in tables.enumerate().step_by(self.stride) {
            let verdict = self.judged(&mut group, Some(clauses), &format!("number {number}"), &table);
            well_formed += usize::from(verdict == Verdict::WellFormed);
        }
        let share = if self.stride == 1 { String::new() } else { format!("one in {}, ", self.stride) };
        group.name = format!("judge, {name} ({share}{well_formed} well formed)");
        self.finish(group);
    }

    pub fn families(&mut self, clauses: &mut Clauses) {
        let table = listing();
        let changed = (0..table.len()).flat_map(|at| {
            let table = &table;
            (0..=255).map(move |byte| [&table[..at], &[byte], &table[at + 1..]].concat())
        });
        self.family("every byte of the listing's table at every value", changed, clauses);

        let choices = records_of_two();
        let pairs = choices.iter().flat_map(|one| choices.iter().map(move |other| [one.clone(), other.clone()]));
        self.family("every small table of two records", pairs.map(|row| table_bytes(&row)), clauses);

        self.family("every tangle of three used records", tangles_of_three(), clauses);
    }
}

/// The table after line 6 of the paper's listing, of eight records.
fn listing() -> Vec<u8> {
    let mut table = vec![0; 8 * RECORD];
    for (card, reading) in [(11, 50), (12, 80), (13, 20), (14, 52), (15, 40), (16, 78)] {
        let mut signature = [0; 32];
        signature[0] = reading;
        assert_eq!(Model.insert(&mut table, card, READINGS, &signature, 2).refusal, DONE);
    }
    table
}

/// A record of kind 1 with these links.
fn linked(card: u32, timestamp: u32, parent: u16, children: &[u16]) -> Record {
    let mut record = Record { card, timestamp, parent, kind: READINGS, ..Record::free() };
    record.set_children(children);
    record
}

/// For a table of two: the free record, and every record with card and timestamp 1 or 2, a parent, and up to two
/// children, where a link is a slot of the table or 65,535, and a parent also the slot past the table.
fn records_of_two() -> Vec<Record> {
    let links = [0, 1, NO_SLOT];
    let mut children: Vec<Vec<u16>> = vec![vec![]];
    children.extend(links.iter().map(|child| vec![*child]));
    children.extend(links.iter().flat_map(|one| links.iter().map(|other| vec![*one, *other])));
    let mut all = vec![Record::free()];
    for (card, timestamp) in [(1, 1), (1, 2), (2, 1), (2, 2)] {
        for parent in [0, 1, 2, NO_SLOT] {
            all.extend(children.iter().map(|slots| linked(card, timestamp, parent, slots)));
        }
    }
    all
}

/// Tables of three used records with timestamps 1, 2 and 3 in any order, any parents, and up to two distinct children
/// each in any order.
fn tangles_of_three() -> impl Iterator<Item = Vec<u8>> {
    let children: [&[u16]; 10] = [&[], &[0], &[1], &[2], &[0, 1], &[0, 2], &[1, 0], &[1, 2], &[2, 0], &[2, 1]];
    let ages = [[1, 2, 3], [1, 3, 2], [2, 1, 3], [2, 3, 1], [3, 1, 2], [3, 2, 1]];
    let links: Vec<(u16, &[u16])> =
        [0, 1, 2, NO_SLOT].into_iter().flat_map(|parent| children.map(|slots| (parent, slots))).collect();
    let many = links.len();
    (0..ages.len() * many.pow(3)).map(move |number| {
        let age = ages[number % ages.len()];
        let mut rest = number / ages.len();
        let row: Vec<Record> = (0..3)
            .map(|slot| {
                let (parent, slots) = links[rest % many];
                rest /= many;
                linked(slot as u32 + 1, age[slot], parent, slots)
            })
            .collect();
        table_bytes(&row)
    })
}
