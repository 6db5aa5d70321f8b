//! The tables that are timed, and what is picked in them.

use model::assemble::{self, Clock, Shape};
use model::random::Random;
use model::record::{parse_table, Record, MOST_RECORDS, RECORD};
use model::signature::{Flavour, Source};
use twin::record::{distance, Signature};

/// The children that a record may have in every table and every call that is timed.
pub const ARITY: u8 = 8;
/// Queries, new cards and leaves, taken in turn.
pub const ITEMS: usize = 16;

#[derive(Clone, Copy, Debug, PartialEq, Eq)]
pub struct Setting {
    pub records: usize,
    pub flavour: Flavour,
    pub kind: u8,
    pub arity: u8,
}

/// How many cards a search finds.
#[derive(Clone, Copy, Debug, PartialEq, Eq)]
pub enum Share {
    None,
    OneIn(usize),
    All,
}

pub struct Bench {
    pub setting: Setting,
    /// Every record used.
    pub full: Vec<u8>,
    /// The last record free.
    pub room: Vec<u8>,
    /// Signatures that look like the stored ones and are none of them.
    pub queries: Vec<Signature>,
}

impl Bench {
    pub fn new(setting: Setting, seed: u64) -> Bench {
        let Setting { records, flavour, kind, arity } = setting;
        let mut random = Random::new(seed);
        let mut source = Source::new(&mut random, kind, flavour);
        let mut full = vec![0; records * RECORD];
        let mut room = Vec::new();
        for (before, card) in random.distinct(records, 1, u64::from(u32::MAX)).into_iter().enumerate() {
            if before + 1 == records {
                room = full.clone();
            }
            let answer = twin::insert(&mut full, card, kind, &source.next(&mut random), arity);
            assert_eq!(answer.refusal, 0);
        }
        let mut bench = Bench { setting, full, room, queries: Vec::new() };
        while bench.queries.len() < ITEMS {
            let query = source.next(&mut random);
            if bench.distances(&query)[0] > 0 {
                bench.queries.push(query);
            }
        }
        bench
    }

    /// The table after some cards were deleted and stored again: they have their old slots and the largest timestamps.
    pub fn with_cards_anew(mut self) -> Bench {
        let Setting { kind, arity, .. } = self.setting;
        let records = parse_table(&self.full);
        for card in self.leaves() {
            let signature = records.iter().find(|record| record.card == card).unwrap().signature;
            for table in [&mut self.full, &mut self.room] {
                if twin::delete(table, card, arity).refusal == 0 {
                    assert_eq!(twin::insert(table, card, kind, &signature, arity).refusal, 0);
                }
            }
        }
        self
    }

    /// A chain of 1,024 records, each the only child of the one before, all reached by their covering radii.
    pub fn chain(kind: u8) -> Bench {
        let mut random = Random::new(11);
        let mut full = assemble::table(&mut random, MOST_RECORDS, MOST_RECORDS, Shape::Chain, Clock::Dense, kind);
        full.chunks_mut(RECORD).for_each(|record| record[8..12].fill(255));
        let queries = (0..ITEMS).map(|_| std::array::from_fn(|_| random.byte())).collect();
        let setting = Setting { records: MOST_RECORDS, flavour: Flavour::Uniform, kind, arity: 1 };
        Bench { setting, room: full.clone(), full, queries }
    }

    /// The distances of all cards to the query, rising.
    fn distances(&self, query: &Signature) -> Vec<u32> {
        let records = parse_table(&self.full);
        let mut all: Vec<u32> =
            records.iter().map(|record| distance(self.setting.kind, &record.signature, query)).collect();
        all.sort();
        all
    }

    /// The radius by which each query finds this share of the cards.
    pub fn radii(&self, share: Share) -> Vec<u32> {
        let radius = |query: &Signature| match share {
            Share::None => self.distances(query)[0] - 1,
            Share::OneIn(many) => self.distances(query)[(self.setting.records / many).max(1) - 1],
            Share::All => u32::MAX,
        };
        self.queries.iter().map(radius).collect()
    }

    /// All cards, for every record is used.
    pub fn in_slot_order(&self) -> Vec<u32> {
        parse_table(&self.full).iter().map(|record| record.card).collect()
    }

    /// A card that is not stored.
    pub fn new_card(&self) -> u32 {
        1 + parse_table(&self.full).iter().map(|record| record.card).filter(|card| *card < u32::MAX).max().unwrap()
    }

    pub fn root(&self) -> u32 {
        parse_table(&self.full).iter().find(|record| record.is_root()).unwrap().card
    }

    pub fn leaves(&self) -> Vec<u32> {
        let records = parse_table(&self.full);
        let leaves: Vec<u32> = records.iter().filter(|record| record.count == 0).map(|record| record.card).collect();
        (0..ITEMS).map(|item| leaves[item * leaves.len() / ITEMS]).collect()
    }

    /// A card with the median number of records below it, among those that have any and are not the root.
    pub fn middle(&self) -> u32 {
        let records = parse_table(&self.full);
        let mut parents: Vec<(usize, u32)> = records
            .iter()
            .filter(|record| record.count > 0 && !record.is_root())
            .map(|record| (below(&records, record), record.card))
            .collect();
        parents.sort();
        parents.get(parents.len() / 2).map_or_else(|| self.root(), |parent| parent.1)
    }
}

fn below(records: &[Record], record: &Record) -> usize {
    record.children().iter().map(|child| 1 + below(records, &records[usize::from(*child)])).sum()
}
