//! What include/plotvuga.h advises on the arity, counted: 1,024 cards in eight clusters, stored with each arity, and
//! searches that find ten of them. Counts are the same on every machine.

use plotvuga::{Signature, Table, MOST_RECORDS, RECORD};

const SEARCHES: usize = 64;

/// Readings around one of eight centres, each within 40 of the centre's; the same ones in every run.
struct Source {
    state: u64,
    centres: Vec<[u16; 16]>,
}

impl Source {
    fn new() -> Source {
        let mut source = Source { state: 1, centres: Vec::new() };
        source.centres = (0..8).map(|_| std::array::from_fn(|_| 40 + source.below(65_000) as u16)).collect();
        source
    }

    fn below(&mut self, end: u64) -> u64 {
        self.state = self.state.wrapping_mul(6_364_136_223_846_793_005).wrapping_add(1_442_695_040_888_963_407);
        (self.state >> 33) % end
    }

    fn next(&mut self) -> [u16; 16] {
        let which = self.below(8) as usize;
        self.centres[which].map(|reading| reading - 40 + self.below(81) as u16)
    }
}

fn distance(a: &[u16; 16], b: &[u16; 16]) -> u32 {
    a.iter().zip(b).map(|(a, b)| u32::from(a.abs_diff(*b))).sum()
}

/// How many levels stand above the deepest record, by the parents' slots in bytes 12 and 13.
fn depth(table: &Table) -> usize {
    let parent = |slot: usize| {
        let at = RECORD * slot + 12;
        Some(usize::from(u16::from_le_bytes([table.bytes()[at], table.bytes()[at + 1]]))).filter(|slot| *slot < 65_535)
    };
    (0..table.records()).map(|slot| std::iter::successors(Some(slot), |slot| parent(*slot)).count() - 1).max().unwrap()
}

/// The depth, and the distances that an insert and a search took in the mean.
fn counted(arity: u8) -> (usize, u32, u32) {
    let mut source = Source::new();
    let stored: Vec<[u16; 16]> = (0..MOST_RECORDS).map(|_| source.next()).collect();
    let mut table = Table::new(MOST_RECORDS).unwrap();
    let mut inserts = 0;
    for (card, readings) in (1..).zip(&stored) {
        inserts += table.insert(card, &Signature::readings(*readings), arity).unwrap().distances;
    }
    let mut searches = 0;
    for _ in 0..SEARCHES {
        let query = source.next();
        let mut near: Vec<u32> = stored.iter().map(|readings| distance(readings, &query)).collect();
        near.sort_unstable();
        let found = table.search(&Signature::readings(query), near[9]).unwrap();
        assert!(found.cards.len() >= 10);
        searches += found.distances;
    }
    (depth(&table), inserts / MOST_RECORDS as u32, searches / SEARCHES as u32)
}

#[test]
fn from_2_to_8_it_matters_little() {
    let rows: Vec<(usize, u32, u32)> = (2..=8).map(counted).collect();
    assert!(rows.iter().all(|(_, inserts, _)| (15..=25).contains(inserts)), "{rows:?}");
    assert!(rows.iter().all(|(_, _, searches)| (130..=160).contains(searches)), "{rows:?}");
    // Twice as deep with two children as with eight.
    assert!((12..=16).contains(&rows[0].0) && (6..=8).contains(&rows[6].0), "{rows:?}");
}

#[test]
fn arity_1_makes_a_chain_which_a_search_goes_down() {
    let (depth, inserts, searches) = counted(1);
    assert_eq!((depth, inserts), (MOST_RECORDS - 1, (MOST_RECORDS as u32 - 1) / 2));
    assert!(searches > 1000, "{searches}");
}
