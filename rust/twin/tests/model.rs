//! The twin against the independent model, so that what the library is timed against does the same work.

use model::calls::Model;
use model::compare::{compare, Tally};
use model::history::{any_history, full_table, history, Manner};
use model::index::{Answer, Index, Nearest, Search};
use model::random::Random;
use model::record::RECORD;
use model::signature::Source;

struct Twin;

impl Index for Twin {
    fn clear(&mut self, table: &mut [u8]) -> Answer {
        twin::clear(table)
    }

    fn insert(&mut self, table: &mut [u8], card: u32, kind: u8, signature: &[u8], arity: u8) -> Answer {
        twin::insert(table, card, kind, signature, arity)
    }

    fn delete(&mut self, table: &mut [u8], card: u32, arity: u8) -> Answer {
        twin::delete(table, card, arity)
    }

    fn search(&mut self, table: &[u8], lent: Search) -> Answer {
        twin::search(table, lent)
    }

    fn nearest(&mut self, table: &[u8], lent: Nearest) -> Answer {
        twin::nearest(table, lent)
    }

    fn check(&mut self, table: &[u8]) -> Answer {
        twin::check(table)
    }

    fn cards(&mut self, table: &[u8], list: &mut [u32]) -> Answer {
        twin::cards(table, list)
    }

    fn card(&mut self, table: &[u8], card: u32, row: &mut [u8]) -> Answer {
        twin::card(table, card, row)
    }
}

#[test]
fn the_twin_does_what_the_model_does() {
    let mut random = Random::new(21);
    let mut tally = Tally::default();
    for _ in 0..250 {
        match compare(&mut Twin, &mut Model, &any_history(&mut random)) {
            Ok(part) => tally.add(&part),
            Err(failure) => panic!("{failure}"),
        }
    }
    assert!(tally.refusals().iter().all(|times| *times > 10), "{tally:?}");
    assert!(tally.not_met().is_empty(), "{:?}", tally.not_met());
    let large = history(&mut random, Manner::Fresh, 1024, 400);
    compare(&mut Twin, &mut Model, &large).unwrap_or_else(|failure| panic!("{failure}"));
}

#[test]
fn the_twin_builds_the_same_full_table() {
    for kind in [1, 2] {
        let mut random = Random::new(u64::from(kind));
        let mut again = random.clone();
        let mut source = Source::any_flavour(&mut random, kind);
        let right = full_table(&mut random, &mut source, kind, 300);
        let mut source = Source::any_flavour(&mut again, kind);
        let mut table = vec![0; 300 * RECORD];
        for card in again.distinct(300, 1, u64::from(u32::MAX)) {
            let signature = source.next(&mut again);
            twin::insert(&mut table, card, kind, &signature, again.from_to(1, 8) as u8);
        }
        assert_eq!(table, right);
    }
}
