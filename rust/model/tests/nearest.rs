//! Nearest calls over many random tables: on sound ones the list is the first of the plain scan, at a count that is
//! told without any order of work; on loose ones it is still a list of stored cards; on damaged ones nothing is
//! written.

use model::assemble::any_table;
use model::calls::Model;
use model::damage::{loosen, Blind};
use model::distance::{Signature, FAULT_BITS, READINGS};
use model::history::grown_table;
use model::index::{Answer, Index, Nearest, Pair, Search};
use model::judge::{judge, Verdict};
use model::nearest::lower_bound;
use model::random::Random;
use model::record::{parse_table, Record, RECORD};
use model::refusal::{DONE, KIND};
use model::scan::Stored;
use model::signature::Source;
use model::tree::{Node, Tree};

/// What an entry holds that no call wrote.
const LENT: Pair = Pair { card: 0xdead, distance: 0xbeef };

/// The answer of an accepted call, and what it lists; entries behind that are as they were lent.
fn few(table: &[u8], kind: u8, signature: &[u8], k: u32, places: usize) -> (Answer, Vec<Pair>) {
    let mut list = vec![LENT; places];
    let answer = Model.nearest(table, Nearest { kind, signature, k, list: &mut list });
    let later = list.split_off(answer.found as usize);
    assert!(later.iter().all(|pair| *pair == LENT));
    (answer, list)
}

/// The stored cards of a table, as a plain scan has them.
fn stored(table: &[u8]) -> Stored {
    let mut stored = Stored::default();
    parse_table(table).iter().filter(|record| record.used()).for_each(|Record { card, kind, signature, .. }| {
        stored.insert(*card, *kind, *signature);
    });
    stored
}

/// The kind of the table's cards; either in a free table.
fn kind_of(random: &mut Random, table: &[u8]) -> u8 {
    let used = parse_table(table).into_iter().find(Record::used);
    used.map_or_else(|| random.pick(&[READINGS, FAULT_BITS]), |record| record.kind)
}

/// Often the signature of a stored card, else any.
fn some_query(random: &mut Random, table: &[u8], kind: u8) -> Signature {
    let used: Vec<Signature> = parse_table(table).iter().filter(|r| r.used()).map(|r| r.signature).collect();
    let stored = random.any(&used).filter(|_| random.percent(60));
    let mut query = stored.unwrap_or_else(|| Source::any_flavour(random, kind).next(random));
    if random.percent(50) {
        query[random.below(query.len())] ^= 1 << random.below(3);
    }
    query
}

fn some_k(random: &mut Random, stored: usize) -> u32 {
    let any = random.below(64) + 1;
    random.pick(&[1, 2, 3, any, stored.saturating_sub(1), stored, stored + 1, 63, 64]).clamp(1, 64) as u32
}

/// The count with no word of the order in which records are taken: those whose bound is at most the k-th distance are
/// taken, and all where fewer than k are stored.
fn count_by_bounds(tree: &Tree, query: &Signature, kth: Option<i64>) -> u32 {
    fn taken(a: &Node, bound: i64, far: &dyn Fn(&Node) -> i64, kth: Option<i64>) -> usize {
        if kth.is_some_and(|kth| bound > kth) {
            return 0;
        }
        let mut sum = a.children.len();
        for (place, child) in a.children.iter().enumerate() {
            let smallest_older = a.children[..place].iter().map(far).min();
            let below = lower_bound(far(child), i64::from(child.radius), Some(bound), smallest_older);
            sum += taken(child, below, far, kth);
        }
        sum
    }
    let far = |node: &Node| node.far(tree.kind, query) as i64;
    tree.root.as_ref().map_or(0, |root| {
        let bound = lower_bound(far(root), i64::from(root.radius), None, None);
        1 + taken(root, bound, &far, kth) as u32
    })
}

#[test]
fn on_sound_tables_the_list_is_the_first_of_the_plain_scan() {
    let mut random = Random::new(21);
    let mut less = 0;
    for _ in 0..1500 {
        let records = random.from_to(1, 90) as usize;
        let table = grown_table(&mut random, records);
        let (kind, stored) = (kind_of(&mut random, &table), stored(&table));
        for _ in 0..6 {
            let query = some_query(&mut random, &table, kind);
            let k = some_k(&mut random, stored.len());
            let (answer, list) = few(&table, kind, &query, k, k as usize + random.below(3));
            assert_eq!(answer.refusal, DONE);
            assert_eq!(list, stored.first(&query, k as usize));
            let kth = list.get(k as usize - 1).map(|pair| i64::from(pair.distance));
            assert_eq!(answer.count, count_by_bounds(&Tree::of(&table), &query, kth));
            assert!(answer.count as usize <= stored.len() && answer.count >= answer.found);
            less += usize::from((answer.count as usize) < stored.len());
            searched(&table, kind, &query, &list);
        }
    }
    assert!(less > 1000, "the tree saved distances in {less} calls alone");
}

/// A search with the last distance as radius finds all that is listed, and nothing nearer is left out of the list.
fn searched(table: &[u8], kind: u8, query: &Signature, list: &[Pair]) {
    let Some(last) = list.last() else { return };
    let mut cards = vec![0; table.len() / RECORD];
    let lent = Search { kind, signature: query, radius: last.distance, list: &mut cards };
    let found = Model.search(table, lent).found as usize;
    cards.truncate(found);
    assert!(list.iter().all(|pair| cards.contains(&pair.card)));
    if last.distance > 0 {
        let nearer = list.iter().filter(|pair| pair.distance < last.distance).count();
        let mut cards = vec![0; table.len() / RECORD];
        let lent = Search { kind, signature: query, radius: last.distance - 1, list: &mut cards };
        assert_eq!(Model.search(table, lent).found as usize, nearer);
    }
}

#[test]
fn on_loose_tables_it_is_a_list_of_stored_cards_in_order() {
    let mut random = Random::new(22);
    let mut missed = 0;
    for round in 0..1500 {
        let mut table = any_table(&mut random);
        if round % 2 == 0 {
            let records = random.from_to(2, 60) as usize;
            table = grown_table(&mut random, records);
            loosen(&mut random, &mut table);
        }
        let (kind, stored) = (kind_of(&mut random, &table), stored(&table));
        let query = some_query(&mut random, &table, kind);
        let k = some_k(&mut random, stored.len());
        let (answer, list) = few(&table, kind, &query, k, k as usize + random.below(3));
        assert_eq!((answer.refusal, list.len()), (DONE, stored.len().min(k as usize)));
        let all = stored.first(&query, stored.len());
        let places = list.iter().map(|pair| all.iter().position(|other| other == pair).expect("a stored card"));
        assert!(places.collect::<Vec<_>>().is_sorted_by(|one, next| one < next));
        assert!(answer.count as usize <= stored.len() && answer.count >= answer.found);
        missed += usize::from(list != all[..list.len()]);
    }
    assert!(missed > 50, "a loose table showed in {missed} lists alone");
}

#[test]
fn whatever_bytes_there_is_an_answer_and_a_refusal_writes_nothing() {
    let mut random = Random::new(23);
    for _ in 0..4000 {
        let mut table = any_table(&mut random);
        match random.below(5) {
            0 => table.resize(random.pick(&[0, 63, 65, 65_600]), 7),
            1 => table.iter_mut().for_each(|byte| *byte = random.byte()),
            2 => {}
            _ => random.pick(&Blind::ALL).apply(&mut random, &mut table),
        }
        let signature = vec![random.byte(); random.pick(&[0, 31, 32, 32, 32, 32, 33, 64])];
        let (kind, k) = (random.pick(&[0, 1, 2, 3]), random.pick(&[0, 1, 2, 63, 64, 65, u32::MAX]));
        let places = random.pick(&[0, 1, 2, 62, 63, 64, 65, 200]);
        let (answer, _) = few(&table, kind, &signature, k, places);
        if answer.refusal != DONE {
            assert_eq!(answer, Answer::refused(answer.refusal));
        } else {
            assert_eq!(judge(&table), Verdict::WellFormed);
        }
        assert!(answer.refusal != KIND || !stored(&table).is_empty());
    }
}
