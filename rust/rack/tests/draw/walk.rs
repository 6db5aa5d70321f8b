//! The walk against the library's search, and what it says of skipped records against every real distance.

use crate::{all, listing, Source};
use plotvuga::{Refusal, Signature, RECORD};
use rack::apart::apart;
use rack::draw::{Fate, Record, Siblings, Tree, Unlike, Walk, Why};

/// How often each fate and each reason was met.
#[derive(Debug, Default)]
struct Seen {
    listed: usize,
    entered: usize,
    bound: usize,
    covering: usize,
    older: usize,
    time: usize,
    not_compared: usize,
    missed: usize,
}

/// A search and the tree it was on.
struct Case<'a> {
    tree: &'a Tree,
    walk: &'a Walk,
    sound: bool,
}

impl Case<'_> {
    fn record(&self, slot: usize) -> &Record {
        self.tree.record(slot).unwrap()
    }

    fn far(&self, slot: usize) -> u32 {
        apart(&self.walk.query, &self.record(slot).signature).unwrap()
    }

    fn stands_above(&self, above: usize, below: &Record) -> bool {
        std::iter::successors(below.parent, |slot| self.record(*slot).parent).any(|slot| slot == above)
    }

    /// What is said of a record is so.
    fn told_rightly(&self, record: &Record, seen: &mut Seen) {
        let (walk, real) = (self.walk, self.far(record.slot));
        let fate = walk.fate(record.slot).unwrap();
        assert!(fate.distance().is_none_or(|distance| distance == real));
        let (listed, missed) = (matches!(fate, Fate::Listed { .. }), walk.missed.contains(&record.card));
        assert_eq!(walk.cards.contains(&record.card), listed);
        assert_eq!(missed, !listed && real <= walk.radius);
        seen.missed += usize::from(missed);
        match fate {
            Fate::Listed { bound, .. } | Fate::Entered { bound, .. } => {
                *(if listed { &mut seen.listed } else { &mut seen.entered }) += 1;
                seen.bound += usize::from(bound.is_some());
                assert!(bound.is_none_or(|pair| record.age < self.much_farther(&pair).1.age));
                assert!(u64::from(real) <= u64::from(record.radius) + u64::from(walk.radius));
            }
            Fate::NotEntered { why, .. } => self.reason_holds(record, why, seen),
            Fate::NotCompared { below } => {
                assert!(self.stands_above(*below, record));
                assert!(matches!(walk.fate(*below), Some(Fate::NotEntered { .. })));
                seen.not_compared += 1;
            }
        }
        let entered = matches!(fate, Fate::Listed { .. } | Fate::Entered { .. });
        assert_eq!(walk.least(record.slot).is_none(), entered);
        if let Some(least) = walk.least(record.slot) {
            assert!(least > walk.radius, "card {}: {least}", record.card);
            assert!(!self.sound || real >= least, "card {}: {real}, not {least} or more", record.card);
        }
    }

    /// The two siblings, of which the first is farther by more than twice the radius.
    fn much_farther(&self, pair: &Siblings) -> (&Record, &Record) {
        let (b, c) = (self.record(pair.farther.slot), self.record(pair.nearer.slot));
        assert_eq!((pair.farther.distance, pair.nearer.distance), (self.far(b.slot), self.far(c.slot)));
        assert!(b.parent == c.parent && b.slot != c.slot);
        let twice = 2 * u64::from(self.walk.radius);
        assert!(u64::from(pair.farther.distance) > u64::from(pair.nearer.distance) + twice);
        (b, c)
    }

    fn reason_holds(&self, record: &Record, why: &Why, seen: &mut Seen) {
        match why {
            Why::Covering { reach } => {
                assert_eq!(*reach, record.radius);
                assert!(u64::from(self.far(record.slot)) > u64::from(*reach) + u64::from(self.walk.radius));
                seen.covering += 1;
            }
            Why::Older(pair) => {
                let (b, c) = self.much_farther(pair);
                let siblings = &self.record(record.parent.unwrap()).children;
                let older = siblings.iter().take_while(|slot| **slot != record.slot);
                assert_eq!((b.slot, older.min_by_key(|slot| self.far(**slot))), (record.slot, Some(&c.slot)));
                seen.older += 1;
            }
            Why::Time(pair) => {
                let (b, c) = self.much_farther(pair);
                assert!(b.age < c.age && c.age < record.age && self.stands_above(b.slot, record));
                seen.time += 1;
            }
        }
    }
}

#[test]
fn it_is_the_searchs_and_what_it_says_is_so() {
    let (mut source, mut seen) = (Source(1), Seen::default());
    for round in 0..160 {
        let (masks, sound) = (round % 2 == 0, round % 4 < 2);
        let cards = 1 + source.below(60) as u32;
        let made = source.table(masks, cards);
        let table = if sound { made } else { source.loosened(&made) };
        let tree = Tree::of(table.bytes()).unwrap();
        for _ in 0..4 {
            let (query, radius) = (source.signature(masks), source.radius());
            let walk = Walk::of(&tree, &query, radius).unwrap();
            let found = table.search(&query, radius).unwrap();
            assert_eq!((walk.distances, &walk.cards), (found.distances, &found.cards));
            let fates = all(&tree).into_iter().map(|record| walk.fate(record.slot).unwrap());
            assert_eq!(fates.filter(|fate| fate.distance().is_some()).count(), found.distances as usize);
            let case = Case { tree: &tree, walk: &walk, sound };
            all(&tree).into_iter().for_each(|record| case.told_rightly(record, &mut seen));
            assert!(!sound || walk.missed.is_empty());
        }
    }
    let Seen { listed, entered, bound, covering, older, time, not_compared, missed } = seen;
    let least = [listed, entered, bound, covering, older, time, not_compared, missed].into_iter().min();
    assert!(least > Some(20), "each is to be met often: {seen:?}");
}

#[test]
fn the_papers_search() {
    let tree = Tree::of(listing().bytes()).unwrap();
    let walk = Walk::of(&tree, &crate::one(48), 5).unwrap();
    assert_eq!((walk.distances, walk.cards.as_slice()), (5, [11, 14].as_slice()));
    // 16 is 30 away and its older sibling 14 is 4 away; 13 is 28 away and reaches 20; 15 is below it.
    let least: Vec<_> = (0..6).map(|slot| walk.least(slot)).collect();
    assert_eq!(least, [None, None, Some(8), None, Some(8), Some(13)]);
}

#[test]
fn what_the_library_refuses_is_not_drawn() {
    assert_eq!(Tree::of(&[0; 63]).unwrap_err(), Refusal::Size);
    assert_eq!(Tree::of(&[1; RECORD]).unwrap_err(), Refusal::Table);
    let tree = Tree::of(listing().bytes()).unwrap();
    let refused = Walk::of(&tree, &Signature::faults([0; 4]), 5).unwrap_err();
    assert_eq!(refused, Unlike::Refused(Refusal::Kind));
    assert_eq!(refused.to_string(), Refusal::Kind.to_string());
    let other = Unlike::Search { drawn: (5, vec![11]), answered: (4, vec![11, 14]) };
    assert_eq!(
        other.to_string(),
        "the drawing's walk is not the search's, so nothing is drawn: 1 card over 5 distances, and the search 2 cards \
         over 4"
    );
}
