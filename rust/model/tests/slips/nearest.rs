//! A nearest call, with the slips that are made there. It is another hand than the model's: what waits stands in order,
//! and no more than k cards are ever held.

use crate::Slip;
use model::calls::Model;
use model::distance::Signature;
use model::index::{Answer, Index, Nearest, Pair};
use model::refusal::{ARGUMENT, DONE, KIND, SHORT};
use model::tree::{Node, Tree};
use std::collections::BTreeMap;

pub fn nearest(slip: Slip, table: &[u8], lent: Nearest) -> Answer {
    let Nearest { kind, signature, k, list } = lent;
    let places = list.len();
    let refusal_with = |k: u32, places: usize| {
        let list = &mut vec![Pair::default(); places];
        Model.nearest(table, Nearest { kind, signature, k, list }).refusal
    };
    let refusal = refusal_with(k, places);
    let stored = if [DONE, SHORT].contains(&refusal) { Tree::of(table).nodes().len() } else { 0 };
    match (slip, refusal) {
        (Slip::NearestShortAsSearch, DONE) if places < stored => Answer::refused(SHORT),
        (_, DONE) => listed(slip, table, lent_again(kind, signature, k, list)),
        (Slip::NearestNone, ARGUMENT) if k == 0 => Answer::refused(refusal_with(1, 1)),
        (Slip::NearestPastMost, ARGUMENT) if k == 65 && refusal_with(64, places) == DONE && places > 64 => {
            listed(slip, table, lent_again(kind, signature, k, list))
        }
        (Slip::NearestCutToMost, ARGUMENT) if k > 64 && refusal_with(64, places) == DONE => {
            listed(slip, table, lent_again(kind, signature, 64, list))
        }
        (Slip::NearestShortFirst, ARGUMENT | KIND) if places < k as usize => Answer::refused(SHORT),
        (Slip::NearestShortByStored, SHORT) if places >= stored => {
            listed(slip, table, lent_again(kind, signature, k, list))
        }
        (Slip::NearestWhenShort, SHORT) => {
            listed(slip, table, lent_again(kind, signature, places as u32, list));
            Answer::refused(SHORT)
        }
        _ => Answer::refused(refusal),
    }
}

fn lent_again<'a>(kind: u8, signature: &'a [u8], k: u32, list: &'a mut [Pair]) -> Nearest<'a> {
    Nearest { kind, signature, k, list }
}

/// The call once it is accepted.
fn listed(slip: Slip, table: &[u8], lent: Nearest) -> Answer {
    let (tree, query) = (Tree::of(table), lent.signature.try_into().unwrap());
    let mut walk = Walk { slip, kind: lent.kind, query, k: lent.k as usize, held: vec![], waiting: BTreeMap::new() };
    let mut count = 0;
    if let Some(root) = &tree.root {
        walk.compare(root, 0, None);
        count = 1 + walk.work();
    }
    if slip == Slip::NearestScans {
        count = tree.nodes().len() as u32;
    }
    let mut pairs = walk.pairs();
    if slip == Slip::NearestLastDropped {
        pairs.truncate(lent.k as usize - 1);
    }
    if slip == Slip::NearestLaterZeroed {
        lent.list.fill(Pair::default());
    }
    lent.list[..pairs.len()].copy_from_slice(&pairs);
    Answer { count, found: pairs.len() as u32, ..Answer::refused(DONE) }
}

struct Walk<'a> {
    slip: Slip,
    kind: u8,
    query: &'a Signature,
    k: usize,
    /// The first k of all compared so far: distance, what decides among equal ones, card.
    held: Vec<(i64, u32, u32)>,
    /// Bound and what decides among equal ones.
    waiting: BTreeMap<(i64, u32), &'a Node>,
}

impl<'a> Walk<'a> {
    fn has(&self, slip: Slip) -> bool {
        self.slip == slip
    }

    fn far(&self, node: &Node) -> i64 {
        node.far(self.kind, self.query) as i64
    }

    /// The child counts of the records taken.
    fn work(&mut self) -> u32 {
        let mut count = 0;
        while let Some(((bound, _), a)) = self.waiting.pop_first() {
            let kth = self.held.get(self.k - 1).map_or(i64::MAX, |(distance, ..)| *distance);
            let reached = self.has(Slip::NearestReached) && bound == kth;
            let once = self.has(Slip::NearestOnceK) && self.held.len() == self.k;
            if bound > kth || reached || once {
                break;
            }
            count += if self.has(Slip::NearestCountsTaken) { 1 } else { a.children.len() as u32 };
            self.take(a, bound);
        }
        count
    }

    fn take(&mut self, a: &'a Node, bound: i64) {
        let compared: Vec<i64> = a.children.iter().map(|child| self.far(child)).collect();
        for (place, child) in a.children.iter().enumerate() {
            let judges = if self.has(Slip::NearestYounger) { &compared[..] } else { &compared[..place] };
            let parent = self.has(Slip::NearestParentJudges).then(|| self.far(a));
            let smallest = judges.iter().copied().chain(parent).min();
            self.compare(child, bound, smallest);
        }
    }

    fn compare(&mut self, node: &'a Node, parent: i64, smallest: Option<i64>) {
        let distance = self.far(node);
        let among_equals = match self.slip {
            Slip::NearestLargerCard => !node.card,
            Slip::NearestTieStays if self.held.len() == self.k => u32::MAX,
            _ => node.card,
        };
        self.held.push((distance, among_equals, node.card));
        self.held.sort();
        self.held.truncate(self.k);
        let among_equals = match self.slip {
            Slip::NearestYoungerFirst => !node.timestamp,
            Slip::NearestByCard => node.card,
            Slip::NearestBySlot => node.slot as u32,
            _ => node.timestamp,
        };
        let bound = self.bound(distance, i64::from(node.radius), parent, smallest);
        self.waiting.insert((bound, among_equals), node);
    }

    fn bound(&self, distance: i64, radius: i64, parent: i64, smallest: Option<i64>) -> i64 {
        let mut less = distance - radius;
        let mut apart = smallest.map_or(0, |smallest| distance - smallest);
        match self.slip {
            Slip::NearestWraps => less = less.rem_euclid(1 << 32),
            Slip::NearestApart => apart = apart.abs(),
            Slip::NearestNoRadius => less = 0,
            Slip::NearestNoSiblings => apart = 0,
            _ => {}
        }
        let half = match self.slip {
            Slip::NearestNotHalved => apart,
            Slip::NearestHalvedDown => apart / 2,
            _ => (apart + 1) / 2,
        };
        let above = if self.has(Slip::NearestNoParent) { 0 } else { parent };
        above.max(less).max(half)
    }

    fn pairs(&self) -> Vec<Pair> {
        self.held.iter().map(|(distance, _, card)| Pair { card: *card, distance: *distance as u32 }).collect()
    }
}
