//! The paper's range search told record by record: what was entered, compared, listed and skipped, with the numbers
//! that prove each. It is held against the library's own answer, so that no other walk is drawn than the search's.

use super::tree::{Record, Tree};
use crate::apart::apart;
use crate::text::many;
use plotvuga::{Found, Refusal, Signature};
use std::fmt;

/// A record that was compared, and its distance to the query.
#[derive(Clone, Copy, Debug, PartialEq, Eq)]
pub struct Met {
    pub slot: usize,
    pub distance: u32,
}

/// Two children of one record whose distances to the query differ by more than twice the radius. On a sound table all
/// that stands below the farther and is younger than the nearer is no farther from the first than from the second.
#[derive(Clone, Copy, Debug, PartialEq, Eq)]
pub struct Siblings {
    pub farther: Met,
    pub nearer: Met,
}

impl Siblings {
    /// By how much the one is nearer to the query than the other.
    pub fn nearer_by(&self) -> u32 {
        self.farther.distance - self.nearer.distance
    }

    /// No such record is nearer to the query than this, by the triangle's law: half the difference, rounded up.
    pub fn least(&self) -> u32 {
        self.nearer_by().div_ceil(2)
    }
}

/// Why a record that was compared was not entered: the first reason that holds, in the paper's order.
#[derive(Clone, Copy, Debug, PartialEq, Eq)]
pub enum Why {
    /// Step 3: it is farther than an older sibling, the nearest of them, by more than twice the radius.
    Older(Siblings),
    /// Step 1, time: the farther of these is above it, and it is not older than the nearer, which set the bound.
    Time(Siblings),
    /// Step 1, covering: its distance is more than its covering radius and the search's together.
    Covering { reach: u32 },
}

/// What the search did at a record.
#[derive(Clone, Copy, Debug, PartialEq, Eq)]
pub enum Fate {
    /// Entered, and within the radius.
    Listed { distance: u32, bound: Option<Siblings> },
    /// Entered, and not within the radius. Below it, what is not older than the bound's nearer one is not entered.
    Entered { distance: u32, bound: Option<Siblings> },
    /// Compared, and not entered.
    NotEntered { distance: u32, why: Why },
    /// Not compared: the record of this slot stands above it and was not entered.
    NotCompared { below: usize },
}

impl Fate {
    /// The distance to the query, if the search worked it out.
    pub fn distance(&self) -> Option<u32> {
        match self {
            Fate::Listed { distance, .. } | Fate::Entered { distance, .. } | Fate::NotEntered { distance, .. } => {
                Some(*distance)
            }
            Fate::NotCompared { .. } => None,
        }
    }
}

/// A range search on a tree.
#[derive(Clone, Debug)]
pub struct Walk {
    pub query: Signature,
    pub radius: u32,
    /// How many distances were worked out: so many records were compared.
    pub distances: u32,
    /// The cards listed, in the walk's order.
    pub cards: Vec<u32>,
    /// The cards within the radius that are not listed, in the tree's order. A sound table has none.
    pub missed: Vec<u32>,
    /// By slot; none for free ones.
    fates: Vec<Option<Fate>>,
}

/// Why there is no walk to draw.
#[derive(Clone, Debug, PartialEq, Eq)]
pub enum Unlike {
    /// The library refused the search.
    Refused(Refusal),
    /// The library's search gave other cards, or another count, than the walk to be drawn.
    Search { drawn: (u32, Vec<u32>), answered: (u32, Vec<u32>) },
}

impl fmt::Display for Unlike {
    fn fmt(&self, f: &mut fmt::Formatter<'_>) -> fmt::Result {
        match self {
            Unlike::Refused(refusal) => refusal.fmt(f),
            Unlike::Search { drawn, answered } => {
                let (one, other) = (many(drawn.1.len(), "card"), many(answered.1.len(), "card"));
                let why = "the drawing's walk is not the search's, so nothing is drawn";
                write!(f, "{why}: {one} over {} distances, and the search {other} over {}", drawn.0, answered.0)
            }
        }
    }
}

impl std::error::Error for Unlike {}

impl From<Refusal> for Unlike {
    fn from(refusal: Refusal) -> Unlike {
        Unlike::Refused(refusal)
    }
}

impl Walk {
    /// The search for this query on this tree, which lists the same cards over as many distances as the library's.
    ///
    /// # Errors
    /// [`Unlike::Refused`] with [`Refusal::Kind`]: the tree's cards are of the other kind. [`Unlike::Search`]: the walk
    /// is not the library's; no table is known that gives it.
    pub fn of(tree: &Tree, query: &Signature, radius: u32) -> Result<Walk, Unlike> {
        let mut list = vec![0; tree.records()];
        let found = plotvuga::search(tree.bytes(), query, radius, &mut list)?;
        let mut walk = Walk {
            query: *query,
            radius,
            distances: 0,
            cards: Vec::new(),
            missed: Vec::new(),
            fates: vec![None; tree.records()],
        };
        walk.go(tree);
        walk.tell_the_rest(tree);
        walk.held_against(&found)
    }

    /// The walk, if the library's search gave the same.
    fn held_against(self, found: &Found) -> Result<Walk, Unlike> {
        if (self.distances, self.cards.as_slice()) != (found.distances, found.cards) {
            let answered = (found.distances, found.cards.to_vec());
            return Err(Unlike::Search { drawn: (self.distances, self.cards), answered });
        }
        Ok(self)
    }

    /// What the search did at this slot; none if it is free.
    pub fn fate(&self, slot: usize) -> Option<&Fate> {
        self.fates.get(slot)?.as_ref()
    }

    /// On a sound table nothing at this slot or below it is nearer to the query than this, which is more than the
    /// radius; none if the slot is free or was entered.
    pub fn least(&self, slot: usize) -> Option<u32> {
        match *self.fate(slot)? {
            Fate::NotEntered { distance, why: Why::Covering { reach } } => Some(distance - reach),
            Fate::NotEntered { why: Why::Older(pair) | Why::Time(pair), .. } => Some(pair.least()),
            Fate::NotCompared { below } => self.least(below),
            Fate::Listed { .. } | Fate::Entered { .. } => None,
        }
    }

    fn far(&self, record: &Record) -> u32 {
        apart(&self.query, &record.signature).expect("the library has searched this table for the query")
    }

    /// By more than twice the radius.
    fn much_farther(&self, one: Met, other: Met) -> bool {
        u64::from(one.distance) > u64::from(other.distance) + 2 * u64::from(self.radius)
    }

    /// Steps 1 to 3. The visits that are still to come wait on a stack of its own, since a chain has 1,024 levels.
    fn go(&mut self, tree: &Tree) {
        let Some(root) = tree.root() else { return };
        self.distances = 1;
        let mut visits = vec![(Met { slot: root.slot, distance: self.far(root) }, None)];
        while let Some((met, bound)) = visits.pop() {
            let record = tree.at(met.slot);
            let fate = self.visited(tree, record, met.distance, bound);
            self.fates[met.slot] = Some(fate);
            if matches!(fate, Fate::Listed { .. }) {
                self.cards.push(record.card);
            }
            if !matches!(fate, Fate::NotEntered { .. }) {
                let next = self.children(tree, record, bound);
                visits.extend(next.into_iter().rev());
            }
        }
    }

    /// Steps 1 and 2 at a record: its timestamp is held against that of the bound's nearer one.
    fn visited(&self, tree: &Tree, record: &Record, distance: u32, bound: Option<Siblings>) -> Fate {
        if let Some(pair) = bound.filter(|pair| record.age >= tree.at(pair.nearer.slot).age) {
            return Fate::NotEntered { distance, why: Why::Time(pair) };
        }
        if u64::from(distance) > u64::from(record.radius) + u64::from(self.radius) {
            return Fate::NotEntered { distance, why: Why::Covering { reach: record.radius } };
        }
        if distance <= self.radius {
            Fate::Listed { distance, bound }
        } else {
            Fate::Entered { distance, bound }
        }
    }

    /// Step 3 at an entered record: all children are compared; those to be visited are returned with their bounds.
    fn children(&mut self, tree: &Tree, record: &Record, bound: Option<Siblings>) -> Vec<(Met, Option<Siblings>)> {
        let met: Vec<Met> =
            record.children.iter().map(|slot| Met { slot: *slot, distance: self.far(tree.at(*slot)) }).collect();
        self.distances += met.len() as u32;
        let mut visits = Vec::new();
        for (place, farther) in met.iter().copied().enumerate() {
            // Of equals the first, which is the oldest.
            let older = met[..place].iter().copied().min_by_key(|older| older.distance);
            if let Some(nearer) = older.filter(|nearer| self.much_farther(farther, *nearer)) {
                let why = Why::Older(Siblings { farther, nearer });
                self.fates[farther.slot] = Some(Fate::NotEntered { distance: farther.distance, why });
                continue;
            }
            // Children stand in rising timestamp order, so the first has the smallest.
            let younger = met[place + 1..].iter().copied().find(|nearer| self.much_farther(farther, *nearer));
            let own = younger.map(|nearer| Siblings { farther, nearer });
            let smallest = own.into_iter().chain(bound).min_by_key(|pair| tree.at(pair.nearer.slot).age);
            visits.push((farther, smallest));
        }
        visits
    }

    /// What was not compared, and what was missed.
    fn tell_the_rest(&mut self, tree: &Tree) {
        for (record, _) in tree.in_order() {
            if self.fates[record.slot].is_none() {
                let parent = record.parent.expect("the root was compared");
                let below = match self.fates[parent] {
                    Some(Fate::NotCompared { below }) => below,
                    _ => parent,
                };
                self.fates[record.slot] = Some(Fate::NotCompared { below });
            }
            let listed = matches!(self.fates[record.slot], Some(Fate::Listed { .. }));
            if !listed && self.far(record) <= self.radius {
                self.missed.push(record.card);
            }
        }
    }
}

#[cfg(test)]
mod tests {
    use super::*;

    #[test]
    fn a_walk_that_is_not_the_searchs_is_not_handed_on() {
        let mut table = plotvuga::Table::new(1).unwrap();
        let signature = Signature::readings([7; 16]);
        table.insert(11, &signature, 4).unwrap();
        let walk = Walk::of(&Tree::of(table.bytes()).unwrap(), &signature, 0).unwrap();
        let unlike = |distances, cards: &[u32]| walk.clone().held_against(&Found { distances, cards }).err();
        assert_eq!(unlike(1, &[11]), None);
        for (distances, cards) in [(2, vec![11]), (1, vec![]), (1, vec![12]), (1, vec![11, 11])] {
            let told = Unlike::Search { drawn: (1, vec![11]), answered: (distances, cards.clone()) };
            assert_eq!(unlike(distances, &cards), Some(told));
        }
    }
}
