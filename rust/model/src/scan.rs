//! The stored cards as the accepted calls tell them, their slots, and the plain scan: which of them lie within a
//! radius, and which are the nearest. It never looks at a table, so a card that a table lost or changed is missed here.

use crate::distance::{distance, Signature};
use crate::index::Pair;
use std::collections::{BTreeMap, BTreeSet};

/// Each stored card with the kind and signature that its accepted insert brought.
#[derive(Clone, Debug, Default)]
pub struct Stored {
    cards: BTreeMap<u32, (u8, Signature)>,
    /// The card of each slot, none where it is free again. A card put back keeps its slot.
    slots: Vec<Option<u32>>,
}

impl Stored {
    pub fn insert(&mut self, card: u32, kind: u8, signature: Signature) {
        let before = self.cards.insert(card, (kind, signature));
        assert!(before.is_none(), "card {card} was accepted twice");
        match self.slots.iter_mut().find(|slot| slot.is_none()) {
            Some(lowest_free) => *lowest_free = Some(card),
            None => self.slots.push(Some(card)),
        }
    }

    pub fn delete(&mut self, card: u32) {
        let before = self.cards.remove(&card);
        assert!(before.is_some(), "card {card} was deleted but not stored");
        self.slots.iter_mut().filter(|slot| **slot == Some(card)).for_each(|slot| *slot = None);
    }

    pub fn clear(&mut self) {
        self.cards.clear();
        self.slots.clear();
    }

    pub fn len(&self) -> usize {
        self.cards.len()
    }

    pub fn is_empty(&self) -> bool {
        self.cards.is_empty()
    }

    pub fn holds(&self, card: u32) -> bool {
        self.cards.contains_key(&card)
    }

    /// The kind and signature that the card was stored with.
    pub fn card(&self, card: u32) -> Option<(u8, Signature)> {
        self.cards.get(&card).copied()
    }

    pub fn in_slot_order(&self) -> Vec<u32> {
        self.slots.iter().copied().flatten().collect()
    }

    pub fn within(&self, query: &Signature, radius: u32) -> BTreeSet<u32> {
        let near = |(kind, signature): &(u8, Signature)| distance(*kind, signature, query) <= radius;
        self.cards.iter().filter(|(_, entry)| near(entry)).map(|(card, _)| *card).collect()
    }

    /// The first k of all stored cards, nearest first, equal distances by smaller card; all where there are fewer.
    pub fn first(&self, query: &Signature, k: usize) -> Vec<Pair> {
        let far = |(card, (kind, signature)): (&u32, &(u8, Signature))| (distance(*kind, signature, query), *card);
        let mut all: Vec<(u32, u32)> = self.cards.iter().map(far).collect();
        all.sort();
        all.into_iter().take(k).map(|(distance, card)| Pair { card, distance }).collect()
    }
}
