//! The records of a table being damaged: choosing among them, and hanging one below another or taking it off.

use crate::random::Random;
use crate::record::{Record, CHILD_SLOTS, NO_SLOT};

/// The records of the table being damaged.
pub struct Row<'a> {
    pub random: &'a mut Random,
    pub records: Vec<Record>,
}

impl Row<'_> {
    // ---- choosing ----

    pub fn at(&mut self, slot: u16) -> &mut Record {
        &mut self.records[usize::from(slot)]
    }

    /// Some slot whose record is such.
    pub fn some(&mut self, such: impl Fn(u16, &Record) -> bool) -> Option<u16> {
        let all = 0..self.records.len() as u16;
        let fitting: Vec<u16> = all.filter(|slot| such(*slot, &self.records[usize::from(*slot)])).collect();
        self.random.any(&fitting)
    }

    pub fn some_free(&mut self) -> Option<u16> {
        self.some(|_, record| !record.used())
    }

    pub fn some_used(&mut self) -> Option<u16> {
        self.some(|_, record| record.used())
    }

    pub fn some_below_root(&mut self) -> Option<u16> {
        self.some(|_, record| record.used() && !record.is_root())
    }

    /// A used record that can take another child.
    pub fn some_with_room(&mut self) -> Option<u16> {
        self.some(|_, record| record.used() && usize::from(record.count) < CHILD_SLOTS)
    }

    pub fn some_parent(&mut self) -> Option<u16> {
        self.some(|_, record| record.used() && record.count > 0)
    }

    /// Changes some used record and tells which.
    pub fn with_used(&mut self, change: impl Fn(&mut Record, &mut Random)) -> Option<u16> {
        let slot = self.some_used()?;
        change(&mut self.records[usize::from(slot)], self.random);
        Some(slot)
    }

    /// A slot number past the end of the table and below 65,535.
    pub fn outside(&mut self) -> u16 {
        let first = self.records.len() as u64;
        let last = u64::from(NO_SLOT) - 1;
        match self.random.below(4) {
            0 => first as u16,
            1 => last as u16,
            2 => self.random.from_to(first, (first + 40).min(last)) as u16,
            _ => self.random.from_to(first, last) as u16,
        }
    }

    /// The slots of all records below this one.
    pub fn below(&self, slot: u16) -> Vec<u16> {
        let mut all = self.records[usize::from(slot)].children().to_vec();
        let mut next = 0;
        while next < all.len() {
            all.extend(self.records[usize::from(all[next])].children());
            next += 1;
        }
        all
    }

    // ---- links ----

    /// Takes x out of its parent's child slots; later ones move up.
    pub fn unlink(&mut self, x: u16) {
        let parent = self.at(x).parent;
        let kept: Vec<u16> = self.at(parent).children().iter().copied().filter(|child| *child != x).collect();
        self.at(parent).set_children(&kept);
    }

    /// Mostly takes x off its parent, so that the link that is about to be wrong is often all that is.
    pub fn mostly_unlink(&mut self, x: u16) {
        if self.random.percent(80) {
            self.unlink(x);
        }
    }

    /// Adds x to a's child slots where its timestamp belongs; a has room.
    pub fn link(&mut self, a: u16, x: u16) {
        let age = self.at(x).timestamp;
        let mut children = self.at(a).children().to_vec();
        let place = children.iter().filter(|child| self.records[usize::from(**child)].timestamp < age).count();
        children.insert(place, x);
        self.at(a).set_children(&children);
    }
}
