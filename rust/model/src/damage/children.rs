//! Damage to the links downwards: child slots that name what they must not, or miss or repeat what they must name.

use super::row::Row;
use crate::record::{CHILD_SLOTS, NO_SLOT};

impl Row<'_> {
    pub fn child_out_of_range(&mut self) -> Option<u16> {
        let slot = self.some_parent()?;
        let place = self.random.below(self.records[usize::from(slot)].children().len());
        self.at(slot).slots[place] = if self.random.percent(30) { NO_SLOT } else { self.outside() };
        Some(slot)
    }

    pub fn child_count_raised(&mut self) -> Option<u16> {
        let slot = self.some_with_room()?;
        let place = usize::from(self.at(slot).count);
        self.at(slot).count += 1;
        if self.random.percent(50) {
            self.at(slot).slots[place] = self.outside();
        }
        Some(slot)
    }

    pub fn child_free(&mut self) -> Option<u16> {
        let free = self.some_free()?;
        if self.random.percent(50) {
            let slot = self.some_parent()?;
            let place = self.random.below(self.records[usize::from(slot)].children().len());
            self.at(slot).slots[place] = free;
            return Some(slot);
        }
        let slot = self.some_with_room()?;
        self.link(slot, free);
        Some(slot)
    }

    pub fn child_free_of_record_zero(&mut self) -> Option<u16> {
        let free = self.some_free()?;
        let record = &self.records[0];
        if !record.used() || usize::from(record.count) == CHILD_SLOTS {
            return None;
        }
        // A free record's timestamp reads as 0, so it comes first.
        self.link(0, free);
        Some(0)
    }

    pub fn child_of_another(&mut self) -> Option<u16> {
        let x = self.some_below_root()?;
        let parent = self.at(x).parent;
        let slot = self.some(|slot, record| {
            record.used() && usize::from(record.count) < CHILD_SLOTS && slot != parent && slot != x
        })?;
        self.link(slot, x);
        Some(slot)
    }

    pub fn child_above(&mut self) -> Option<u16> {
        let slot = self.some_with_room()?;
        let root = self.some(|_, record| record.is_root())?;
        let x = self.random.pick(&[slot, root]);
        self.link(slot, x);
        Some(slot)
    }

    pub fn child_missing(&mut self) -> Option<u16> {
        let x = self.some_below_root()?;
        self.unlink(x);
        Some(x)
    }

    pub fn child_twice(&mut self) -> Option<u16> {
        let slot =
            self.some(|_, record| record.used() && record.count > 0 && usize::from(record.count) < CHILD_SLOTS)?;
        let mut children = self.at(slot).children().to_vec();
        let x = self.random.pick(&children);
        children.insert(self.random.below(children.len() + 1), x);
        self.at(slot).set_children(&children);
        Some(slot)
    }

    pub fn children_not_rising(&mut self) -> Option<u16> {
        let slot = self.some(|_, record| record.used() && record.count > 1)?;
        let count = self.at(slot).children().len();
        let one = self.random.below(count);
        let other = (one + 1 + self.random.below(count - 1)) % count;
        self.at(slot).slots.swap(one, other);
        Some(slot)
    }
}
