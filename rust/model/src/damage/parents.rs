//! Damage to the links upwards: no root or two, and parents that are not there, free, or not older.

use super::row::Row;
use crate::record::{CHILD_SLOTS, NO_SLOT};

impl Row<'_> {
    pub fn no_root(&mut self) -> Option<u16> {
        let root = self.some(|_, record| record.is_root())?;
        let used = self.some_used()?;
        let outside = self.outside();
        let parent = self.random.pick(&[root, used, used, used, outside]);
        self.at(root).parent = parent;
        if self.random.percent(60) && usize::from(parent) < self.records.len() && self.at(parent).count < 8 {
            self.link(parent, root);
        }
        Some(root)
    }

    pub fn two_roots(&mut self) -> Option<u16> {
        let x = self.some_below_root()?;
        self.mostly_unlink(x);
        self.at(x).parent = NO_SLOT;
        Some(x)
    }

    pub fn parent_out_of_range(&mut self) -> Option<u16> {
        let x = self.some_below_root()?;
        self.mostly_unlink(x);
        self.at(x).parent = self.outside();
        Some(x)
    }

    pub fn parent_free(&mut self) -> Option<u16> {
        let x = self.some_below_root()?;
        let free = self.some_free()?;
        self.mostly_unlink(x);
        self.at(x).parent = free;
        Some(x)
    }

    pub fn parent_not_older(&mut self) -> Option<u16> {
        if self.random.percent(50) {
            // The root made the youngest of all: every link stays right.
            let youngest = self.records.iter().map(|record| record.timestamp).max()?;
            let root = self.some(|_, record| record.is_root() && record.count > 0 && youngest < u32::MAX)?;
            self.at(root).timestamp = youngest + 1;
            return Some(root);
        }
        let x = self.some_below_root()?;
        let parent = self.at(x).parent;
        let (older, younger) = (self.at(parent).timestamp, self.at(x).timestamp);
        self.at(parent).timestamp = younger;
        self.at(x).timestamp = older;
        Some(x)
    }

    pub fn parent_itself(&mut self) -> Option<u16> {
        let x = self.some(|_, record| record.used() && !record.is_root() && usize::from(record.count) < CHILD_SLOTS)?;
        self.unlink(x);
        self.at(x).parent = x;
        self.link(x, x);
        Some(x)
    }

    pub fn parent_cycle(&mut self) -> Option<u16> {
        let x = self.some(|_, record| record.used() && !record.is_root() && record.count > 0)?;
        let with_room: Vec<u16> =
            self.below(x).into_iter().filter(|slot| self.records[usize::from(*slot)].count < 8).collect();
        let y = self.random.any(&with_room)?;
        self.unlink(x);
        self.at(x).parent = y;
        self.link(y, x);
        Some(x)
    }
}
