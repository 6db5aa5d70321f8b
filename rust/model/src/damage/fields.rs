//! Damage to a record's own fields, and to what must differ or agree between records: cards, timestamps, kinds.

use super::row::Row;
use crate::record::{Record, CHILD_SLOTS, RECORD};

impl Row<'_> {
    pub fn free_byte(&mut self) -> Option<u16> {
        let slot = self.some_free()?;
        let mut bytes = self.at(slot).bytes();
        let at = self.random.from_to(4, RECORD as u64 - 1) as usize;
        bytes[at] = self.random.pick(&[1, 128, 255]);
        *self.at(slot) = Record::parse(&bytes);
        Some(slot)
    }

    pub fn timestamp_zero(&mut self) -> Option<u16> {
        // At the root nothing else is wrong.
        let root = self.some(|_, record| record.is_root())?;
        let slot = if self.random.percent(70) { root } else { self.some_used()? };
        self.at(slot).timestamp = 0;
        Some(slot)
    }

    pub fn count_over_eight(&mut self) -> Option<u16> {
        // With eight children nothing else is wrong.
        let full = self.some(|_, record| record.used() && usize::from(record.count) == CHILD_SLOTS);
        let slot = full.or_else(|| self.some_used())?;
        self.at(slot).count = self.random.pick(&[9, 10, 16, 128, 255]);
        Some(slot)
    }

    pub fn kind_mixed(&mut self) -> Option<u16> {
        if self.records.iter().filter(|record| record.used()).count() < 2 {
            return None;
        }
        self.with_used(|record, _| record.kind = 3 - record.kind)
    }

    pub fn kind_unknown_all(&mut self) -> Option<u16> {
        let slot = self.some_used()?;
        let kind = self.random.pick(&[0, 3, 4, 255]);
        self.records.iter_mut().filter(|record| record.used()).for_each(|record| record.kind = kind);
        Some(slot)
    }

    pub fn slot_past_count(&mut self) -> Option<u16> {
        let slot = self.some_with_room()?;
        let first = u64::from(self.at(slot).count);
        let place = self.random.from_to(first, CHILD_SLOTS as u64 - 1) as usize;
        let inside = self.random.below(self.records.len()) as u16;
        let outside = self.outside();
        self.at(slot).slots[place] = self.random.pick(&[0, slot, inside, outside, 65_534, 255, 65_280]);
        Some(slot)
    }

    pub fn equal_cards(&mut self) -> Option<u16> {
        let x = self.some_used()?;
        let y = self.some(|slot, record| record.used() && slot != x)?;
        self.at(x).card = self.records[usize::from(y)].card;
        Some(x)
    }

    pub fn equal_timestamps(&mut self) -> Option<u16> {
        if self.random.percent(30) {
            let x = self.some_used()?;
            let y = self.some(|slot, record| record.used() && slot != x)?;
            self.at(x).timestamp = self.records[usize::from(y)].timestamp;
            return Some(x);
        }
        // Two that follow each other in age and are neither siblings nor parent and child: nothing else is wrong.
        let mut by_age: Vec<(u32, u16)> = (0..self.records.len() as u16)
            .filter(|slot| self.records[usize::from(*slot)].used())
            .map(|slot| (self.records[usize::from(slot)].timestamp, slot))
            .collect();
        by_age.sort();
        let pairs: Vec<(u16, u16)> = by_age
            .windows(2)
            .map(|pair| (pair[0].1, pair[1].1))
            .filter(|(y, x)| {
                let (older, younger) = (&self.records[usize::from(*y)], &self.records[usize::from(*x)]);
                younger.parent != *y && younger.parent != older.parent
            })
            .collect();
        let (y, x) = self.random.any(&pairs)?;
        self.at(x).timestamp = self.records[usize::from(y)].timestamp;
        Some(x)
    }
}
