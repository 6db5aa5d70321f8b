//! The walk of a range search.

use crate::record::{card, child, count, distance, radius, signature, timestamp, Record, Signature, CHILD_SLOTS};

pub struct Walk<'a> {
    pub table: &'a [Record],
    pub kind: u8,
    pub query: &'a Signature,
    pub r: u64,
    pub list: &'a mut [u32],
    pub found: usize,
    pub compared: u32,
}

impl Walk<'_> {
    #[inline]
    pub fn far(&self, slot: usize) -> u32 {
        distance(self.kind, signature(&self.table[slot]), self.query)
    }

    /// Visits the record, whose distance is known, with a bound on time.
    pub fn visit(&mut self, slot: usize, here: u32, bound: u64) {
        let a = &self.table[slot];
        if u64::from(timestamp(a)) >= bound || u64::from(here) > u64::from(radius(a)) + self.r {
            return;
        }
        if u64::from(here) <= self.r {
            self.list[self.found] = card(a);
            self.found += 1;
        }
        let children = count(a).min(CHILD_SLOTS);
        self.compared += children as u32;
        let mut far = [0u32; CHILD_SLOTS];
        for (place, far) in far.iter_mut().enumerate().take(children) {
            *far = self.far(usize::from(child(a, place)));
        }
        let mut nearest_older = u64::MAX;
        for place in 0..children {
            let own = u64::from(far[place]);
            let next = usize::from(child(a, place));
            let covered = u64::from(radius(&self.table[next])) + self.r;
            if own <= nearest_older.saturating_add(2 * self.r) && own <= covered {
                // Younger siblings rise, so the first that is so much nearer has the smallest timestamp.
                let nearer = (place + 1..children).find(|c| own > u64::from(far[*c]) + 2 * self.r);
                let below =
                    nearer.map_or(bound, |c| bound.min(u64::from(timestamp(&self.table[usize::from(child(a, c))]))));
                self.visit(next, far[place], below);
            }
            nearest_older = nearest_older.min(own);
        }
    }
}
