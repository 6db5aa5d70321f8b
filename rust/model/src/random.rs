//! A small deterministic source of numbers: the same seed gives the same numbers on every machine.

/// SplitMix64: a counter in steps of an odd constant, and a mixing of its bits.
#[derive(Clone, Debug)]
pub struct Random {
    counter: u64,
}

impl Random {
    pub fn new(seed: u64) -> Random {
        Random { counter: seed }
    }

    pub fn word(&mut self) -> u64 {
        self.counter = self.counter.wrapping_add(0x9e37_79b9_7f4a_7c15);
        let mut z = self.counter;
        z = (z ^ (z >> 30)).wrapping_mul(0xbf58_476d_1ce4_e5b9);
        z = (z ^ (z >> 27)).wrapping_mul(0x94d0_49bb_1331_11eb);
        z ^ (z >> 31)
    }

    /// A number below the given one, which is not 0.
    pub fn below(&mut self, end: usize) -> usize {
        (self.word() % end as u64) as usize
    }

    /// A number from the first to the last, both included.
    pub fn from_to(&mut self, first: u64, last: u64) -> u64 {
        match (last - first).checked_add(1) {
            Some(span) => first + self.word() % span,
            None => self.word(),
        }
    }

    pub fn number(&mut self) -> u32 {
        self.word() as u32
    }

    pub fn byte(&mut self) -> u8 {
        self.word() as u8
    }

    /// True about so many times in a hundred.
    pub fn percent(&mut self, share: u64) -> bool {
        self.word() % 100 < share
    }

    pub fn pick<T: Copy>(&mut self, from: &[T]) -> T {
        from[self.below(from.len())]
    }

    /// One of the list, none of an empty one.
    pub fn any<T: Copy>(&mut self, from: &[T]) -> Option<T> {
        (!from.is_empty()).then(|| self.pick(from))
    }

    pub fn shuffle<T>(&mut self, list: &mut [T]) {
        for end in (1..list.len()).rev() {
            list.swap(end, self.below(end + 1));
        }
    }

    /// So many distinct numbers from the first to the last, in no order.
    pub fn distinct(&mut self, many: usize, first: u64, last: u64) -> Vec<u32> {
        let mut seen = std::collections::HashSet::new();
        let mut list = Vec::new();
        while list.len() < many {
            let number = self.from_to(first, last) as u32;
            if seen.insert(number) {
                list.push(number);
            }
        }
        list
    }
}
