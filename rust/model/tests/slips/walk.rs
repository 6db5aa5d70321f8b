//! The walk of a search, with the slips that are made there.

use crate::Slip;
use model::distance::Signature;
use model::tree::Node;

pub struct Walk<'a> {
    pub slip: Slip,
    pub kind: u8,
    pub query: &'a Signature,
    pub r: u64,
    pub listed: Vec<u32>,
    pub count: u32,
}

impl Walk<'_> {
    fn has(&self, slip: Slip) -> bool {
        self.slip == slip
    }

    /// The visit of a, whose distance to the query is known, with bound t on time.
    pub fn visit(&mut self, a: &Node, from_a: u64, t: u64) {
        let mut reach = u64::from(a.radius) + self.r;
        if self.has(Slip::SumsWrap) {
            reach %= 1 << 32;
        }
        if u64::from(a.timestamp) >= t || from_a > reach {
            return;
        }
        self.count += a.children.len() as u32;
        if from_a <= self.r {
            self.listed.push(a.card);
        }
        let twice = if self.has(Slip::OneRadius) { self.r } else { 2 * self.r };
        let compared: Vec<u64> = a.children.iter().map(|child| child.far(self.kind, self.query)).collect();
        let mut places: Vec<usize> = (0..compared.len()).collect();
        if self.has(Slip::WalkReversed) {
            places.reverse();
        }
        for place in places {
            let judges = if self.has(Slip::YoungerInSmallest) { &compared[..] } else { &compared[..place] };
            let parent = self.has(Slip::ParentAmongCandidates).then_some(from_a);
            let smallest = judges.iter().copied().chain(parent).min();
            if smallest.is_some_and(|smallest| compared[place] > smallest + twice) {
                continue;
            }
            let nearer = (place + 1..compared.len()).filter(|c| compared[place] > compared[*c] + twice);
            let younger = nearer.map(|c| u64::from(a.children[c].timestamp)).collect();
            self.visit(&a.children[place], compared[place], self.bound(younger, t));
        }
    }

    /// The bound below a child, from the timestamps of younger siblings that are so much nearer, and the bound t above.
    fn bound(&self, younger: Vec<u64>, t: u64) -> u64 {
        let smallest = younger.iter().copied().min().unwrap_or(u64::MAX);
        match self.slip {
            Slip::NoBound => u64::MAX,
            Slip::BoundDropped => smallest,
            Slip::BoundNotSmallest => younger.last().copied().unwrap_or(u64::MAX).min(t),
            _ => smallest.min(t),
        }
    }
}
