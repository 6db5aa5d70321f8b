//! Distances: random and extreme signatures, every byte on its own, and kinds and lengths that have none.

use super::Run;
use crate::answers::Answers;
use crate::tally::Group;
use crate::Probe;
use model::distance::{FAULT_BITS, READINGS};
use model::signature::{Flavour, Source};

impl Run<'_> {
    pub fn distances(&mut self, rounds: usize) {
        for (kind, most) in [(READINGS, 1_048_560), (FAULT_BITS, 256)] {
            let mut group = Group::new(format!("distance of kind {kind}, random and extreme signatures"));
            let ends = self.probe.distance(kind, &[0; 32], &[255; 32]);
            group.count(ends == most, 0, || format!("all zeros against all ones: {ends} and not {most}"));
            for round in 0..rounds * 50 {
                let random = &mut self.random;
                let mut source = Source::new(random, kind, Flavour::ALL[round % Flavour::ALL.len()]);
                let mut other = Source::any_flavour(random, kind);
                let a = source.next(random);
                let b = if random.percent(70) { source.next(random) } else { other.next(random) };
                self.distance(&mut group, kind, &a, &b);
                self.distance(&mut group, kind, &a, &a);
            }
            self.one_byte_apart(&mut group, kind);
            self.finish(group);
        }
        let mut group = Group::new("distance of other kinds and lengths");
        for kind in [0, 1, 2, 3, 4, 127, 128, 129, 255] {
            for (a, b) in [(0, 32), (32, 0), (31, 32), (32, 31), (33, 32), (32, 33), (64, 64), (0, 0), (32, 32)] {
                self.distance(&mut group, kind, &vec![1; a], &vec![2; b]);
            }
        }
        self.finish(group);
    }

    fn distance(&self, group: &mut Group, kind: u8, a: &[u8], b: &[u8]) {
        let (answer, right) = (self.probe.distance(kind, a, b), Answers::default().distance(kind, a, b));
        group.count(answer == right, a.len() + b.len(), || {
            format!("{answer} and not {right} for kind {kind}\n  a = {a:?}\n  b = {b:?}")
        });
    }

    /// Every single byte at the ends of its range against zeros, so that no place is left out or weighed wrongly.
    fn one_byte_apart(&self, group: &mut Group, kind: u8) {
        for at in 0..32 {
            for byte in [1, 127, 128, 255] {
                let mut a = [0; 32];
                a[at] = byte;
                self.distance(group, kind, &a, &[0; 32]);
                self.distance(group, kind, &[255; 32], &a);
            }
        }
    }
}
