//! Short histories that show a slip in listing the nearest, with what it lists and counts and what is right.

use crate::slip::Slip;
use crate::slipped::Slipped;
use model::calls::Model;
use model::distance::{Signature, READINGS};
use model::index::{Index, Nearest, Pair};
use model::record::RECORD;

/// Kind 1 with reading 0 as given and the others 0.
fn reading(value: u8) -> Signature {
    let mut signature = [0; 32];
    signature[0] = value;
    signature
}

/// The inserts, card, reading 0 and arity each, and the call made after them.
struct Short<'a> {
    inserts: &'a [(u32, u8, u8)],
    query: u8,
    k: u32,
}

impl Short<'_> {
    /// The distance count, and card and distance of each entry.
    fn on(&self, index: &mut dyn Index) -> (u32, Vec<(u32, u32)>) {
        let mut table = vec![0; self.inserts.len() * RECORD];
        for (card, value, arity) in self.inserts {
            index.insert(&mut table, *card, READINGS, &reading(*value), *arity);
        }
        let mut list = vec![Pair::default(); self.k as usize];
        let lent = Nearest { kind: READINGS, signature: &reading(self.query), k: self.k, list: &mut list };
        let answer = index.nearest(&table, lent);
        let found = &list[..answer.found as usize];
        (answer.count, found.iter().map(|pair| (pair.card, pair.distance)).collect())
    }

    fn shows(&self, slip: Slip, wrong: (u32, &[(u32, u32)]), right: (u32, &[(u32, u32)])) {
        assert_eq!(self.on(&mut Slipped(slip)), (wrong.0, wrong.1.to_vec()), "{slip:?}");
        assert_eq!(self.on(&mut Slipped(Slip::None)), (right.0, right.1.to_vec()), "without {slip:?}");
        assert_eq!(self.on(&mut Model), (right.0, right.1.to_vec()), "the model");
    }
}

#[test]
fn short_histories_show_the_slips_that_look_right() {
    let reached = Short { inserts: &[(6, 3, 1), (1, 3, 1)], query: 0, k: 1 };
    reached.shows(Slip::NearestReached, (1, &[(6, 3)]), (2, &[(1, 3)]));
    let younger = Short { inserts: &[(4, 1, 1), (3, 0, 1), (2, 3, 1), (7, 3, 2)], query: 3, k: 1 };
    younger.shows(Slip::NearestYounger, (3, &[(7, 0)]), (4, &[(2, 0)]));
    let not_halved = Short { inserts: &[(3, 1, 1), (6, 0, 1), (8, 10, 2), (2, 6, 1)], query: 3, k: 2 };
    not_halved.shows(Slip::NearestNotHalved, (3, &[(3, 2), (6, 3)]), (4, &[(3, 2), (2, 3)]));
    let halved_down = Short { inserts: &[(1, 15, 2), (2, 9, 2), (3, 14, 2), (4, 17, 2)], query: 10, k: 1 };
    halved_down.shows(Slip::NearestHalvedDown, (4, &[(2, 1)]), (3, &[(2, 1)]));
}
