//! How far two signatures are from each other, as the proved library has it: one is stored in a table of one record,
//! and the library is asked for the nearest card to the other. So no second telling of a distance stands here, and a
//! new rule of the library's is this program's too.

use plotvuga::{Pair, Signature, RECORD};

/// The distance of two signatures of one kind; none if their kinds differ.
pub fn apart(one: &Signature, other: &Signature) -> Option<u32> {
    let mut table = [0; RECORD];
    plotvuga::insert(&mut table, 1, one, 1).ok()?;
    let mut nearest = [Pair::default()];
    let found = plotvuga::nearest(&table, other, 1, &mut nearest).ok()?;
    found.pairs.first().map(|pair| pair.distance)
}
