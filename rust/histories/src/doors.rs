//! The library's functions behind one trait, so that a wrong library can be put in its place: as they are, and
//! through the wrapper's typed calls.

use model::index::Search;
use plotvuga::{library, Kind, Pair, Refusal, Signature};

/// What a nearest call is lent besides its table: as the model has it, but for the list of the library's own pairs.
#[derive(Debug)]
pub struct Nearest<'a> {
    pub kind: u8,
    pub signature: &'a [u8],
    pub k: u32,
    pub list: &'a mut [Pair],
}

/// The functions: each returns the refusal number and sets its counts.
pub trait Doors {
    fn clear(&mut self, table: &mut [u8]) -> u32;
    fn insert(&mut self, table: &mut [u8], card: u32, kind: u8, arity: u8, signature: &[u8], count: &mut u32) -> u32;
    fn delete(&mut self, table: &mut [u8], card: u32, arity: u8, count: &mut u32) -> u32;
    fn search(&mut self, table: &[u8], lent: Search, count: &mut u32, found: &mut u32) -> u32;
    fn nearest(&mut self, table: &[u8], lent: Nearest, count: &mut u32, found: &mut u32) -> u32;
    fn check(&mut self, table: &[u8]) -> u32;
    fn cards(&mut self, table: &[u8], list: &mut [u32], found: &mut u32) -> u32;
    fn card(&mut self, table: &[u8], card: u32, row: &mut [u8], kind: &mut u8) -> u32;
}

/// The linked library.
#[derive(Clone, Copy, Debug, Default)]
pub struct Linked;

impl Doors for Linked {
    fn clear(&mut self, table: &mut [u8]) -> u32 {
        library::clear(table)
    }

    fn insert(&mut self, table: &mut [u8], card: u32, kind: u8, arity: u8, signature: &[u8], count: &mut u32) -> u32 {
        library::insert(table, card, kind, arity, signature, count)
    }

    fn delete(&mut self, table: &mut [u8], card: u32, arity: u8, count: &mut u32) -> u32 {
        library::delete(table, card, arity, count)
    }

    fn search(&mut self, table: &[u8], lent: Search, count: &mut u32, found: &mut u32) -> u32 {
        library::search(table, lent.kind, lent.signature, lent.radius, lent.list, count, found)
    }

    fn nearest(&mut self, table: &[u8], lent: Nearest, count: &mut u32, found: &mut u32) -> u32 {
        library::nearest(table, lent.kind, lent.signature, lent.k, lent.list, count, found)
    }

    fn check(&mut self, table: &[u8]) -> u32 {
        library::check(table)
    }

    fn cards(&mut self, table: &[u8], list: &mut [u32], found: &mut u32) -> u32 {
        library::cards(table, list, found)
    }

    fn card(&mut self, table: &[u8], card: u32, row: &mut [u8], kind: &mut u8) -> u32 {
        library::card(table, card, row, kind)
    }
}

/// The linked library through the wrapper's typed calls, as far as types can say the arguments.
#[derive(Clone, Copy, Debug, Default)]
pub struct Typed;

/// A kind and bytes as a signature, if they are one.
fn typed(kind: u8, bytes: &[u8]) -> Option<Signature> {
    let kind = [Kind::Readings, Kind::Faults].into_iter().find(|known| known.number() == kind)?;
    Some(Signature::from_bytes(kind, bytes.try_into().ok()?))
}

fn number<T>(result: Result<T, Refusal>) -> u32 {
    result.map_or_else(Refusal::number, |_| 0)
}

impl Doors for Typed {
    fn clear(&mut self, table: &mut [u8]) -> u32 {
        number(plotvuga::clear(table))
    }

    fn insert(&mut self, table: &mut [u8], card: u32, kind: u8, arity: u8, signature: &[u8], count: &mut u32) -> u32 {
        let Some(signature) = typed(kind, signature) else {
            return Linked.insert(table, card, kind, arity, signature, count);
        };
        let inserted = plotvuga::insert(table, card, &signature, arity);
        *count = inserted.map_or(0, |inserted| inserted.distances);
        number(inserted)
    }

    fn delete(&mut self, table: &mut [u8], card: u32, arity: u8, count: &mut u32) -> u32 {
        let deleted = plotvuga::delete(table, card, arity);
        *count = deleted.map_or(0, |deleted| deleted.distances);
        number(deleted)
    }

    fn search(&mut self, table: &[u8], lent: Search, count: &mut u32, found: &mut u32) -> u32 {
        let Some(signature) = typed(lent.kind, lent.signature) else {
            return Linked.search(table, lent, count, found);
        };
        let listed = plotvuga::search(table, &signature, lent.radius, lent.list);
        *count = listed.map_or(0, |listed| listed.distances);
        *found = listed.map_or(0, |listed| listed.cards.len() as u32);
        number(listed)
    }

    fn nearest(&mut self, table: &[u8], lent: Nearest, count: &mut u32, found: &mut u32) -> u32 {
        let Some(signature) = typed(lent.kind, lent.signature) else {
            return Linked.nearest(table, lent, count, found);
        };
        let listed = plotvuga::nearest(table, &signature, lent.k, lent.list);
        *count = listed.map_or(0, |listed| listed.distances);
        *found = listed.map_or(0, |listed| listed.pairs.len() as u32);
        number(listed)
    }

    fn check(&mut self, table: &[u8]) -> u32 {
        number(plotvuga::check(table))
    }

    fn cards(&mut self, table: &[u8], list: &mut [u32], found: &mut u32) -> u32 {
        let listed = plotvuga::cards(table, list);
        *found = listed.map_or(0, |cards| cards.len() as u32);
        number(listed)
    }

    fn card(&mut self, table: &[u8], card: u32, row: &mut [u8], kind: &mut u8) -> u32 {
        // The wrapper lends a row of its own, which is never too short.
        if row.len() < Signature::BYTES {
            return Linked.card(table, card, row, kind);
        }
        let told = plotvuga::card(table, card);
        *kind = told.map_or(0, |signature| signature.kind().number());
        if let Ok(signature) = told {
            row[..Signature::BYTES].copy_from_slice(signature.bytes());
        }
        number(told)
    }
}
