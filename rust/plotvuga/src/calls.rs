//! The calls over lent bytes, with types.

use crate::library;
use crate::refusal::{done, Refusal};
use crate::signature::{Kind, Signature};
use crate::table::{MOST_RECORDS, RECORD};

/// An accepted insert.
#[derive(Clone, Copy, Debug, PartialEq, Eq)]
pub struct Inserted {
    /// How many distances were worked out.
    pub distances: u32,
}

/// An accepted delete.
#[derive(Clone, Copy, Debug, PartialEq, Eq)]
pub struct Deleted {
    /// How many distances were worked out to put back what stood below the card.
    pub distances: u32,
}

/// An accepted search.
#[derive(Clone, Copy, Debug, PartialEq, Eq)]
pub struct Found<'a> {
    /// How many distances were worked out; never more than cards are stored.
    pub distances: u32,
    /// The cards, in the order in which the search came upon them: the front of the list that was lent.
    pub cards: &'a [u32],
}

/// A stored card and its distance to the signature that was looked for.
#[derive(Clone, Copy, Debug, Default, PartialEq, Eq, Hash)]
#[repr(C)]
pub struct Pair {
    /// The card's number.
    pub card: u32,
    /// How far its signature is from the one that was looked for.
    pub distance: u32,
}

/// An accepted call for the nearest few.
#[derive(Clone, Copy, Debug, PartialEq, Eq)]
pub struct Nearest<'a> {
    /// How many distances were worked out; never more than cards are stored.
    pub distances: u32,
    /// The cards with their distances, nearest first: the front of the list that was lent.
    pub pairs: &'a [Pair],
}

/// Empties the table: every byte becomes 0, whatever it was.
///
/// ```
/// let mut table = [7u8; 2 * plotvuga::RECORD];
/// plotvuga::clear(&mut table)?;
/// assert_eq!(plotvuga::stored(&table)?, 0);
/// # Ok::<(), plotvuga::Refusal>(())
/// ```
///
/// # Errors
/// - [`Refusal::Size`]: the length is not a multiple of 64 from 64 to 65,536.
///
/// # Stack
/// Next to none.
pub fn clear(table: &mut [u8]) -> Result<(), Refusal> {
    done(library::clear(table))
}

/// Stores a card, 1 or more, by its signature. A record that has `arity` children, 1 to 8, takes no more; the arity may
/// differ from call to call.
///
/// 4 serves well, and from 2 to 8 it matters little: fewer children make a deeper tree, and a little less is compared.
/// Arity 1 makes a chain, in which a search compares nearly every card and a delete may take milliseconds.
///
/// ```
/// let mut table = [0u8; 4 * plotvuga::RECORD];
/// let signature = plotvuga::Signature::readings([500; 16]);
/// assert_eq!(plotvuga::insert(&mut table, 11, &signature, 4)?.distances, 0);
/// assert_eq!(plotvuga::insert(&mut table, 11, &signature, 4), Err(plotvuga::Refusal::Twice));
/// # Ok::<(), plotvuga::Refusal>(())
/// ```
///
/// # Errors
/// In this order:
///
/// - [`Refusal::Size`], then [`Refusal::Table`]: the bytes are no well-formed table.
/// - [`Refusal::Argument`]: card 0, or an arity that is not 1 to 8.
/// - [`Refusal::Kind`]: the table holds cards of the other kind.
/// - [`Refusal::Twice`]: the card is stored already.
/// - [`Refusal::Full`]: no record is free.
/// - [`Refusal::Clock`]: the largest timestamp in use is 4,294,967,295.
///
/// # Stack
/// 38 KB; 512 KB suffice for every call.
pub fn insert(table: &mut [u8], card: u32, signature: &Signature, arity: u8) -> Result<Inserted, Refusal> {
    let mut distances = 0;
    done(library::insert(table, card, signature.kind().number(), arity, signature.bytes(), &mut distances))?;
    Ok(Inserted { distances })
}

/// Removes a card. What stood below it in the tree is put back with the arity given, 1 to 8, oldest first and with
/// fresh timestamps.
///
/// ```
/// let mut table = [0u8; 4 * plotvuga::RECORD];
/// plotvuga::insert(&mut table, 11, &plotvuga::Signature::readings([500; 16]), 4)?;
/// assert_eq!(plotvuga::delete(&mut table, 11, 4)?.distances, 0);
/// assert_eq!(plotvuga::delete(&mut table, 11, 4), Err(plotvuga::Refusal::Absent));
/// # Ok::<(), plotvuga::Refusal>(())
/// ```
///
/// # Errors
/// In this order:
///
/// - [`Refusal::Size`], then [`Refusal::Table`]: the bytes are no well-formed table.
/// - [`Refusal::Argument`]: card 0, or an arity that is not 1 to 8.
/// - [`Refusal::Absent`]: the card is not stored.
/// - [`Refusal::Clock`]: what is put back would get a timestamp above 4,294,967,295.
///
/// # Stack
/// Up to 113 KB, when the root of 1,024 records leaves; 512 KB suffice for every call.
pub fn delete(table: &mut [u8], card: u32, arity: u8) -> Result<Deleted, Refusal> {
    let mut distances = 0;
    done(library::delete(table, card, arity, &mut distances))?;
    Ok(Deleted { distances })
}

/// Lists every stored card within the radius of the signature, each once. The list has at least as many entries as
/// cards are stored, whatever will be found; those after the cards found keep what they held. [`MOST_RECORDS`] entries
/// always suffice. The list is complete on every sound table, so on every one that these calls alone have made.
///
/// ```
/// let mut table = [0u8; 4 * plotvuga::RECORD];
/// plotvuga::insert(&mut table, 11, &plotvuga::Signature::readings([500; 16]), 4)?;
/// plotvuga::insert(&mut table, 12, &plotvuga::Signature::readings([900; 16]), 4)?;
/// let mut list = [0; 4];
/// let near = plotvuga::search(&table, &plotvuga::Signature::readings([510; 16]), 200, &mut list)?;
/// assert_eq!(near.cards, [11]);
/// # Ok::<(), plotvuga::Refusal>(())
/// ```
///
/// # Errors
/// In this order:
///
/// - [`Refusal::Size`], then [`Refusal::Table`]: the bytes are no well-formed table.
/// - [`Refusal::Kind`]: the table holds cards of the other kind.
/// - [`Refusal::Short`]: the list has fewer entries than cards are stored.
///
/// # Stack
/// 38 KB, or some 400 bytes for each level of the tree where that is more: up to 401 KB on a chain of 1,024. 512 KB
/// suffice for every call.
pub fn search<'a>(table: &[u8], signature: &Signature, radius: u32, list: &'a mut [u32]) -> Result<Found<'a>, Refusal> {
    let (mut distances, mut found) = (0, 0);
    let kind = signature.kind().number();
    done(library::search(table, kind, signature.bytes(), radius, list, &mut distances, &mut found))?;
    Ok(Found { distances, cards: &list[..found as usize] })
}

/// Lists the `k` stored cards nearest to the signature, nearest first and equal distances by smaller card; all of them
/// where fewer are stored. `k` is 1 to 64 ([`MOST_NEAREST`](crate::MOST_NEAREST)). The list has at least `k` entries,
/// however few cards are stored; those after the cards listed keep what they held. On every sound table, so on every
/// one that these calls alone have made, the list is exactly the first `k` of all stored cards in that order.
///
/// ```
/// use plotvuga::{Pair, Signature};
///
/// let mut table = [0u8; 4 * plotvuga::RECORD];
/// for (card, reading) in [(11, 500), (12, 900), (13, 505)] {
///     plotvuga::insert(&mut table, card, &Signature::readings([reading; 16]), 4)?;
/// }
/// let mut list = [Pair::default(); 2];
/// let near = plotvuga::nearest(&table, &Signature::readings([502; 16]), 2, &mut list)?;
/// assert_eq!(near.pairs, [Pair { card: 11, distance: 32 }, Pair { card: 13, distance: 48 }]);
/// # Ok::<(), plotvuga::Refusal>(())
/// ```
///
/// # Errors
/// In this order:
///
/// - [`Refusal::Size`], then [`Refusal::Table`]: the bytes are no well-formed table.
/// - [`Refusal::Argument`]: a `k` that is not 1 to 64.
/// - [`Refusal::Kind`]: the table holds cards of the other kind.
/// - [`Refusal::Short`]: the list has fewer than `k` entries.
///
/// # Stack
/// 47 KB; 512 KB suffice for every call.
pub fn nearest<'a>(table: &[u8], signature: &Signature, k: u32, list: &'a mut [Pair]) -> Result<Nearest<'a>, Refusal> {
    let (mut distances, mut found) = (0, 0);
    let kind = signature.kind().number();
    done(library::nearest(table, kind, signature.bytes(), k, list, &mut distances, &mut found))?;
    Ok(Nearest { distances, pairs: &list[..found as usize] })
}

/// Whether the table is sound: done exactly if every search on it lists exactly the stored cards within its radius, and
/// [`Refusal::Loose`] exactly if there is one that misses a card. Tables that these calls alone have made are sound.
///
/// ```
/// let mut table = [0u8; 4 * plotvuga::RECORD];
/// plotvuga::insert(&mut table, 11, &plotvuga::Signature::readings([500; 16]), 4)?;
/// plotvuga::insert(&mut table, 12, &plotvuga::Signature::readings([900; 16]), 4)?;
/// plotvuga::check(&table)?;
/// // A covering radius that does not reach the card below.
/// table[8..12].fill(0);
/// assert_eq!(plotvuga::check(&table), Err(plotvuga::Refusal::Loose));
/// # Ok::<(), plotvuga::Refusal>(())
/// ```
///
/// # Errors
/// In this order:
///
/// - [`Refusal::Size`], then [`Refusal::Table`]: the bytes are no well-formed table.
/// - [`Refusal::Loose`]: the table is well formed but not sound.
///
/// # Stack
/// 38 KB; 512 KB suffice for every call.
pub fn check(table: &[u8]) -> Result<(), Refusal> {
    done(library::check(table))
}

/// All stored cards, in the order of their slots: the front of the list that was lent. The entries after them keep what
/// they held. [`MOST_RECORDS`] entries always suffice.
///
/// ```
/// let mut table = [0u8; 4 * plotvuga::RECORD];
/// for card in [12, 7, 30] {
///     plotvuga::insert(&mut table, card, &plotvuga::Signature::readings([500; 16]), 4)?;
/// }
/// let mut list = [0; 4];
/// assert_eq!(plotvuga::cards(&table, &mut list)?, [12, 7, 30]);
/// # Ok::<(), plotvuga::Refusal>(())
/// ```
///
/// # Errors
/// In this order:
///
/// - [`Refusal::Size`], then [`Refusal::Table`]: the bytes are no well-formed table.
/// - [`Refusal::Short`]: the list has fewer entries than cards are stored.
///
/// # Stack
/// 38 KB; 512 KB suffice for every call.
pub fn cards<'a>(table: &[u8], list: &'a mut [u32]) -> Result<&'a [u32], Refusal> {
    let mut found = 0;
    done(library::cards(table, list, &mut found))?;
    Ok(&list[..found as usize])
}

/// What a card was stored with: its kind and its bytes.
///
/// ```
/// let mut table = [0u8; 4 * plotvuga::RECORD];
/// let signature = plotvuga::Signature::faults([0b1011, 0, 0, 1 << 63]);
/// plotvuga::insert(&mut table, 7, &signature, 4)?;
/// assert_eq!(plotvuga::card(&table, 7)?, signature);
/// assert_eq!(plotvuga::card(&table, 8), Err(plotvuga::Refusal::Absent));
/// # Ok::<(), plotvuga::Refusal>(())
/// ```
///
/// # Errors
/// In this order:
///
/// - [`Refusal::Size`], then [`Refusal::Table`]: the bytes are no well-formed table.
/// - [`Refusal::Argument`]: card 0.
/// - [`Refusal::Absent`]: the card is not stored.
///
/// # Stack
/// 38 KB; 512 KB suffice for every call.
pub fn card(table: &[u8], card: u32) -> Result<Signature, Refusal> {
    let (mut row, mut kind) = ([0; Signature::BYTES], 0);
    done(library::card(table, card, &mut row, &mut kind))?;
    let kind = Kind::from_number(kind).expect("a stored card's kind is 1 or 2");
    Ok(Signature::from_bytes(kind, row))
}

/// How many cards are stored.
///
/// ```
/// let mut table = [0u8; 4 * plotvuga::RECORD];
/// plotvuga::insert(&mut table, 7, &plotvuga::Signature::readings([500; 16]), 4)?;
/// assert_eq!((plotvuga::stored(&table)?, plotvuga::free(&table)?), (1, 3));
/// # Ok::<(), plotvuga::Refusal>(())
/// ```
///
/// # Errors
/// - [`Refusal::Size`], then [`Refusal::Table`]: the bytes are no well-formed table.
///
/// # Stack
/// That of [`cards`], and 4 KB for a list.
pub fn stored(table: &[u8]) -> Result<usize, Refusal> {
    cards(table, &mut [0; MOST_RECORDS]).map(<[u32]>::len)
}

/// How many records are free: so many cards can be stored besides.
///
/// # Errors
/// - [`Refusal::Size`], then [`Refusal::Table`]: the bytes are no well-formed table.
///
/// # Stack
/// That of [`cards`], and 4 KB for a list.
pub fn free(table: &[u8]) -> Result<usize, Refusal> {
    Ok(table.len() / RECORD - stored(table)?)
}
