//! A table that is held, with the calls as its methods.

use crate::calls::{self, Deleted, Inserted, Pair};
use crate::refusal::Refusal;
use crate::signature::Signature;
use std::iter::FusedIterator;

/// The bytes of a record.
pub const RECORD: usize = 64;
/// The most records that a table has.
pub const MOST_RECORDS: usize = 1024;
/// The most cards that can be asked for at once by [`nearest`](crate::nearest).
pub const MOST_NEAREST: usize = 64;

/// A table over bytes of its own (`Table`, made by [`Table::new`]) or over any others, lent or owned ([`Table::over`]).
///
/// What is said of a call's refusals and of its stack at the function of the same name holds for the method.
#[derive(Clone, Debug, PartialEq, Eq)]
pub struct Table<B = Vec<u8>> {
    bytes: B,
}

/// What a search of a [`Table`] found.
#[derive(Clone, Debug, PartialEq, Eq)]
pub struct Cards {
    /// How many distances were worked out; never more than cards are stored.
    pub distances: u32,
    /// The cards, in the order in which the search came upon them.
    pub cards: Vec<u32>,
}

/// The cards of a [`Table`] that are nearest to a signature.
#[derive(Clone, Debug, PartialEq, Eq)]
pub struct Pairs {
    /// How many distances were worked out; never more than cards are stored.
    pub distances: u32,
    /// The cards with their distances, nearest first, equal distances by smaller card.
    pub pairs: Vec<Pair>,
}

/// The cards that a [`Table`] held when it was asked ([`Table::cards`]), in the order of their slots.
#[derive(Clone, Debug)]
pub struct Stored {
    cards: std::vec::IntoIter<u32>,
}

impl Iterator for Stored {
    type Item = u32;

    fn next(&mut self) -> Option<u32> {
        self.cards.next()
    }

    fn size_hint(&self) -> (usize, Option<usize>) {
        self.cards.size_hint()
    }
}

impl DoubleEndedIterator for Stored {
    fn next_back(&mut self) -> Option<u32> {
        self.cards.next_back()
    }
}

impl ExactSizeIterator for Stored {}

impl FusedIterator for Stored {}

impl Table<Vec<u8>> {
    /// An empty table of so many records, 1 to 1,024.
    ///
    /// # Errors
    /// [`Refusal::Size`] for any other number.
    pub fn new(records: usize) -> Result<Table, Refusal> {
        if !(1..=MOST_RECORDS).contains(&records) {
            return Err(Refusal::Size);
        }
        Ok(Table { bytes: vec![0; records * RECORD] })
    }
}

impl<B: AsRef<[u8]>> Table<B> {
    /// The table that these bytes hold, as they stand: a `&mut [u8]`, a `Vec<u8>`, an array, or a `&[u8]` to read
    /// only. Nothing is judged here; every call judges the bytes.
    pub fn over(bytes: B) -> Table<B> {
        Table { bytes }
    }

    /// The table's bytes, to keep or to send.
    pub fn bytes(&self) -> &[u8] {
        self.bytes.as_ref()
    }

    /// The bytes that the table was made over.
    pub fn into_bytes(self) -> B {
        self.bytes
    }

    /// The number of records, free ones too.
    pub fn records(&self) -> usize {
        self.bytes().len() / RECORD
    }

    /// Every stored card within the radius of the signature, each once.
    ///
    /// # Errors
    /// As [`search`](crate::search), but never [`Refusal::Short`]: the list is the table's own.
    pub fn search(&self, signature: &Signature, radius: u32) -> Result<Cards, Refusal> {
        let mut cards = vec![0; self.records()];
        let found = calls::search(self.bytes(), signature, radius, &mut cards)?;
        let (distances, many) = (found.distances, found.cards.len());
        cards.truncate(many);
        Ok(Cards { distances, cards })
    }

    /// The `k` stored cards nearest to the signature, nearest first and equal distances by smaller card; all of them
    /// where fewer are stored. `k` is 1 to 64.
    ///
    /// ```
    /// use plotvuga::{Signature, Table};
    ///
    /// let mut table = Table::new(8)?;
    /// for (card, reading) in [(11, 500), (12, 900), (13, 505)] {
    ///     table.insert(card, &Signature::readings([reading; 16]), 4)?;
    /// }
    /// for pair in table.nearest(&Signature::readings([502; 16]), 2)?.pairs {
    ///     println!("card {} is {} away", pair.card, pair.distance);
    /// }
    /// # Ok::<(), plotvuga::Refusal>(())
    /// ```
    ///
    /// # Errors
    /// As [`nearest`](crate::nearest), but never [`Refusal::Short`]: the list is the table's own.
    pub fn nearest(&self, signature: &Signature, k: u32) -> Result<Pairs, Refusal> {
        // A k that is too large is refused before the list is looked at.
        let mut pairs = vec![Pair::default(); (k as usize).min(MOST_NEAREST)];
        let found = calls::nearest(self.bytes(), signature, k, &mut pairs)?;
        let (distances, many) = (found.distances, found.pairs.len());
        pairs.truncate(many);
        Ok(Pairs { distances, pairs })
    }

    /// Whether every search on this table lists exactly the near cards.
    ///
    /// # Errors
    /// As [`check`](crate::check).
    pub fn check(&self) -> Result<(), Refusal> {
        calls::check(self.bytes())
    }

    /// The stored cards, in the order of their slots. They are taken down when it is called, so that the table can
    /// change while they are gone through:
    ///
    /// ```
    /// use plotvuga::{Signature, Table};
    ///
    /// let mut table = Table::new(8)?;
    /// for card in [12, 7, 30] {
    ///     table.insert(card, &Signature::readings([100 * card as u16; 16]), 4)?;
    /// }
    /// assert_eq!(table.cards()?.len(), 3);
    ///
    /// // Every card whose first reading is below 1,000 leaves.
    /// for card in table.cards()? {
    ///     if table.card(card)?.as_readings().is_some_and(|readings| readings[0] < 1000) {
    ///         table.delete(card, 4)?;
    ///     }
    /// }
    /// assert_eq!(table.cards()?.collect::<Vec<_>>(), [12, 30]);
    /// # Ok::<(), plotvuga::Refusal>(())
    /// ```
    ///
    /// # Errors
    /// As [`cards`](crate::cards), but never [`Refusal::Short`]: the list is the table's own.
    pub fn cards(&self) -> Result<Stored, Refusal> {
        let mut cards = vec![0; self.records()];
        let many = calls::cards(self.bytes(), &mut cards)?.len();
        cards.truncate(many);
        Ok(Stored { cards: cards.into_iter() })
    }

    /// What a card was stored with.
    ///
    /// # Errors
    /// As [`card`](crate::card).
    pub fn card(&self, card: u32) -> Result<Signature, Refusal> {
        calls::card(self.bytes(), card)
    }

    /// How many cards are stored.
    ///
    /// # Errors
    /// As [`stored`](crate::stored).
    pub fn stored(&self) -> Result<usize, Refusal> {
        calls::stored(self.bytes())
    }

    /// How many records are free: so many cards can be stored besides.
    ///
    /// # Errors
    /// As [`free`](crate::free).
    pub fn free(&self) -> Result<usize, Refusal> {
        calls::free(self.bytes())
    }
}

impl<B: AsRef<[u8]> + AsMut<[u8]>> Table<B> {
    /// Empties the table.
    ///
    /// # Errors
    /// As [`clear`](crate::clear).
    pub fn clear(&mut self) -> Result<(), Refusal> {
        calls::clear(self.bytes.as_mut())
    }

    /// Stores a card; [`insert`](crate::insert) says what the arity does.
    ///
    /// # Errors
    /// As [`insert`](crate::insert).
    pub fn insert(&mut self, card: u32, signature: &Signature, arity: u8) -> Result<Inserted, Refusal> {
        calls::insert(self.bytes.as_mut(), card, signature, arity)
    }

    /// Removes a card; what stood below it is put back with the arity given.
    ///
    /// # Errors
    /// As [`delete`](crate::delete).
    pub fn delete(&mut self, card: u32, arity: u8) -> Result<Deleted, Refusal> {
        calls::delete(self.bytes.as_mut(), card, arity)
    }
}
