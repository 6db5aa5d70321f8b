//! What an index over a lent table offers: its calls, each answering with its refusal and its counts.

use std::fmt;

/// What a search is lent besides its table. Kind and signature stand as the caller gave them, right or wrong.
#[derive(Debug)]
pub struct Search<'a> {
    pub kind: u8,
    pub signature: &'a [u8],
    pub radius: u32,
    /// Where the cards found go, from its start.
    pub list: &'a mut [u32],
}

/// A card and its distance to the query, as a nearest call lists them.
#[derive(Clone, Copy, Debug, Default, PartialEq, Eq)]
#[repr(C)]
pub struct Pair {
    pub card: u32,
    pub distance: u32,
}

impl fmt::Display for Pair {
    fn fmt(&self, f: &mut fmt::Formatter<'_>) -> fmt::Result {
        write!(f, "card {} at {}", self.card, self.distance)
    }
}

/// What a nearest call is lent besides its table. Kind, signature and k stand as the caller gave them, right or wrong.
#[derive(Debug)]
pub struct Nearest<'a> {
    pub kind: u8,
    pub signature: &'a [u8],
    /// How many cards are wanted.
    pub k: u32,
    /// Where the cards go with their distances, nearest first, from its start.
    pub list: &'a mut [Pair],
}

/// What a call returns. Counts and kind are 0 where the call reports none, and in every refusal.
#[derive(Clone, Copy, Debug, Default, PartialEq, Eq)]
pub struct Answer {
    pub refusal: u32,
    /// The distance count.
    pub count: u32,
    /// The number of cards listed.
    pub found: u32,
    /// The kind that a card was stored with.
    pub kind: u8,
}

impl Answer {
    /// A refusal, or done where the call counts nothing.
    pub fn refused(refusal: u32) -> Answer {
        Answer { refusal, ..Answer::default() }
    }
}

pub trait Index {
    fn clear(&mut self, table: &mut [u8]) -> Answer;
    fn insert(&mut self, table: &mut [u8], card: u32, kind: u8, signature: &[u8], arity: u8) -> Answer;
    fn delete(&mut self, table: &mut [u8], card: u32, arity: u8) -> Answer;
    fn search(&mut self, table: &[u8], lent: Search) -> Answer;
    /// The k stored cards nearest to the query, equal distances by smaller card.
    fn nearest(&mut self, table: &[u8], lent: Nearest) -> Answer;
    fn check(&mut self, table: &[u8]) -> Answer;
    /// All stored cards in slot order, from the list's start.
    fn cards(&mut self, table: &[u8], list: &mut [u32]) -> Answer;
    /// What one card was stored with: its kind, and its signature from the row's start.
    fn card(&mut self, table: &[u8], card: u32, row: &mut [u8]) -> Answer;
}
