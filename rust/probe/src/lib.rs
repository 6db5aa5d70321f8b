//! The probe functions of the proved library behind one trait, the model's own answers behind the same trait, and
//! the groups of comparisons between the two.

pub mod answers;
pub mod groups;
#[cfg(not(feature = "stub"))]
pub mod library;
pub mod tables;
pub mod tally;

/// What a question answers on a table of the wrong size or not well formed, and a distance on wrong arguments.
pub const NO_ANSWER: u32 = u32::MAX;

/// The probe functions. Where no slot fits (no root, no free record, an absent card, card 0) the answer is the number
/// of records.
pub trait Probe {
    /// Kind 1 or 2 over two signatures of 32 bytes; anything else has no answer.
    fn distance(&self, kind: u8, a: &[u8], b: &[u8]) -> u32;
    /// 0 well formed, 1 SIZE, 2 TABLE.
    fn judge(&self, table: &[u8]) -> u32;
    /// 0 done, 1 SIZE.
    fn clear(&self, table: &mut [u8]) -> u32;
    fn used(&self, table: &[u8]) -> u32;
    fn slot_of(&self, table: &[u8], card: u32) -> u32;
    fn lowest_free(&self, table: &[u8]) -> u32;
    /// 0 if no record is used.
    fn largest_timestamp(&self, table: &[u8]) -> u32;
    fn root(&self, table: &[u8]) -> u32;
    /// 0 if no record is used.
    fn kind(&self, table: &[u8]) -> u32;
}
