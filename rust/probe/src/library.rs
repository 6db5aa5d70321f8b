//! The proved library's C functions. A slice is passed as a pointer and a length. All of the crate's `unsafe` is here.

use crate::Probe;

extern "C" {
    fn probe_distance(kind: u8, a: *const u8, a_length: usize, b: *const u8, b_length: usize) -> u32;
    fn probe_judge(table: *const u8, length: usize) -> u32;
    fn probe_clear(table: *mut u8, length: usize) -> u32;
    fn probe_used(table: *const u8, length: usize) -> u32;
    fn probe_slot_of(table: *const u8, length: usize, card: u32) -> u32;
    fn probe_lowest_free(table: *const u8, length: usize) -> u32;
    fn probe_largest_timestamp(table: *const u8, length: usize) -> u32;
    fn probe_root(table: *const u8, length: usize) -> u32;
    fn probe_kind(table: *const u8, length: usize) -> u32;
}

/// The linked library.
#[derive(Clone, Copy, Debug, Default)]
pub struct Library;

// SAFETY, for every call below: pointer and length come from one slice that is borrowed until the call returns, and
// the function reads (clear: reads and writes) those bytes only and keeps no pointer.
impl Probe for Library {
    fn distance(&self, kind: u8, a: &[u8], b: &[u8]) -> u32 {
        unsafe { probe_distance(kind, a.as_ptr(), a.len(), b.as_ptr(), b.len()) }
    }

    fn judge(&self, table: &[u8]) -> u32 {
        unsafe { probe_judge(table.as_ptr(), table.len()) }
    }

    fn clear(&self, table: &mut [u8]) -> u32 {
        unsafe { probe_clear(table.as_mut_ptr(), table.len()) }
    }

    fn used(&self, table: &[u8]) -> u32 {
        unsafe { probe_used(table.as_ptr(), table.len()) }
    }

    fn slot_of(&self, table: &[u8], card: u32) -> u32 {
        unsafe { probe_slot_of(table.as_ptr(), table.len(), card) }
    }

    fn lowest_free(&self, table: &[u8]) -> u32 {
        unsafe { probe_lowest_free(table.as_ptr(), table.len()) }
    }

    fn largest_timestamp(&self, table: &[u8]) -> u32 {
        unsafe { probe_largest_timestamp(table.as_ptr(), table.len()) }
    }

    fn root(&self, table: &[u8]) -> u32 {
        unsafe { probe_root(table.as_ptr(), table.len()) }
    }

    fn kind(&self, table: &[u8]) -> u32 {
        unsafe { probe_kind(table.as_ptr(), table.len()) }
    }
}
