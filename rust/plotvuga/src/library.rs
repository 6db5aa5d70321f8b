//! The library's functions as they are, over slices and numbers: each returns the refusal number, 0 for done, and
//! sets its counts. The calls at the crate's top are these with types. All of the crate's `unsafe` is here.

use crate::calls::Pair;

extern "C" {
    fn plotvuga_clear(table: *mut u8, table_len: usize) -> u32;
    fn plotvuga_insert(
        table: *mut u8,
        table_len: usize,
        card: u32,
        kind: u8,
        arity: u8,
        signature: *const u8,
        signature_len: usize,
        count: *mut u32,
    ) -> u32;
    fn plotvuga_delete(table: *mut u8, table_len: usize, card: u32, arity: u8, count: *mut u32) -> u32;
    fn plotvuga_search(
        table: *const u8,
        table_len: usize,
        kind: u8,
        signature: *const u8,
        signature_len: usize,
        radius: u32,
        list: *mut u32,
        list_len: usize,
        count: *mut u32,
        found: *mut u32,
    ) -> u32;
    fn plotvuga_nearest(
        table: *const u8,
        table_len: usize,
        kind: u8,
        signature: *const u8,
        signature_len: usize,
        k: u32,
        list: *mut Pair,
        list_len: usize,
        count: *mut u32,
        found: *mut u32,
    ) -> u32;
    fn plotvuga_check(table: *const u8, table_len: usize) -> u32;
    fn plotvuga_cards(table: *const u8, table_len: usize, list: *mut u32, list_len: usize, found: *mut u32) -> u32;
    fn plotvuga_card(table: *const u8, table_len: usize, card: u32, row: *mut u8, row_len: usize, kind: *mut u8)
        -> u32;
}

// SAFETY, for every call below: each pointer and its length come from one slice or reference, which is borrowed until
// the call returns, is never null, and, where the function writes, is borrowed alone. The function reads and writes
// those places only and keeps no pointer.

/// `plotvuga_clear`: the table is emptied.
pub fn clear(table: &mut [u8]) -> u32 {
    unsafe { plotvuga_clear(table.as_mut_ptr(), table.len()) }
}

/// `plotvuga_insert`: a card is stored; sets the distance count.
pub fn insert(table: &mut [u8], card: u32, kind: u8, arity: u8, signature: &[u8], count: &mut u32) -> u32 {
    let (to, of) = (table.as_mut_ptr(), signature.as_ptr());
    unsafe { plotvuga_insert(to, table.len(), card, kind, arity, of, signature.len(), count) }
}

/// `plotvuga_delete`: a card is removed; sets the distance count.
pub fn delete(table: &mut [u8], card: u32, arity: u8, count: &mut u32) -> u32 {
    unsafe { plotvuga_delete(table.as_mut_ptr(), table.len(), card, arity, count) }
}

/// `plotvuga_search`: the near cards go to the front of the list; sets the distance count and how many they are.
pub fn search(
    table: &[u8],
    kind: u8,
    signature: &[u8],
    radius: u32,
    list: &mut [u32],
    count: &mut u32,
    found: &mut u32,
) -> u32 {
    let (from, of, to) = (table.as_ptr(), signature.as_ptr(), list.as_mut_ptr());
    unsafe { plotvuga_search(from, table.len(), kind, of, signature.len(), radius, to, list.len(), count, found) }
}

/// `plotvuga_nearest`: the k nearest cards go to the front of the list; sets the distance count and how many they are.
pub fn nearest(
    table: &[u8],
    kind: u8,
    signature: &[u8],
    k: u32,
    list: &mut [Pair],
    count: &mut u32,
    found: &mut u32,
) -> u32 {
    let (from, of, to) = (table.as_ptr(), signature.as_ptr(), list.as_mut_ptr());
    unsafe { plotvuga_nearest(from, table.len(), kind, of, signature.len(), k, to, list.len(), count, found) }
}

/// `plotvuga_check`: whether the table is sound.
pub fn check(table: &[u8]) -> u32 {
    unsafe { plotvuga_check(table.as_ptr(), table.len()) }
}

/// `plotvuga_cards`: the stored cards go to the front of the list; sets how many they are.
pub fn cards(table: &[u8], list: &mut [u32], found: &mut u32) -> u32 {
    let (from, to) = (table.as_ptr(), list.as_mut_ptr());
    unsafe { plotvuga_cards(from, table.len(), to, list.len(), found) }
}

/// `plotvuga_card`: what a card was stored with goes to the front of the row; sets its kind.
pub fn card(table: &[u8], card: u32, row: &mut [u8], kind: &mut u8) -> u32 {
    let (from, to) = (table.as_ptr(), row.as_mut_ptr());
    unsafe { plotvuga_card(from, table.len(), card, to, row.len(), kind) }
}
