//! The twin behind the library's C functions, as include/plotvuga.h has them. No part of the product.

use std::slice::{from_raw_parts, from_raw_parts_mut};
use twin::{Answer, Nearest, Pair, Search};

/// Counts and kind as the header has them: set by every call, to 0 in a refusal.
///
/// # Safety
/// `to` can be written.
unsafe fn told<T>(answer: Answer, to: *mut T, number: T) -> u32 {
    let refused = answer.refusal != 0;
    if !(cfg!(feature = "count_when_refused") && refused) {
        unsafe { to.write(number) };
    }
    answer.refusal
}

/// One entry past a list that was filled, for the slip that writes there.
///
/// # Safety
/// Under that slip, the entry after the list can be written.
unsafe fn past<T: Default>(answer: Answer, list: *mut T, list_len: usize) {
    if cfg!(feature = "writes_past_list") && answer.refusal == 0 {
        unsafe { list.add(list_len).write(T::default()) };
    }
}

/// # Safety
/// As include/plotvuga.h has it.
#[no_mangle]
pub unsafe extern "C" fn plotvuga_clear(table: *mut u8, table_len: usize) -> u32 {
    twin::clear(unsafe { from_raw_parts_mut(table, table_len) }).refusal
}

/// # Safety
/// As include/plotvuga.h has it.
#[no_mangle]
pub unsafe extern "C" fn plotvuga_insert(
    table: *mut u8,
    table_len: usize,
    card: u32,
    kind: u8,
    arity: u8,
    signature: *const u8,
    signature_len: usize,
    count: *mut u32,
) -> u32 {
    let (table, signature) =
        unsafe { (from_raw_parts_mut(table, table_len), from_raw_parts(signature, signature_len)) };
    let arity = if cfg!(feature = "arity_ignored") && (1..=8).contains(&arity) { 8 } else { arity };
    let answer = twin::insert(table, card, kind, signature, arity);
    unsafe { told(answer, count, answer.count) }
}

/// # Safety
/// As include/plotvuga.h has it.
#[no_mangle]
pub unsafe extern "C" fn plotvuga_delete(
    table: *mut u8,
    table_len: usize,
    card: u32,
    arity: u8,
    count: *mut u32,
) -> u32 {
    let answer = twin::delete(unsafe { from_raw_parts_mut(table, table_len) }, card, arity);
    unsafe { told(answer, count, answer.count) }
}

/// # Safety
/// As include/plotvuga.h has it.
#[no_mangle]
pub unsafe extern "C" fn plotvuga_search(
    table: *const u8,
    table_len: usize,
    kind: u8,
    signature: *const u8,
    signature_len: usize,
    radius: u32,
    list: *mut u32,
    list_len: usize,
    count: *mut u32,
    found: *mut u32,
) -> u32 {
    let (table, signature) = unsafe { (from_raw_parts(table, table_len), from_raw_parts(signature, signature_len)) };
    let lent = Search { kind, signature, radius, list: unsafe { from_raw_parts_mut(list, list_len) } };
    let answer = twin::search(table, lent);
    unsafe { past(answer, list, list_len) };
    unsafe { found.write(answer.found) };
    unsafe { told(answer, count, answer.count) }
}

/// # Safety
/// As include/plotvuga.h has it.
#[no_mangle]
pub unsafe extern "C" fn plotvuga_nearest(
    table: *const u8,
    table_len: usize,
    kind: u8,
    signature: *const u8,
    signature_len: usize,
    k: u32,
    list: *mut Pair,
    list_len: usize,
    count: *mut u32,
    found: *mut u32,
) -> u32 {
    let (table, signature) = unsafe { (from_raw_parts(table, table_len), from_raw_parts(signature, signature_len)) };
    let pairs = unsafe { from_raw_parts_mut(list, list_len) };
    let answer = twin::nearest(table, Nearest { kind, signature, k, list: &mut *pairs });
    let (listed, later) = pairs.split_at_mut(answer.found as usize);
    if cfg!(feature = "pairs_swapped") {
        listed.iter_mut().for_each(|pair| *pair = Pair { card: pair.distance, distance: pair.card });
    }
    if cfg!(feature = "pair_after_found") && answer.refusal == 0 {
        later.iter_mut().take(1).for_each(|pair| *pair = Pair::default());
    }
    unsafe { past(answer, list, list_len) };
    unsafe { found.write(answer.found) };
    unsafe { told(answer, count, answer.count) }
}

/// # Safety
/// As include/plotvuga.h has it.
#[no_mangle]
pub unsafe extern "C" fn plotvuga_check(table: *const u8, table_len: usize) -> u32 {
    twin::check(unsafe { from_raw_parts(table, table_len) }).refusal
}

/// # Safety
/// As include/plotvuga.h has it.
#[no_mangle]
pub unsafe extern "C" fn plotvuga_cards(
    table: *const u8,
    table_len: usize,
    list: *mut u32,
    list_len: usize,
    found: *mut u32,
) -> u32 {
    let answer = unsafe { twin::cards(from_raw_parts(table, table_len), from_raw_parts_mut(list, list_len)) };
    unsafe { past(answer, list, list_len) };
    unsafe { told(answer, found, answer.found) }
}

/// # Safety
/// As include/plotvuga.h has it.
#[no_mangle]
pub unsafe extern "C" fn plotvuga_card(
    table: *const u8,
    table_len: usize,
    card: u32,
    row: *mut u8,
    row_len: usize,
    kind: *mut u8,
) -> u32 {
    let answer = unsafe { twin::card(from_raw_parts(table, table_len), card, from_raw_parts_mut(row, row_len)) };
    unsafe { told(answer, kind, answer.kind) }
}
