//! Clear, insert, delete and search: refusals in their order, then the work where the records stand.

use crate::judge::{judge, size_is_right, Survey};
use crate::place::{place, place_root};
use crate::record::{
    card, child, count, parent, records, records_mut, set_child, timestamp, Record, Signature, CHILD_SLOTS,
    MOST_RECORDS, NO_SLOT, RECORD,
};
use crate::walk::Walk;
use model::index::{Answer, Search};
use model::refusal::{ABSENT, ARGUMENT, CLOCK, DONE, FULL, KIND, SHORT, SIZE, TABLE, TWICE};

/// The survey of a table that every call but clear begins with, or its refusal.
pub(crate) fn admit(table: &[u8]) -> Result<Survey, u32> {
    if !size_is_right(table.len()) {
        return Err(SIZE);
    }
    judge(table).ok_or(TABLE)
}

pub fn clear(table: &mut [u8]) -> Answer {
    if !size_is_right(table.len()) {
        return Answer::refused(SIZE);
    }
    table.fill(0);
    Answer::refused(DONE)
}

pub fn insert(table: &mut [u8], new: u32, kind: u8, signature: &[u8], arity: u8) -> Answer {
    try_insert(table, new, kind, signature, arity).unwrap_or_else(Answer::refused)
}

fn try_insert(table: &mut [u8], new: u32, kind: u8, signature: &[u8], arity: u8) -> Result<Answer, u32> {
    let survey = admit(table)?;
    let signature: &Signature = signature.try_into().map_err(|_| ARGUMENT)?;
    if new == 0 || !(1..=8).contains(&arity) || !(1..=2).contains(&kind) {
        return Err(ARGUMENT);
    }
    if survey.used > 0 && survey.kind != kind {
        return Err(KIND);
    }
    let table = records_mut(table);
    let mut free = None;
    for (slot, record) in table.iter().enumerate() {
        let stored = card(record);
        if stored == new {
            return Err(TWICE);
        }
        if stored == 0 && free.is_none() {
            free = Some(slot);
        }
    }
    let slot = free.ok_or(FULL)?;
    let fresh = survey.youngest.checked_add(1).ok_or(CLOCK)?;
    let record = &mut table[slot];
    record[..4].copy_from_slice(&new.to_le_bytes());
    record[15] = kind;
    record[RECORD - signature.len()..].copy_from_slice(signature);
    let count = if survey.used == 0 {
        place_root(table, slot, fresh);
        0
    } else {
        place(table, survey.root, slot, kind, usize::from(arity), fresh)
    };
    Ok(Answer { count, ..Answer::refused(DONE) })
}

pub fn delete(table: &mut [u8], old: u32, arity: u8) -> Answer {
    try_delete(table, old, arity).unwrap_or_else(Answer::refused)
}

fn try_delete(table: &mut [u8], old: u32, arity: u8) -> Result<Answer, u32> {
    let survey = admit(table)?;
    if old == 0 || !(1..=8).contains(&arity) {
        return Err(ARGUMENT);
    }
    let table = records_mut(table);
    let target = table.iter().position(|record| card(record) == old).ok_or(ABSENT)?;
    let mut below = [(0, 0); MOST_RECORDS];
    let mut leaves = [false; MOST_RECORDS];
    let below = gather(table, target, &mut below, &mut leaves);
    let staying = table.iter().zip(&leaves).filter(|(_, leaves)| !**leaves).map(|(record, _)| timestamp(record));
    let youngest = staying.max().unwrap_or(0);
    youngest.checked_add(below.len() as u32).ok_or(CLOCK)?;

    let host = parent(&table[target]);
    if host != NO_SLOT {
        unlink(&mut table[usize::from(host)], target as u16);
    }
    table[target] = [0; RECORD];
    below.sort_unstable();
    let mut root = if host == NO_SLOT { None } else { Some(survey.root) };
    let mut count = 0;
    for (fresh, (_, slot)) in (youngest + 1..).zip(below.iter()) {
        let slot = usize::from(*slot);
        match root {
            None => {
                place_root(table, slot, fresh);
                root = Some(slot);
            }
            Some(root) => count += place(table, root, slot, survey.kind, usize::from(arity), fresh),
        }
    }
    Ok(Answer { count, ..Answer::refused(DONE) })
}

/// All below the card, each with its age, in a list that is walked while it grows. By slot, the card and all below it
/// are set to leave.
#[inline]
fn gather<'a>(
    table: &[Record],
    target: usize,
    below: &'a mut [(u32, u16); MOST_RECORDS],
    leaves: &mut [bool; MOST_RECORDS],
) -> &'a mut [(u32, u16)] {
    leaves[target] = true;
    let (mut next, mut many) = (0, 0);
    let mut a = target;
    loop {
        for place in 0..count(&table[a]) {
            let c = child(&table[a], place);
            leaves[usize::from(c)] = true;
            below[many] = (timestamp(&table[usize::from(c)]), c);
            many += 1;
        }
        if next == many {
            return &mut below[..many];
        }
        a = usize::from(below[next].1);
        next += 1;
    }
}

/// Takes the child out; later ones move up one place.
fn unlink(record: &mut Record, gone: u16) {
    let children = count(record);
    let mut kept = 0;
    for place in 0..children {
        let c = child(record, place);
        if c != gone {
            set_child(record, kept, c);
            kept += 1;
        }
    }
    (kept..CHILD_SLOTS).for_each(|place| set_child(record, place, NO_SLOT));
    record[14] = kept as u8;
}

pub fn search(table: &[u8], lent: Search) -> Answer {
    try_search(table, lent).unwrap_or_else(Answer::refused)
}

fn try_search(table: &[u8], lent: Search) -> Result<Answer, u32> {
    let Search { kind, signature, radius, list } = lent;
    let survey = admit(table)?;
    let query: &Signature = signature.try_into().map_err(|_| ARGUMENT)?;
    if !(1..=2).contains(&kind) {
        return Err(ARGUMENT);
    }
    if survey.used > 0 && survey.kind != kind {
        return Err(KIND);
    }
    if list.len() < survey.used {
        return Err(SHORT);
    }
    if survey.used == 0 {
        return Ok(Answer::refused(DONE));
    }
    let r = u64::from(radius);
    let mut walk = Walk { table: records(table), kind, query, r, list, found: 0, compared: 1 };
    let here = walk.far(survey.root);
    walk.visit(survey.root, here, u64::MAX);
    Ok(Answer { count: walk.compared, found: walk.found as u32, ..Answer::refused(DONE) })
}
