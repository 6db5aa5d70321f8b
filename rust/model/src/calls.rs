//! The calls: refusals in the paper's order, then the work on a tree of the table, then the table's bytes again. The
//! two that tell what is stored go beyond the paper and only read its records.

use crate::distance::{Signature, FAULT_BITS, READINGS, SIGNATURE};
use crate::index::{Answer, Index, Nearest, Search};
use crate::judge::{judge, size_is_right, Verdict};
use crate::record::{parse_table, Record};
use crate::refusal::{ABSENT, ARGUMENT, CLOCK, DONE, FULL, KIND, LOOSE, SHORT, SIZE, TABLE, TWICE};
use crate::soundness::sound;
use crate::tree::Tree;

/// The model as an index; it keeps nothing between calls.
#[derive(Clone, Copy, Debug, Default)]
pub struct Model;

impl Model {
    /// The cards of a well-formed table, a parent before its children.
    pub fn cards_from_the_root(table: &[u8]) -> Vec<u32> {
        Tree::of(table).nodes().iter().map(|node| node.card).collect()
    }
}

/// The tree of the table, or the refusal that every call but clear begins with.
fn admit(table: &[u8]) -> Result<Tree, u32> {
    match judge(table) {
        Verdict::Size => Err(SIZE),
        Verdict::Table(..) => Err(TABLE),
        Verdict::WellFormed => Ok(Tree::of(table)),
    }
}

/// Refuses unless the condition holds.
fn demand(holds: bool, refusal: u32) -> Result<(), u32> {
    if holds {
        Ok(())
    } else {
        Err(refusal)
    }
}

fn arity_is_right(arity: u8) -> bool {
    (1..=8).contains(&arity)
}

fn kind_is_right(kind: u8) -> bool {
    [READINGS, FAULT_BITS].contains(&kind)
}

fn k_is_right(k: u32) -> bool {
    (1..=64).contains(&k)
}

fn whole(signature: &[u8]) -> Option<Signature> {
    signature.try_into().ok()
}

fn insert(table: &mut [u8], card: u32, kind: u8, signature: &[u8], arity: u8) -> Result<Answer, u32> {
    let mut tree = admit(table)?;
    demand(card != 0 && arity_is_right(arity) && kind_is_right(kind), ARGUMENT)?;
    let signature = whole(signature).ok_or(ARGUMENT)?;
    demand(tree.root.is_none() || tree.kind == kind, KIND)?;
    demand(!tree.holds(card), TWICE)?;
    let slot = tree.lowest_free().ok_or(FULL)?;
    demand(tree.largest_timestamp() < u32::MAX, CLOCK)?;
    tree.kind = kind;
    let count = tree.insert(slot, card, signature, usize::from(arity));
    table.copy_from_slice(&tree.bytes());
    Ok(Answer { count, ..Answer::refused(DONE) })
}

fn delete(table: &mut [u8], card: u32, arity: u8) -> Result<Answer, u32> {
    let mut tree = admit(table)?;
    demand(card != 0 && arity_is_right(arity), ARGUMENT)?;
    demand(tree.holds(card), ABSENT)?;
    let mut staying = tree.clone();
    let m = staying.cut(card).len();
    demand(u64::from(staying.largest_timestamp()) + m as u64 <= u64::from(u32::MAX), CLOCK)?;
    let count = tree.delete(card, usize::from(arity));
    table.copy_from_slice(&tree.bytes());
    Ok(Answer { count, ..Answer::refused(DONE) })
}

fn search(table: &[u8], lent: Search) -> Result<Answer, u32> {
    let tree = admit(table)?;
    demand(kind_is_right(lent.kind), ARGUMENT)?;
    let query = whole(lent.signature).ok_or(ARGUMENT)?;
    demand(tree.root.is_none() || tree.kind == lent.kind, KIND)?;
    demand(lent.list.len() >= tree.nodes().len(), SHORT)?;
    let walk = tree.search(&query, lent.radius);
    lent.list[..walk.listed.len()].copy_from_slice(&walk.listed);
    Ok(Answer { count: tree.compared(&walk), found: walk.listed.len() as u32, ..Answer::refused(DONE) })
}

fn nearest(table: &[u8], lent: Nearest) -> Result<Answer, u32> {
    let tree = admit(table)?;
    demand(kind_is_right(lent.kind) && k_is_right(lent.k), ARGUMENT)?;
    let query = whole(lent.signature).ok_or(ARGUMENT)?;
    demand(tree.root.is_none() || tree.kind == lent.kind, KIND)?;
    let k = lent.k as usize;
    demand(lent.list.len() >= k, SHORT)?;
    let few = tree.nearest(&query, k);
    lent.list[..few.held.len()].copy_from_slice(&few.held);
    Ok(Answer { count: few.count, found: few.held.len() as u32, ..Answer::refused(DONE) })
}

fn check(table: &[u8]) -> Result<Answer, u32> {
    let tree = admit(table)?;
    demand(sound(&tree), LOOSE)?;
    Ok(Answer::refused(DONE))
}

fn cards(table: &[u8], list: &mut [u32]) -> Result<Answer, u32> {
    admit(table)?;
    let stored: Vec<u32> = parse_table(table).iter().filter(|record| record.used()).map(|record| record.card).collect();
    demand(list.len() >= stored.len(), SHORT)?;
    list[..stored.len()].copy_from_slice(&stored);
    Ok(Answer { found: stored.len() as u32, ..Answer::refused(DONE) })
}

fn card(table: &[u8], card: u32, row: &mut [u8]) -> Result<Answer, u32> {
    admit(table)?;
    demand(card != 0, ARGUMENT)?;
    let named = |record: &Record| record.card == card;
    let record = parse_table(table).into_iter().find(named).ok_or(ABSENT)?;
    demand(row.len() >= SIGNATURE, SHORT)?;
    row[..SIGNATURE].copy_from_slice(&record.signature);
    Ok(Answer { kind: record.kind, ..Answer::refused(DONE) })
}

impl Index for Model {
    fn clear(&mut self, table: &mut [u8]) -> Answer {
        if !size_is_right(table.len()) {
            return Answer::refused(SIZE);
        }
        table.fill(0);
        Answer::refused(DONE)
    }

    fn insert(&mut self, table: &mut [u8], card: u32, kind: u8, signature: &[u8], arity: u8) -> Answer {
        insert(table, card, kind, signature, arity).unwrap_or_else(Answer::refused)
    }

    fn delete(&mut self, table: &mut [u8], card: u32, arity: u8) -> Answer {
        delete(table, card, arity).unwrap_or_else(Answer::refused)
    }

    fn search(&mut self, table: &[u8], lent: Search) -> Answer {
        search(table, lent).unwrap_or_else(Answer::refused)
    }

    fn nearest(&mut self, table: &[u8], lent: Nearest) -> Answer {
        nearest(table, lent).unwrap_or_else(Answer::refused)
    }

    fn check(&mut self, table: &[u8]) -> Answer {
        check(table).unwrap_or_else(Answer::refused)
    }

    fn cards(&mut self, table: &[u8], list: &mut [u32]) -> Answer {
        cards(table, list).unwrap_or_else(Answer::refused)
    }

    fn card(&mut self, table: &[u8], named: u32, row: &mut [u8]) -> Answer {
        card(table, named, row).unwrap_or_else(Answer::refused)
    }
}
