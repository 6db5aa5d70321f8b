//! What a call tells of the stored cards, against what the accepted calls before it stored: for histories from a free
//! table, by calls alone.

use super::{words, Tally};
use crate::distance::{Signature, SIGNATURE};
use crate::history::{Command, Lent};
use crate::index::{Answer, Pair};
use crate::refusal::{ABSENT, DONE, LOOSE, SHORT};
use crate::scan::Stored;
use std::collections::BTreeSet;

/// Follows the stored cards and holds against them what a call tells of them.
pub fn scan(
    tally: &mut Tally,
    stored: &mut Stored,
    command: &Command,
    answer: Answer,
    lent: &Lent,
) -> Result<(), String> {
    if answer.refusal == LOOSE {
        return Err("a table that calls alone made is not sound".to_string());
    }
    match command {
        Command::Cards { .. } => tally.told += all_told(stored, answer, lent)?,
        Command::Card { card, .. } => tally.told += one_told(stored, *card, answer, lent)?,
        _ if answer.refusal != DONE => {}
        Command::Clear => stored.clear(),
        Command::Insert { card, kind, signature, .. } => {
            if stored.holds(*card) {
                return Err(format!("card {card} accepted twice"));
            }
            stored.insert(*card, *kind, *whole(signature)?);
        }
        Command::Delete { card, .. } => {
            if !stored.holds(*card) {
                return Err(format!("card {card} deleted but not stored"));
            }
            stored.delete(*card);
        }
        Command::Search { signature, radius, .. } => {
            near(stored, signature, *radius, answer, &lent.list)?;
            tally.scanned += 1;
        }
        Command::Nearest { signature, k, .. } => {
            first(stored, signature, *k, answer, &lent.pairs)?;
            tally.ranked += 1;
        }
        Command::Check | Command::Turn { .. } => {}
    }
    Ok(())
}

/// An accepted search against the plain scan.
fn near(stored: &Stored, signature: &[u8], radius: u32, answer: Answer, list: &[u32]) -> Result<(), String> {
    let within = stored.within(whole(signature)?, radius);
    let found = &list[..answer.found as usize];
    let listed: BTreeSet<u32> = found.iter().copied().collect();
    if listed.len() != found.len() || listed != within {
        return Err(format!("the list {found:?} is not what a plain scan finds, {within:?}"));
    }
    few_distances(stored, answer)
}

/// An accepted nearest call against the plain scan.
fn first(stored: &Stored, signature: &[u8], k: u32, answer: Answer, list: &[Pair]) -> Result<(), String> {
    let first = stored.first(whole(signature)?, k as usize);
    let found = &list[..answer.found as usize];
    if found != first {
        return Err(format!("the list {found:?} is not the first {k} of a plain scan, {first:?}"));
    }
    few_distances(stored, answer)
}

/// No stored card is compared twice.
fn few_distances(stored: &Stored, answer: Answer) -> Result<(), String> {
    if answer.count as usize > stored.len() {
        return Err(format!("{} distances for {} stored cards", answer.count, stored.len()));
    }
    Ok(())
}

fn whole(signature: &[u8]) -> Result<&Signature, String> {
    signature.try_into().map_err(|_| "a signature of another length accepted".to_string())
}

/// All cards told, against those that the calls stored: each in its slot's turn, refused only where the list is short.
/// Returns the number of answers held against them.
fn all_told(stored: &Stored, answer: Answer, lent: &Lent) -> Result<usize, String> {
    let short = lent.list.len() < stored.len();
    match answer.refusal {
        SHORT if short => Ok(1),
        DONE if !short && lent.list[..answer.found as usize] == stored.in_slot_order() => Ok(1),
        DONE | SHORT => {
            Err(format!("{} is not what the calls stored, {:?}", words(Some(answer)), stored.in_slot_order()))
        }
        _ => Ok(0),
    }
}

/// What a card was stored with, against what its accepted insert brought.
fn one_told(stored: &Stored, card: u32, answer: Answer, lent: &Lent) -> Result<usize, String> {
    let right = match (stored.card(card), lent.row.first_chunk::<SIGNATURE>()) {
        (None, _) => answer.refusal == ABSENT,
        (Some(_), None) => answer.refusal == SHORT,
        (Some(brought), Some(row)) => answer.refusal == DONE && brought == (answer.kind, *row),
    };
    match answer.refusal {
        DONE | ABSENT | SHORT if !right => {
            Err(format!("{} is not what card {card} was stored with", words(Some(answer))))
        }
        DONE | ABSENT | SHORT => Ok(1),
        _ => Ok(0),
    }
}
