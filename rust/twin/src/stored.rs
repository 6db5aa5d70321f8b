//! What is stored: all cards in slot order, and what one was stored with.

use crate::calls::admit;
use crate::record::{card as card_of, kind, records, signature};
use model::index::Answer;
use model::refusal::{ABSENT, ARGUMENT, DONE, SHORT};

pub fn cards(table: &[u8], list: &mut [u32]) -> Answer {
    try_cards(table, list).unwrap_or_else(Answer::refused)
}

fn try_cards(table: &[u8], list: &mut [u32]) -> Result<Answer, u32> {
    let used = admit(table)?.used;
    let list = list.get_mut(..used).ok_or(SHORT)?;
    let stored = records(table).iter().map(card_of).filter(|card| *card != 0);
    list.iter_mut().zip(stored).for_each(|(entry, card)| *entry = card);
    Ok(Answer { found: used as u32, ..Answer::refused(DONE) })
}

pub fn card(table: &[u8], card: u32, row: &mut [u8]) -> Answer {
    try_card(table, card, row).unwrap_or_else(Answer::refused)
}

fn try_card(table: &[u8], card: u32, row: &mut [u8]) -> Result<Answer, u32> {
    admit(table)?;
    // A free record's card is 0.
    if card == 0 {
        return Err(ARGUMENT);
    }
    let record = records(table).iter().find(|record| card_of(record) == card).ok_or(ABSENT)?;
    *row.first_chunk_mut().ok_or(SHORT)? = *signature(record);
    Ok(Answer { kind: kind(record), ..Answer::refused(DONE) })
}
