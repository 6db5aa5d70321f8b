//! The two calls that tell what is stored, with the slips that are made there. All kinds of a well-formed table are
//! equal, so telling the root's kind for every card is no slip.

use crate::Slip;
use model::calls::Model;
use model::distance::{READINGS, SIGNATURE};
use model::index::{Answer, Index};
use model::judge::size_is_right;
use model::record::{parse_table, Record};
use model::refusal::{ABSENT, ARGUMENT, DONE, SHORT, TABLE};

/// The used records of any table, well formed or not.
fn used(table: &[u8]) -> Vec<Record> {
    parse_table(table).into_iter().filter(Record::used).collect()
}

/// Writes as many as there is room for.
fn fill<T: Copy>(room: &mut [T], entries: &[T]) {
    let many = room.len().min(entries.len());
    room[..many].copy_from_slice(&entries[..many]);
}

pub fn cards(slip: Slip, table: &[u8], list: &mut [u32]) -> Answer {
    let before = list.to_vec();
    let answer = Model.cards(table, list);
    let found = answer.found as usize;
    match (slip, answer.refusal) {
        (Slip::CardsInTreeOrder, DONE) => fill(list, &Model::cards_from_the_root(table)),
        (Slip::CardsWithFree, DONE) => {
            let all: Vec<u32> = parse_table(table).iter().map(|record| record.card).collect();
            fill(list, &all);
        }
        (Slip::CardLeftOut, DONE) if found > 1 => {
            list[found - 1] = before[found - 1];
            return Answer { found: answer.found - 1, ..answer };
        }
        (Slip::LaterCardsZeroed, DONE) => list[found..].fill(0),
        (Slip::CardsNeedAll, DONE) if list.len() < parse_table(table).len() => {
            list.copy_from_slice(&before);
            return Answer::refused(SHORT);
        }
        (Slip::FoundWhenShort, SHORT) => return Answer { found: used(table).len() as u32, ..answer },
        (Slip::CardsWhenShort, SHORT) => fill(list, &Model::cards_from_the_root(table)),
        (Slip::CardsNotJudged, TABLE) => {
            let all: Vec<u32> = used(table).iter().map(|record| record.card).collect();
            fill(list, &all);
            return Answer { found: all.len() as u32, ..Answer::refused(DONE) };
        }
        _ => {}
    }
    answer
}

pub fn card(slip: Slip, table: &[u8], card: u32, row: &mut [u8]) -> Answer {
    let answer = Model.card(table, card, row);
    let stored = if size_is_right(table.len()) { used(table) } else { Vec::new() };
    match (slip, answer.refusal) {
        (Slip::KindAlwaysReadings, DONE) => return Answer { kind: READINGS, ..answer },
        (Slip::SignatureOfFirst, DONE) => fill(row, &stored[0].signature),
        (Slip::RowPastSignature, DONE) => row[SIGNATURE..].fill(0),
        (Slip::ShortBeforeAbsent, ABSENT) if row.len() < SIGNATURE => return Answer::refused(SHORT),
        (Slip::CardZeroAbsent, ARGUMENT) => return Answer::refused(ABSENT),
        (Slip::CardZeroFree, ARGUMENT) if row.len() >= SIGNATURE && stored.len() < parse_table(table).len() => {
            row[..SIGNATURE].fill(0);
            return Answer::refused(DONE);
        }
        (Slip::KindWhenRefused, ABSENT | SHORT) if !stored.is_empty() => {
            return Answer { kind: stored[0].kind, ..answer };
        }
        (Slip::RowWhenShort, SHORT) => {
            let asked = stored.iter().find(|record| record.card == card).unwrap();
            fill(row, &asked.signature);
        }
        (Slip::CardNotJudged, TABLE) => {
            if let Some(asked) = stored.iter().find(|record| record.card == card && row.len() >= SIGNATURE) {
                fill(row, &asked.signature);
                return Answer { kind: asked.kind, ..Answer::refused(DONE) };
            }
        }
        _ => {}
    }
    answer
}
