//! Edges of the two calls that tell what is stored, which go beyond the paper: all cards in slot order, and what one
//! card was stored with. Refusals come in the order of their numbers here as well.

use super::{after_line_6, Edge, Step};
use crate::starts::{chain, reading};
use model::history::{Command, Lent};
use model::index::Answer;
use model::record::{MOST_RECORDS, RECORD};
use model::refusal::{ABSENT, ARGUMENT, DONE, LOOSE, SHORT, SIZE, TABLE};

impl Edge {
    /// All cards into a list of so many places.
    fn cards(self, places: usize, cards: &[u32]) -> Edge {
        self.step(Command::Cards { places }, DONE, 0, cards)
    }

    fn cards_refused(self, places: usize, refusal: u32) -> Edge {
        self.step(Command::Cards { places }, refusal, 0, &[])
    }

    /// A card into a row of so many bytes, with what it was stored with.
    fn card(mut self, card: u32, row: usize, kind: u8, signature: &[u8; 32]) -> Edge {
        let answer = Answer { kind, ..Answer::refused(DONE) };
        let written = Lent { row: signature.to_vec(), ..Lent::default() };
        self.steps.push(Step { command: Command::Card { card, row }, answer, written });
        self
    }

    fn card_refused(self, card: u32, row: usize, refusal: u32) -> Edge {
        self.step(Command::Card { card, row }, refusal, 0, &[])
    }
}

pub fn all() -> Vec<Edge> {
    let mut edges = lists();
    edges.extend(rows());
    edges.extend(slots());
    edges.extend(refusals());
    edges
}

// ---- all cards ----

fn lists() -> Vec<Edge> {
    let empty = Edge::new("an empty table has no cards and needs no list", vec![0; 8 * RECORD]);
    let order = Edge::new("cards stand in slot order, not in the tree's; later entries stay", after_line_6());
    let short = Edge::new("cards: a list one too short gives 9, by the used records", after_line_6());
    let full = Edge::new("cards of a full table", after_line_6()[..6 * RECORD].to_vec());
    let all: Vec<u32> = (1..=MOST_RECORDS as u32).collect();
    let largest = Edge::new("cards of a full table of 1,024 records", chain(MOST_RECORDS));
    let largest = largest.cards(MOST_RECORDS, &all).cards_refused(MOST_RECORDS - 1, SHORT);
    vec![
        empty.cards(0, &[]).cards(3, &[]).card_refused(1, 32, ABSENT),
        order.cards(6, &[11, 12, 13, 14, 15, 16]).cards(300, &[11, 12, 13, 14, 15, 16]),
        short.cards_refused(5, SHORT).cards_refused(0, SHORT).cards(6, &[11, 12, 13, 14, 15, 16]),
        full.cards(6, &[11, 12, 13, 14, 15, 16]).cards_refused(5, SHORT),
        largest.card(MOST_RECORDS as u32, 32, 1, &reading(1024)).card(1, 32, 1, &reading(1)),
    ]
}

// ---- what a card was stored with ----

fn rows() -> Vec<Edge> {
    let row = Edge::new("card: a row of 31 bytes gives 9, 32 take the signature, later bytes stay", after_line_6());
    let row = row.card_refused(14, 31, SHORT).card_refused(14, 0, SHORT);
    let mask: [u8; 32] = std::array::from_fn(|byte| 255 - 7 * byte as u8);
    let kinds = Edge::new("card: kind and all 32 bytes as they were brought, of either kind", vec![0; 3 * RECORD]);
    let kinds = kinds.insert_of(u32::MAX, 2, &mask, 8, DONE, 0).insert_of(1 << 31, 2, &[255; 32], 8, DONE, 1);
    let kinds = kinds.card(u32::MAX, 32, 2, &mask).card(1 << 31, 33, 2, &[255; 32]).cards(2, &[u32::MAX, 1 << 31]);
    let kinds = kinds.clear(DONE).card_refused(u32::MAX, 32, ABSENT).cards(0, &[]);
    let kinds = kinds.insert_of(u32::MAX, 1, &mask, 8, DONE, 0);
    vec![row.card(14, 32, 1, &reading(52)).card(14, 40, 1, &reading(52)), kinds.card(u32::MAX, 32, 1, &mask)]
}

// ---- slots freed and used again ----

fn slots() -> Vec<Edge> {
    // 14 and 16 stood below 12. They are put back in their slots and keep what they were stored with.
    let freed = Edge::new("a freed slot is skipped, and then used again in slot order", after_line_6());
    let freed = freed.delete(12, 2, DONE, 5).cards(5, &[11, 13, 14, 15, 16]).cards_refused(4, SHORT);
    let freed = freed.card_refused(12, 32, ABSENT).card(14, 32, 1, &reading(52)).card(16, 32, 1, &reading(78));
    let freed = freed.insert(17, 81, 2, DONE, 4).cards(8, &[11, 17, 13, 14, 15, 16]);
    // 12, 13, 14, 15 and 16 are put back: 0, 1, 2, 3 and 4 distances. 17 then goes from 12 to 14 and below 15.
    let root = Edge::new("the root's slot is used again by the youngest card", after_line_6());
    let root = root.delete(11, 2, DONE, 10).cards(8, &[12, 13, 14, 15, 16]).insert(17, 50, 2, DONE, 5);
    let root = root.cards(8, &[17, 12, 13, 14, 15, 16]).card(12, 32, 1, &reading(80));
    let last = Edge::new("the only card's slot is free again", vec![0; RECORD]).insert(5, 9, 1, DONE, 0);
    let last = last.cards(1, &[5]).delete(5, 1, DONE, 0).cards(1, &[]).card_refused(5, 32, ABSENT);
    vec![freed.card(17, 32, 1, &reading(81)), root, last]
}

// ---- refusals in their order ----

fn refusals() -> Vec<Edge> {
    let mut edges = Vec::new();
    for length in [0, 1, 63, 65, 65_535, 65_537, 65_600] {
        let edge = Edge::new(format!("cards and card: length {length} gives 1"), vec![9; length]);
        let edge = edge.cards_refused(0, SIZE).cards_refused(1100, SIZE).card_refused(0, 0, SIZE);
        edges.push(edge.card_refused(1, 32, SIZE));
    }
    // Only record 11 is wrong, and another card is asked for.
    let mut bad = after_line_6();
    bad[15] = 3;
    let table = Edge::new("cards and card: a malformed table gives 2, whatever is asked", bad);
    let table = table.cards_refused(0, TABLE).cards_refused(8, TABLE).card_refused(0, 0, TABLE);
    edges.push(table.card_refused(14, 32, TABLE).card_refused(99, 31, TABLE));
    let zero = Edge::new("card 0 gives 3, though free records hold it", after_line_6());
    edges.push(zero.card_refused(0, 32, ARGUMENT).card_refused(0, 31, ARGUMENT).card_refused(0, 0, ARGUMENT));
    let absent = Edge::new("an absent card gives 6, before 9", after_line_6());
    edges.push(absent.card_refused(99, 32, ABSENT).card_refused(99, 31, ABSENT).card_refused(1, 0, ABSENT));
    let mut loose = after_line_6();
    loose[8] = 29;
    let loose = Edge::new("cards and card: a table that is not sound is told all the same", loose).check(LOOSE);
    edges.push(loose.cards(6, &[11, 12, 13, 14, 15, 16]).card(11, 32, 1, &reading(50)));
    edges
}
