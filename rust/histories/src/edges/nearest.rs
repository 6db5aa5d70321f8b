//! Edges of the nearest few: what k, list and table may be, ties, the counts worked out by hand, and the errors that
//! look right. Cards are told with their distances.

use super::{after_line_6, Edge, Step};
use crate::starts::{chain, inserted, reading};
use model::calls::Model;
use model::history::{Command, Lent};
use model::index::{Answer, Index, Pair};
use model::record::{MOST_RECORDS, RECORD};
use model::refusal::{ARGUMENT, DONE, KIND, LOOSE, SHORT, SIZE, TABLE};

impl Edge {
    /// The k nearest to a reading, into a list of just so many entries.
    fn nearest(self, value: u16, k: u32, count: u32, pairs: &[(u32, u32)]) -> Edge {
        self.nearest_of(asked(1, &reading(value), k, k as usize), count, pairs)
    }

    fn nearest_of(mut self, command: Command, count: u32, pairs: &[(u32, u32)]) -> Edge {
        let answer = Answer { count, found: pairs.len() as u32, ..Answer::refused(DONE) };
        let pairs = pairs.iter().map(|(card, distance)| Pair { card: *card, distance: *distance }).collect();
        self.steps.push(Step { command, answer, written: Lent { pairs, ..Lent::default() } });
        self
    }

    fn nearest_refused(self, kind: u8, query: &[u8], k: u32, places: usize, refusal: u32) -> Edge {
        self.step(asked(kind, query, k, places), refusal, 0, &[])
    }
}

/// A call for the nearest k with a list of so many places.
fn asked(kind: u8, query: &[u8], k: u32, places: usize) -> Command {
    Command::Nearest { kind, signature: query.to_vec(), k, places }
}

pub fn all() -> Vec<Edge> {
    let mut edges = numbers();
    edges.extend(orders());
    edges.extend(refusals());
    edges.extend(loose());
    edges.extend(errors_that_look_right());
    edges
}

/// All of the listing's cards by their distance to 48.
const FROM_48: [(u32, u32); 6] = [(11, 2), (14, 4), (15, 8), (13, 28), (16, 30), (12, 32)];

// ---- k and the list ----

fn numbers() -> Vec<Edge> {
    let wrong = Edge::new("k 0, 65 and 4,294,967,295 give 3, in a free table too", after_line_6());
    let free = Edge::new("a free table: none listed, none compared, but 3 and 9 as ever", vec![0; 8 * RECORD]);
    let more = Edge::new("k above the stored cards lists all of them, and later entries stay", after_line_6());
    let more = more.nearest(48, 6, 6, &FROM_48).nearest(48, 7, 6, &FROM_48).nearest(48, 64, 6, &FROM_48);
    let short = Edge::new("a list of one entry less than k gives 9, however few are stored", after_line_6());
    let short = short.nearest_refused(1, &reading(48), 1, 0, SHORT).nearest_refused(1, &reading(48), 6, 5, SHORT);
    let short = short.nearest_refused(1, &reading(48), 7, 6, SHORT).nearest_refused(1, &reading(48), 64, 63, SHORT);
    let only = Edge::new("one card of the largest number and the largest distance", vec![0; RECORD]);
    let only = only.insert_of(u32::MAX, 1, &[0; 32], 8, DONE, 0);
    let only = only.nearest_of(asked(1, &[255; 32], 64, 64), 1, &[(u32::MAX, 1_048_560)]);
    vec![
        wrong_numbers(wrong).nearest(48, 1, 3, &FROM_48[..1]),
        wrong_numbers(free_table(free)).nearest_refused(2, &[7; 32], 64, 63, SHORT),
        more.nearest_of(asked(1, &reading(48), 3, 300), 6, &FROM_48[..3]),
        short.nearest(48, 1, 3, &FROM_48[..1]),
        only.nearest_of(asked(1, &[0; 32], 1, 1), 1, &[(u32::MAX, 0)]),
    ]
}

fn wrong_numbers(edge: Edge) -> Edge {
    let numbers = [0, 65, 1 << 16, 1 << 31, u32::MAX];
    numbers.iter().fold(edge, |edge, k| edge.nearest_refused(1, &reading(48), *k, 70, ARGUMENT))
}

fn free_table(edge: Edge) -> Edge {
    let edge = edge.nearest(48, 1, 0, &[]).nearest(48, 64, 0, &[]);
    edge.nearest_of(asked(2, &[7; 32], 64, 64), 0, &[]).nearest_of(asked(1, &[7; 32], 1, 100), 0, &[])
}

// ---- the order of the list, and the count ----

fn orders() -> Vec<Edge> {
    // Root 11 reaches 30 and has 12 and 13, whose bounds are 32 less 28 and 28 less 20. 12 has 14 and 16, 13 has 15.
    let counts = Edge::new("nearest to 48 in the listing's table, by each k", after_line_6());
    let counts = counts.nearest(48, 1, 3, &FROM_48[..1]).nearest(48, 2, 5, &FROM_48[..2]);
    let counts = counts.nearest(48, 3, 6, &FROM_48[..3]).nearest(48, 5, 6, &FROM_48[..5]);
    let equal: [(u32, u16); 6] = [(40, 7), (10, 7), (u32::MAX, 7), (30, 7), (20, 7), (5, 8)];
    let ties = Edge::new("equal distances go by smaller card, not by age or slot", inserted(6, &equal, 2));
    let listed = [(10, 0), (20, 0), (30, 0), (40, 0), (u32::MAX, 0), (5, 1)];
    let ties = ties.nearest(7, 6, 6, &listed).nearest(7, 2, 6, &listed[..2]);
    let sides = inserted(5, &[(9, 50), (2, 40), (1, 60), (8, 50)], 8);
    let sides = Edge::new("equal distances on either side", sides);
    // 1,013 is the first whose bound, 13 less 11, is past the third distance.
    let deep = Edge::new("a chain of 1,024, nearest to its 1,000th", chain(MOST_RECORDS));
    let deep = deep.nearest(1000, 3, 1013, &[(1000, 0), (999, 1), (1001, 1)]);
    let all: Vec<(u32, u32)> = (1..=64).map(|card| (card, card - 1)).collect();
    // The bound of card n is its distance less its radius, 2n - 1,025: past 63 from n = 545 on.
    let last: Vec<(u32, u32)> = all.iter().map(|(card, distance)| (1025 - card, *distance)).collect();
    vec![
        counts,
        ties,
        sides.nearest(50, 4, 4, &[(8, 0), (9, 0), (1, 10), (2, 10)]).nearest(50, 3, 4, &[(8, 0), (9, 0), (1, 10)]),
        deep.nearest(1, 64, 545, &all).nearest(1024, 64, 1024, &last),
    ]
}

// ---- refusals in their order ----

fn refusals() -> Vec<Edge> {
    let mut edges = Vec::new();
    for length in [0, 1, 63, 65, 65_535, 65_537, 65_600] {
        let edge = Edge::new(format!("nearest: length {length} gives 1"), vec![9; length]);
        let edge = edge.nearest_refused(0, &[], 0, 0, SIZE);
        edges.push(edge.nearest_refused(1, &reading(48), 1, 1, SIZE));
    }
    let mut bad = after_line_6();
    bad[15] = 3;
    let table = Edge::new("nearest: a malformed table gives 2, whatever is asked", bad);
    let table = table.nearest_refused(0, &[], 0, 0, TABLE).nearest_refused(1, &reading(48), 1, 1, TABLE);
    edges.push(table.nearest_refused(2, &[0; 32], 65, 64, TABLE));
    let argument = Edge::new("nearest: 3 for kind, signature or k, before 4 and 9", after_line_6());
    let argument = argument.nearest_refused(0, &reading(1), 1, 0, ARGUMENT);
    let argument = argument.nearest_refused(3, &reading(1), 1, 9, ARGUMENT);
    let argument = argument.nearest_refused(2, &[0; 31], 1, 0, ARGUMENT);
    let argument = argument.nearest_refused(1, &[0; 33], 6, 6, ARGUMENT).nearest_refused(1, &[], 6, 6, ARGUMENT);
    edges.push(argument.nearest_refused(2, &reading(1), 0, 0, ARGUMENT).nearest_refused(2, &[1; 32], 65, 9, ARGUMENT));
    let kind = Edge::new("nearest: 4 for the other kind, before 9", after_line_6());
    edges.push(kind.nearest_refused(2, &reading(48), 6, 6, KIND).nearest_refused(2, &reading(48), 64, 0, KIND));
    edges
}

// ---- tables that are not sound: the rule goes on as it stands ----

fn loose() -> Vec<Edge> {
    // Record 12's radius no longer reaches 14, so that 12's bound is its own distance, 32.
    let mut cut = after_line_6();
    cut[RECORD + 8] = 0;
    let missed = Edge::new("a loose table: a covering radius too small hides a nearer card", cut).check(LOOSE);
    // Cards 3 and 2 are 10 from the query, and so are their bounds. 3 is older, and what is below it, at 7, ends the
    // work before 2 is taken, below which one is at 3.
    let mut tie = vec![0; 5 * RECORD];
    for (card, readings) in [(1, [5, 5]), (3, [10, 0]), (2, [0, 10]), (4, [7, 0]), (5, [0, 3])] {
        assert_eq!(Model.insert(&mut tie, card, 1, &two(readings), 2).refusal, DONE);
    }
    tie[RECORD + 8] = 0;
    tie[2 * RECORD + 8] = 0;
    let tie = Edge::new("a loose table: among equal bounds the older is taken first", tie).check(LOOSE);
    vec![
        missed.nearest(48, 2, 4, &[(11, 2), (15, 8)]).nearest(48, 6, 6, &FROM_48),
        tie.nearest(0, 1, 4, &[(4, 7)]).nearest(0, 3, 5, &[(5, 3), (4, 7), (1, 10)]),
    ]
}

/// Kind 1 with readings 0 and 1 as given and the others 0.
fn two(readings: [u8; 2]) -> [u8; 32] {
    let mut signature = [0; 32];
    (signature[0], signature[2]) = (readings[0], readings[1]);
    signature
}

// ---- errors that look right ----

/// A table after inserts of a card, its reading 0 and an arity of its own.
fn grown(cards: &[(u32, u16, u8)]) -> Vec<u8> {
    let mut table = vec![0; 8 * RECORD];
    for (card, value, arity) in cards {
        assert_eq!(Model.insert(&mut table, *card, 1, &reading(*value), *arity).refusal, DONE);
    }
    table
}

fn errors_that_look_right() -> Vec<Edge> {
    let reached = Edge::new("error: ending when the bound reaches the k-th distance", grown(&[(6, 3, 1), (1, 3, 1)]));
    let younger = grown(&[(4, 1, 1), (3, 0, 1), (2, 3, 1), (7, 3, 2)]);
    let younger = Edge::new("error: younger siblings in the bound's smallest distance", younger);
    let whole = grown(&[(3, 1, 1), (6, 0, 1), (8, 10, 2), (2, 6, 1)]);
    let whole = Edge::new("error: the difference to the older sibling not halved", whole);
    // Card 3 is 4 away and its older sibling 1: half of 3 is 2, past the nearest, at 1; rounded down it is not.
    let down = grown(&[(1, 8, 2), (2, 11, 2), (3, 6, 2), (4, 3, 2)]);
    let down = Edge::new("error: half rounded down", down);
    vec![
        reached.nearest(0, 1, 2, &[(1, 3)]),
        younger.nearest(3, 1, 4, &[(2, 0)]),
        whole.nearest(3, 2, 4, &[(3, 2), (2, 3)]),
        down.nearest(10, 1, 3, &[(2, 1)]),
    ]
}
