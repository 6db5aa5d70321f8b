//! The paper's listing, its edges to try and its errors that look right, by name, each with the answers that the paper
//! gives or that were worked out by hand. Every call is held against the model as well.

mod nearest;
mod stored;

use crate::starts::{inserted, reading, with_timestamp};
use model::history::{Command, History, Lent};
use model::index::Answer;
use model::record::RECORD;
use model::refusal::{ABSENT, ARGUMENT, CLOCK, DONE, FULL, KIND, LOOSE, SHORT, SIZE, TABLE, TWICE};

/// One edge: a table, and calls with the answers that they must have.
pub struct Edge {
    pub name: String,
    start: Vec<u8>,
    steps: Vec<Step>,
}

/// A call with the answer that it must have, and what it must write from the start of its list, of its pairs and of its
/// row. What stands after that must stay.
pub struct Step {
    pub command: Command,
    pub answer: Answer,
    pub written: Lent,
}

impl Edge {
    fn new(name: impl Into<String>, start: Vec<u8>) -> Edge {
        Edge { name: name.into(), start, steps: Vec::new() }
    }

    pub fn history(&self) -> History {
        History { start: self.start.clone(), commands: self.steps.iter().map(|step| step.command.clone()).collect() }
    }

    pub fn steps(&self) -> &[Step] {
        &self.steps
    }

    // ---- calls ----

    fn step(mut self, command: Command, refusal: u32, count: u32, cards: &[u32]) -> Edge {
        let answer = Answer { refusal, count, found: cards.len() as u32, kind: 0 };
        let written = Lent { list: cards.to_vec(), ..Lent::default() };
        self.steps.push(Step { command, answer, written });
        self
    }

    fn clear(self, refusal: u32) -> Edge {
        self.step(Command::Clear, refusal, 0, &[])
    }

    fn insert(self, card: u32, value: u16, arity: u8, refusal: u32, count: u32) -> Edge {
        self.insert_of(card, 1, &reading(value), arity, refusal, count)
    }

    fn insert_of(self, card: u32, kind: u8, signature: &[u8], arity: u8, refusal: u32, count: u32) -> Edge {
        self.step(Command::Insert { card, kind, signature: signature.to_vec(), arity }, refusal, count, &[])
    }

    fn delete(self, card: u32, arity: u8, refusal: u32, count: u32) -> Edge {
        self.step(Command::Delete { card, arity }, refusal, count, &[])
    }

    fn search(self, value: u16, radius: u32, count: u32, cards: &[u32]) -> Edge {
        let places = self.start.len() / RECORD;
        self.step(sought(1, &reading(value), radius, places), DONE, count, cards)
    }

    fn check(self, refusal: u32) -> Edge {
        self.step(Command::Check, refusal, 0, &[])
    }
}

/// A search with a list of so many places.
fn sought(kind: u8, query: &[u8], radius: u32, places: usize) -> Command {
    Command::Search { kind, signature: query.to_vec(), radius, places }
}

const LISTING: [(u32, u16); 6] = [(11, 50), (12, 80), (13, 20), (14, 52), (15, 40), (16, 78)];

fn after_line_6() -> Vec<u8> {
    inserted(8, &LISTING, 2)
}

pub fn all() -> Vec<Edge> {
    let mut edges = listing();
    edges.extend(sizes());
    edges.extend(arities());
    edges.extend(clock());
    edges.extend(order_of_refusals());
    edges.extend(walks());
    edges.extend(errors_that_look_right());
    edges.extend(nearest::all());
    edges.extend(stored::all());
    edges
}

// ---- P1 to P13, and the listing's lines 10 and 11 ----

fn listing() -> Vec<Edge> {
    let mut edges = Vec::new();
    for (place, count) in [0, 1, 2, 3, 3, 4].into_iter().enumerate() {
        let (card, value) = LISTING[place];
        let name = format!("P{}: insert {card} with {value}", place + 1);
        edges.push(Edge::new(name, inserted(512, &LISTING[..place], 2)).insert(card, value, 2, DONE, count));
    }
    let whole = inserted(512, &LISTING, 2);
    edges.push(Edge::new("P7: search 48 with radius 5", whole.clone()).search(48, 5, 5, &[11, 14]));
    edges.push(Edge::new("P8: delete 12", whole.clone()).delete(12, 2, DONE, 5));
    let after = Edge::new("P9: the same search after the delete, then lines 10 and 11", whole);
    edges.push(after.delete(12, 2, DONE, 5).search(48, 5, 4, &[11, 14]).delete(99, 2, ABSENT, 0).check(DONE));
    edges.extend(distances());
    edges.push(Edge::new("P12: search 40 with radius 0", after_line_6()).search(40, 0, 4, &[15]));
    let mut loose = after_line_6();
    assert_eq!(loose[8], 30);
    loose[8] = 29;
    edges.push(Edge::new("P13: record 11's radius set from 30 to 29", loose).check(LOOSE));
    edges
}

/// P10 and P11: the largest distances.
fn distances() -> Vec<Edge> {
    let far = |name: &str, kind: u8, most: u32| {
        let edge = Edge::new(name, vec![0; 64]).insert_of(7, kind, &[0; 32], 1, DONE, 0);
        let edge = edge.step(sought(kind, &[255; 32], most - 1, 1), DONE, 1, &[]);
        edge.step(sought(kind, &[255; 32], most, 1), DONE, 1, &[7])
    };
    vec![
        far("P10: all readings 0 against all 65,535 is 1,048,560", 1, 1_048_560),
        far("P11: no bits against all bits is 256", 2, 256),
    ]
}

// ---- lengths ----

fn sizes() -> Vec<Edge> {
    let mut edges = Vec::new();
    for length in [0, 1, 63, 65, 65_535, 65_537, 65_600] {
        let edge = Edge::new(format!("length {length} gives 1"), vec![9; length]);
        let edge = edge.clear(SIZE).insert(1, 3, 1, SIZE, 0).insert_of(0, 0, &[], 0, SIZE, 0);
        let edge = edge.delete(0, 0, SIZE, 0).step(sought(0, &[], 0, 0), SIZE, 0, &[]);
        edges.push(edge.check(SIZE));
    }
    for length in [64, 65_536] {
        let edge = Edge::new(format!("length {length} does not give 1"), vec![9; length]).check(TABLE).clear(DONE);
        let edge = edge.insert(1, 3, 1, DONE, 0).search(3, 0, 1, &[1]).check(DONE);
        edges.push(edge.delete(1, 1, DONE, 0));
    }
    edges
}

// ---- arity ----

fn arities() -> Vec<Edge> {
    let mut wrong = Edge::new("arity 0 and 9 give 3", after_line_6());
    for arity in [0, 9, 255] {
        wrong = wrong.insert(17, 1, arity, ARGUMENT, 0).delete(12, arity, ARGUMENT, 0);
    }
    let mut chain = Edge::new("arity 1 makes a chain", vec![0; 16 * RECORD]);
    for card in 1..=16 {
        chain = chain.insert(card, (card * 37 % 11) as u16, 1, DONE, card - 1);
    }
    // Each card has a reading of its own, so that it is nearer to the root than to any other.
    let mut star = Edge::new("arity 8 takes eight children, and the ninth goes below the oldest", vec![0; 10 * RECORD]);
    star = star.insert_of(1, 1, &[0; 32], 8, DONE, 0);
    for card in 2..=10 {
        let mut own = [0; 32];
        own[2 * card as usize] = 1;
        star = star.insert_of(card, 1, &own, 8, DONE, card - 1);
    }
    let later = Edge::new("a record with more children than a later arity takes no more", after_line_6());
    vec![wrong, chain, star, later.insert(17, 50, 1, DONE, 5)]
}

// ---- timestamps near the last ----

fn clock() -> Vec<Edge> {
    let late = with_timestamp(&after_line_6(), 5, 4_294_967_294);
    let insert = Edge::new("largest timestamp 4,294,967,294: insert is done; one more: 8", late);
    // Card 17 becomes a child of 14: root and its two children, then 12's two, then 14's none.
    let insert = insert.insert(17, 50, 2, DONE, 5).insert(18, 50, 2, CLOCK, 0).delete(16, 2, DONE, 0);
    // Record 13 has 15 below it. What stays decides, not what is removed.
    let removed =
        Edge::new("delete's clock: the youngest is among the removed", with_timestamp(&after_line_6(), 4, u32::MAX));
    let stays = Edge::new("delete's clock: the youngest stays", with_timestamp(&after_line_6(), 5, u32::MAX));
    vec![
        insert,
        removed.delete(13, 2, DONE, 2),
        stays.delete(13, 2, CLOCK, 0).delete(15, 2, DONE, 0).delete(11, 2, DONE, 6),
    ]
}

// ---- refusals in their order ----

fn order_of_refusals() -> Vec<Edge> {
    let mut bad = after_line_6();
    bad[15] = 3;
    let table = Edge::new("TABLE before ARGUMENT", bad).insert_of(0, 0, &[], 0, TABLE, 0).delete(0, 0, TABLE, 0);
    let table = table.step(sought(0, &[], 0, 0), TABLE, 0, &[]).check(TABLE);

    let argument = Edge::new("ARGUMENT before KIND, TWICE, ABSENT and SHORT", after_line_6());
    let argument = argument.insert_of(0, 2, &reading(1), 2, ARGUMENT, 0).insert_of(11, 2, &[0; 31], 2, ARGUMENT, 0);
    let argument = argument.insert_of(11, 3, &reading(1), 2, ARGUMENT, 0).delete(0, 2, ARGUMENT, 0);
    let argument = argument.delete(99, 0, ARGUMENT, 0).step(sought(2, &[0; 33], 0, 0), ARGUMENT, 0, &[]);
    let argument = argument.step(sought(0, &reading(1), 0, 0), ARGUMENT, 0, &[]);

    let kind =
        Edge::new("KIND before TWICE, FULL, CLOCK and SHORT", with_timestamp(&after_line_6()[..6 * 64], 5, u32::MAX));
    let kind = kind.insert_of(11, 2, &reading(1), 2, KIND, 0).insert_of(17, 2, &reading(1), 2, KIND, 0);
    let kind = kind.step(sought(2, &reading(1), 0, 0), KIND, 0, &[]);

    let full = Edge::new("full table and a stored card: 5, not 7", after_line_6()[..6 * 64].to_vec());
    let full = full.insert(14, 1, 2, TWICE, 0).insert(17, 1, 2, FULL, 0);
    let worn = Edge::new("FULL before CLOCK", with_timestamp(&after_line_6()[..6 * 64], 5, u32::MAX));

    let short = Edge::new("SHORT by the used records, not by what is found", after_line_6());
    let short =
        short.step(sought(1, &reading(40), 0, 5), SHORT, 0, &[]).step(sought(1, &reading(40), 0, 0), SHORT, 0, &[]);
    let short = short.step(sought(1, &reading(40), 0, 6), DONE, 4, &[15]);

    let free = Edge::new("a free table takes either kind and needs no list", vec![0; 64]);
    let free =
        free.step(sought(2, &reading(1), u32::MAX, 0), DONE, 0, &[]).step(sought(1, &reading(1), 0, 0), DONE, 0, &[]);
    let only = Edge::new("deleting the only card leaves all zeros", vec![0; 3 * 64]);
    let only = only.insert_of(u32::MAX, 2, &[255; 32], 8, DONE, 0).delete(u32::MAX, 8, DONE, 0);
    vec![table, argument, kind, full, worn.insert(17, 1, 2, FULL, 0), short, free.check(DONE), only.check(DONE)]
}

// ---- walks ----

fn walks() -> Vec<Edge> {
    let mut wide = after_line_6();
    wide[8..12].fill(255);
    let sums = Edge::new("sums without loss", wide).search(48, u32::MAX, 6, &[11, 12, 14, 16, 13, 15]);
    let outside = Edge::new("a root that is not entered counts 1", after_line_6()).search(1000, 5, 1, &[]);
    let again = Edge::new("a freed slot is used again", after_line_6()).delete(12, 2, DONE, 5);
    let tie = Edge::new("among children equally near, the oldest is taken", vec![0; 4 * 64]);
    let tie = tie.insert(1, 50, 2, DONE, 0).insert(2, 60, 2, DONE, 1).insert(3, 40, 2, DONE, 2);
    let tie = tie.insert(4, 50, 2, DONE, 3).search(50, 0, 4, &[1, 4]);
    let strictly = Edge::new("not strictly nearer goes down", vec![0; 3 * 64]);
    let strictly = strictly.insert(1, 40, 8, DONE, 0).insert(2, 60, 8, DONE, 1).insert(3, 50, 8, DONE, 2);
    vec![sums, outside, again.insert(17, 81, 2, DONE, 4), tie, strictly]
}

// ---- errors that look right ----

fn errors_that_look_right() -> Vec<Edge> {
    let parent = Edge::new("error: the parent among the candidates for the smallest distance", after_line_6());
    let sibling = inserted(4, &[(1, 0), (2, 100), (3, 52), (4, 48)], 4);
    let younger = Edge::new("error: younger siblings in the smallest distance", sibling);
    let mut moved = inserted(8, &[(1, 50), (2, 80), (3, 64)], 1);
    model::index::Index::insert(&mut model::calls::Model, &mut moved, 4, 1, &reading(60), 2);
    let walking = Edge::new("error: finding a card to delete by walking as if to insert it", moved);
    let fresh = Edge::new("error: returned records with their old timestamps", after_line_6());
    vec![
        parent.search(52, 0, 5, &[14]),
        younger.search(52, 0, 4, &[3]),
        walking.delete(3, 2, DONE, 0).search(64, 0, 3, &[]),
        fresh.delete(12, 2, DONE, 5).check(DONE),
    ]
}
