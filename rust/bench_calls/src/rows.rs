//! The rows: each call on one table again and again, or on several in turn, timed in turn with both scans and the twin.

use crate::few;
use crate::scan::{judge, plain, validated};
use crate::tables::{Bench, Setting, Share, ITEMS};
use model::index::Search;
use plotvuga::library;
use std::fmt;
use std::hint::black_box;
use std::time::Duration;
use timing::{changing, medians, reading, rounds_within, Work};
use twin::record::{Signature, SIGNATURE};

/// The time that one row may take in all, more or less.
pub const ROW: Duration = Duration::from_millis(900);

pub struct Row {
    pub setting: Setting,
    pub call: &'static str,
    /// The library's time, in microseconds.
    pub time: f64,
    /// The library's time over that of the plain scan, the validated scan and the twin.
    pub scan: f64,
    pub validated: f64,
    pub twin: f64,
}

impl fmt::Display for Row {
    fn fmt(&self, f: &mut fmt::Formatter<'_>) -> fmt::Result {
        let Setting { records, flavour, kind, .. } = self.setting;
        let Row { call, time, scan, validated, twin, .. } = self;
        let flavour = format!("{flavour:?}").to_lowercase();
        write!(f, "| {records} | {flavour} | {kind} | {call} | {time:.2} | {scan:.2} | {validated:.2} | {twin:.2} |")
    }
}

impl Row {
    /// Times the library, both scans and the twin in turn.
    pub fn timed(setting: Setting, call: &'static str, mut works: [Work; 4]) -> Row {
        let rounds = rounds_within(ROW, &mut works);
        let [time, scan, validated, twin] = medians(works, rounds);
        Row { setting, call, time, scan: time / scan, validated: time / validated, twin: time / twin }
    }
}

/// The scans' part of a row: tables of one setting, and the radii of each one's queries.
struct Scans<'a> {
    tables: &'a [Bench],
    radii: Vec<Vec<u32>>,
}

impl Scans<'_> {
    /// Scans that find this share of the cards.
    fn of(tables: &[Bench], share: Share) -> Scans<'_> {
        Scans { tables, radii: tables.iter().map(|bench| bench.radii(share)).collect() }
    }

    fn table(&self, table: usize) -> &[u8] {
        black_box(&self.tables[table].full)
    }

    /// What a search of this table is lent for this item.
    fn search<'a>(&'a self, table: usize, item: usize, list: &'a mut [u32]) -> Search<'a> {
        let Bench { setting, queries, .. } = &self.tables[table];
        let query = item % ITEMS;
        Search { kind: setting.kind, signature: &queries[query], radius: self.radii[table][query], list }
    }

    fn list(&self) -> Vec<u32> {
        vec![0; self.tables[0].setting.records]
    }

    /// Times the library and the twin in turn with both scans.
    fn row(&self, call: &'static str, library: Work, twin: Work) -> Row {
        let (mut one, mut other) = (self.list(), self.list());
        let many = self.tables.len();
        let plain = reading(many, |table, item| plain(self.table(table), self.search(table, item, &mut one)));
        let validated = reading(many, |table, item| validated(self.table(table), self.search(table, item, &mut other)));
        Row::timed(self.tables[0].setting, call, [library, plain, validated, twin])
    }
}

/// Every call on one table, again and again.
pub fn measure(bench: &Bench, print: &mut dyn FnMut(Row)) {
    let tables = std::slice::from_ref(bench);
    print(judging(tables));
    print(insert(tables));
    print(delete(tables, "delete, a leaf", Bench::leaves));
    print(delete(tables, "delete, a card in the middle", |bench| vec![bench.middle()]));
    print(delete(tables, "delete, the root", |bench| vec![bench.root()]));
    print(search(tables, "search, none found", Share::None));
    print(search(tables, "search, 1 in 100 found", Share::OneIn(100)));
    print(search(tables, "search, 1 in 10 found", Share::OneIn(10)));
    print(check(tables));
    print(cards(tables));
    print(card(tables));
}

/// The calls that a rack makes most, on several tables in turn.
pub fn measure_in_turn(tables: &[Bench], print: &mut dyn FnMut(Row)) {
    print(judging(tables));
    print(insert(tables));
    print(search(tables, "search, 1 in 100 found", Share::OneIn(100)));
    print(few::nearest(tables, 8, "nearest, k 8").row);
    print(check(tables));
}

/// The most work, on a chain that every search goes down.
pub fn measure_chain(chain: &Bench, print: &mut dyn FnMut(Row)) {
    let tables = std::slice::from_ref(chain);
    print(search(tables, "chain: search, all found", Share::All));
    print(delete(tables, "chain: delete, the root, arity 1", |bench| vec![bench.root()]));
    print(few::nearest(tables, few::MOST, "chain: nearest, k 64").row);
    print(Row { call: "chain: check", ..check(tables) });
}

// ---- the calls ----

/// The part of every call but clear that comes first.
fn judging(tables: &[Bench]) -> Row {
    let scans = Scans::of(tables, Share::OneIn(100));
    let query = &tables[0].queries[0];
    let library = reading(tables.len(), |table, _| assert_eq!(judge(scans.table(table), query), 3));
    let twin = reading(tables.len(), |table, _| {
        let refused = Search { kind: 0, signature: query, radius: 0, list: &mut [] };
        assert_eq!(twin::search(scans.table(table), refused).refusal, 3);
    });
    scans.row("judging alone", library, twin)
}

fn insert(tables: &[Bench]) -> Row {
    let Setting { kind, arity, .. } = tables[0].setting;
    let new: Vec<u32> = tables.iter().map(Bench::new_card).collect();
    let query = |place: usize, item: usize| &tables[place].queries[item % ITEMS];
    let own = |table: &mut [u8], place: usize, item: usize| {
        let mut count = 0;
        assert_eq!(library::insert(table, new[place], kind, arity, query(place, item), &mut count), 0);
        count
    };
    let twins = |table: &mut [u8], place: usize, item: usize| {
        let answer = twin::insert(table, new[place], kind, query(place, item), arity);
        assert_eq!(answer.refusal, 0);
        answer.count
    };
    let starts: Vec<&[u8]> = tables.iter().map(|bench| &bench.room[..]).collect();
    changed("insert", tables, starts, own, twins)
}

fn delete(tables: &[Bench], call: &'static str, cards: impl Fn(&Bench) -> Vec<u32>) -> Row {
    let arity = tables[0].setting.arity;
    let cards: Vec<Vec<u32>> = tables.iter().map(cards).collect();
    let card = |place: usize, item: usize| cards[place][item % cards[place].len()];
    let own = |table: &mut [u8], place: usize, item: usize| {
        let mut count = 0;
        assert_eq!(library::delete(table, card(place, item), arity, &mut count), 0);
        count
    };
    let twins = |table: &mut [u8], place: usize, item: usize| {
        let answer = twin::delete(table, card(place, item), arity);
        assert_eq!(answer.refusal, 0);
        answer.count
    };
    let starts: Vec<&[u8]> = tables.iter().map(|bench| &bench.full[..]).collect();
    changed(call, tables, starts, own, twins)
}

/// The row of a call that changes its table. What is timed is seen to do the same: count and every byte.
fn changed(
    call: &'static str,
    tables: &[Bench],
    starts: Vec<&[u8]>,
    own: impl Fn(&mut [u8], usize, usize) -> u32,
    twins: impl Fn(&mut [u8], usize, usize) -> u32,
) -> Row {
    for (place, start) in starts.iter().enumerate() {
        for item in 0..ITEMS {
            let (mut one, mut other) = (start.to_vec(), start.to_vec());
            assert_eq!(own(&mut one, place, item), twins(&mut other, place, item));
            assert!(one == other, "the twin leaves another table");
        }
    }
    let (library, twin) = (changing(starts.clone(), own), changing(starts, twins));
    Scans::of(tables, Share::OneIn(100)).row(call, library, twin)
}

fn search(tables: &[Bench], call: &'static str, share: Share) -> Row {
    let scans = Scans::of(tables, share);
    let own = |table: usize, item: usize, list: &mut [u32]| {
        let (lent, mut count, mut found) = (scans.search(table, item, list), 0, 0);
        let Search { kind, signature, radius, list } = lent;
        assert_eq!(library::search(scans.table(table), kind, signature, radius, list, &mut count, &mut found), 0);
        (count, found)
    };
    let twins = |table: usize, item: usize, list: &mut [u32]| {
        let answer = twin::search(scans.table(table), scans.search(table, item, list));
        (answer.count, answer.found)
    };
    let (mut one, mut other) = (scans.list(), scans.list());
    for table in 0..tables.len() {
        for item in 0..ITEMS {
            assert_eq!((own(table, item, &mut one), &one), (twins(table, item, &mut other), &other));
            let found = plain(scans.table(table), scans.search(table, item, &mut scans.list()));
            assert_eq!(own(table, item, &mut one).1 as usize, found);
        }
    }
    let library = reading(tables.len(), |table, item| own(table, item, &mut one));
    let twin = reading(tables.len(), |table, item| twins(table, item, &mut other));
    scans.row(call, library, twin)
}

fn check(tables: &[Bench]) -> Row {
    let scans = Scans::of(tables, Share::OneIn(100));
    let library = reading(tables.len(), |table, _| assert_eq!(library::check(scans.table(table)), 0));
    let twin = reading(tables.len(), |table, _| assert_eq!(twin::check(scans.table(table)).refusal, 0));
    scans.row("check", library, twin)
}

/// All cards, told. What is timed is seen to write the same list.
fn cards(tables: &[Bench]) -> Row {
    let scans = Scans::of(tables, Share::OneIn(100));
    let own = |table: usize, list: &mut [u32]| {
        let mut found = 0;
        assert_eq!(library::cards(scans.table(table), list, &mut found), 0);
        found
    };
    let twins = |table: usize, list: &mut [u32]| twin::cards(scans.table(table), list).found;
    let (mut one, mut other) = (scans.list(), scans.list());
    for (table, bench) in tables.iter().enumerate() {
        assert_eq!((own(table, &mut one), &one), (twins(table, &mut other), &other));
        assert_eq!(one, bench.in_slot_order());
    }
    let library = reading(tables.len(), |table, _| own(table, &mut one));
    let twin = reading(tables.len(), |table, _| twins(table, &mut other));
    scans.row("cards", library, twin)
}

/// What the last slot's card was stored with. What is timed is seen to write the same row.
fn card(tables: &[Bench]) -> Row {
    let scans = Scans::of(tables, Share::OneIn(100));
    let last: Vec<u32> = tables.iter().map(|bench| bench.in_slot_order().pop().unwrap()).collect();
    let own = |table: usize, row: &mut Signature| {
        let mut kind = 0;
        assert_eq!(library::card(scans.table(table), last[table], row, &mut kind), 0);
        kind
    };
    let twins = |table: usize, row: &mut Signature| twin::card(scans.table(table), last[table], row).kind;
    let (mut one, mut other) = ([0; SIGNATURE], [0; SIGNATURE]);
    for (table, bench) in tables.iter().enumerate() {
        assert_eq!((own(table, &mut one), one), (twins(table, &mut other), other));
        assert!(bench.full.ends_with(&one));
    }
    let library = reading(tables.len(), |table, _| own(table, &mut one));
    let twin = reading(tables.len(), |table, _| twins(table, &mut other));
    scans.row("card, the last slot's", library, twin)
}
