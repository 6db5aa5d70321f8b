//! The rows of the nearest few, held against scans that keep the first k, and the tables made to cost the most.

use crate::rows::Row;
use crate::scan::{nearest as plain, validated_nearest as validated};
use crate::tables::{Bench, ITEMS};
use model::index::{Nearest, Pair};
use plotvuga::library;
use std::fmt;
use std::hint::black_box;
use timing::{medians, reading, rounds_within, Work};

/// Each number of cards that is asked for, with its row's name.
pub const NUMBERS: [(u32, &str); 3] = [(1, "nearest, k 1"), (8, "nearest, k 8"), (MOST, "nearest, k 64")];
/// The most cards that can be asked for.
pub const MOST: u32 = 64;

/// A row, and which share of the stored cards was compared, in hundredths.
pub struct Few {
    pub row: Row,
    pub compared: u32,
}

impl fmt::Display for Few {
    fn fmt(&self, f: &mut fmt::Formatter<'_>) -> fmt::Result {
        write!(f, "{} {} |", self.row, self.compared)
    }
}

/// Calls for the k nearest on tables of one setting.
struct Calls<'a> {
    tables: &'a [Bench],
    k: u32,
}

impl Calls<'_> {
    fn table(&self, table: usize) -> &[u8] {
        black_box(&self.tables[table].full)
    }

    fn asked<'a>(&'a self, table: usize, item: usize, list: &'a mut [Pair]) -> Nearest<'a> {
        let Bench { setting, queries, .. } = &self.tables[table];
        Nearest { kind: setting.kind, signature: &queries[item % ITEMS], k: self.k, list }
    }

    fn list(&self) -> Vec<Pair> {
        vec![Pair::default(); self.k as usize]
    }

    fn library(&self, table: usize, item: usize, list: &mut [plotvuga::Pair]) -> (u32, u32) {
        let Nearest { kind, signature, k, .. } = self.asked(table, item, &mut []);
        let (mut count, mut found) = (0, 0);
        assert_eq!(library::nearest(self.table(table), kind, signature, k, list, &mut count, &mut found), 0);
        (count, found)
    }

    fn twin(&self, table: usize, item: usize, list: &mut [Pair]) -> (u32, u32) {
        let answer = twin::nearest(self.table(table), self.asked(table, item, list));
        (answer.count, answer.found)
    }

    /// Sees that library, twin and scan give the same; returns how many distances the library worked out in all.
    fn agree(&self, own: &mut [plotvuga::Pair]) -> u32 {
        let (mut one, mut other) = (self.list(), self.list());
        let mut all = 0;
        for table in 0..self.tables.len() {
            for item in 0..ITEMS {
                let (count, found) = self.library(table, item, own);
                assert_eq!(self.twin(table, item, &mut one), (count, found));
                assert_eq!(plain(self.table(table), self.asked(table, item, &mut other)), found as usize);
                assert_eq!(one, other);
                let own: Vec<Pair> = own.iter().map(|p| Pair { card: p.card, distance: p.distance }).collect();
                assert_eq!(own, one);
                all += count;
            }
        }
        all
    }
}

/// The k nearest, timed in turn with both scans and the twin.
pub fn nearest(tables: &[Bench], k: u32, call: &'static str) -> Few {
    let calls = Calls { tables, k };
    let (many, setting) = (tables.len(), tables[0].setting);
    let mut own = vec![plotvuga::Pair::default(); k as usize];
    let (mut one, mut other, mut twins) = (calls.list(), calls.list(), calls.list());
    let compared = 100 * calls.agree(&mut own) / (many * ITEMS * setting.records) as u32;
    let works = [
        reading(many, |table, item| calls.library(table, item, &mut own)),
        reading(many, |table, item| plain(calls.table(table), calls.asked(table, item, &mut one))),
        reading(many, |table, item| validated(calls.table(table), calls.asked(table, item, &mut other))),
        reading(many, |table, item| calls.twin(table, item, &mut twins)),
    ];
    Few { row: Row::timed(setting, call, works), compared }
}

/// How long the most cards take on one table, as a ratio to each of the others.
pub struct Worst {
    pub time: f64,
    pub ratios: [f64; 2],
}

pub fn worst(table: &Bench, others: [&Bench; 2]) -> Worst {
    let benches = [table, others[0], others[1]];
    let calls = benches.map(|bench| Calls { tables: std::slice::from_ref(bench), k: MOST });
    let works: [Work; 3] = calls.each_ref().map(|calls| {
        let mut list = vec![plotvuga::Pair::default(); MOST as usize];
        calls.agree(&mut list);
        reading(1, move |table, item| calls.library(table, item, &mut list))
    });
    let mut works = works;
    let rounds = rounds_within(crate::rows::ROW, &mut works);
    let [time, one, other] = medians(works, rounds);
    Worst { time, ratios: [time / one, time / other] }
}
