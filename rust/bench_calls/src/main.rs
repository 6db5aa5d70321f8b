//! Prints docs/PERFORMANCE.md: the time of every call as a ratio to a plain scan, to a validated scan and to the
//! unproved twin, all measured in this run. `bench_calls [arity]`, 8 unless told.

mod crowd;
mod document;
mod few;
mod rows;
mod scan;
mod tables;

use crowd::{crowd, Order};
use model::record::MOST_RECORDS;
use model::signature::Flavour;
use rows::Row;
use tables::{Bench, Setting, ARITY};

/// The tables that are used in turn where a call comes after other work.
const IN_TURN: u64 = 8;

fn main() {
    let arity = match std::env::args().nth(1).map(|number| number.parse()) {
        None => ARITY,
        Some(Ok(arity @ 1..=8)) => arity,
        _ => {
            eprintln!("usage: bench_calls [arity, 1 to 8]");
            std::process::exit(2);
        }
    };
    let tables = ordinary(arity);
    let rows = first_rows(&tables, arity);
    after_other_work(arity);
    worst_shapes(&tables, arity);
    document::aims(&rows);
}

/// The tables of the first rows.
fn ordinary(arity: u8) -> Vec<Bench> {
    let mut tables = Vec::new();
    for records in [64, 512, MOST_RECORDS] {
        for flavour in [Flavour::Clustered, Flavour::Uniform] {
            for kind in [1, 2] {
                tables.push(Bench::new(Setting { records, flavour, kind, arity }, 7));
            }
        }
    }
    tables
}

/// Every call on these tables, each again and again.
fn first_rows(tables: &[Bench], arity: u8) -> Vec<Row> {
    let mut rows = Vec::new();
    document::opening(arity);
    for bench in tables {
        rows::measure(bench, &mut |row| {
            println!("{row}");
            rows.push(row);
        });
    }
    document::nearest_few();
    for bench in tables {
        for (k, call) in few::NUMBERS {
            let few = few::nearest(std::slice::from_ref(bench), k, call);
            println!("{few}");
            rows.push(few.row);
        }
    }
    rows
}

/// The calls that a rack makes most, on several tables in turn, and on tables that were deleted from.
fn after_other_work(arity: u8) {
    let settings = [1, 2].map(|kind| Setting { records: MOST_RECORDS, flavour: Flavour::Clustered, kind, arity });
    document::after_other_work();
    for setting in settings {
        let tables: Vec<Bench> = (0..IN_TURN).map(|seed| Bench::new(setting, 20 + seed)).collect();
        rows::measure_in_turn(&tables, &mut |row| println!("{row}"));
    }
    document::after_deletions();
    for setting in settings {
        rows::measure_in_turn(&[Bench::new(setting, 7).with_cards_anew()], &mut |row| println!("{row}"));
    }
}

/// The chain, and what is dearest for the nearest few, held against the ordinary tables.
fn worst_shapes(tables: &[Bench], arity: u8) {
    document::worst_cases();
    for kind in [1, 2] {
        rows::measure_chain(&Bench::chain(kind), &mut |row| println!("{row}"));
    }
    document::worst_for_nearest();
    for kind in [1, 2] {
        let like = |flavour| Setting { records: MOST_RECORDS, flavour, kind, arity };
        let of = |flavour| tables.iter().find(|bench| bench.setting == like(flavour)).expect("timed above");
        let others = [of(Flavour::Clustered), of(Flavour::Uniform)];
        document::worst("crowd, later before", kind, &few::worst(&crowd(kind, Order::Before), others));
        document::worst("crowd, later behind", kind, &few::worst(&crowd(kind, Order::Behind), others));
        document::worst("chain", kind, &few::worst(&Bench::chain(kind), others));
    }
}
