//! How long judging takes, as a ratio to a plain scan of 1,024 records that is timed in turn with it: `bench_judge
//! [repetitions] [--self]`. With `--self` the model's judge is timed, which tells only that the bench works.

use model::assemble::{self, Clock, Shape};
use model::calls::Model;
use model::distance::{Signature, READINGS, SIGNATURE};
use model::history::full_table;
use model::index::Index;
use model::judge::{judge, Verdict};
use model::random::Random;
use model::record::{parse_table, table_bytes, MOST_RECORDS, RECORD};
use model::refusal::{DONE, TABLE};
use model::signature::{Flavour, Source};
use probe::answers::Answers;
use probe::Probe;
use std::hint::black_box;
use std::process::ExitCode;
use timing::{medians, reading};

const DEFAULT_REPETITIONS: usize = 400;

// ---- the plain scan ----

/// The kind 1 distance of every record's signature to the query, used or not, judging nothing; returns the smallest.
fn plain_scan(table: &[u8], query: &Signature) -> u32 {
    let reading = |bytes: &[u8]| i32::from(u16::from_le_bytes([bytes[0], bytes[1]]));
    let signatures = table.chunks_exact(RECORD).map(|record| &record[RECORD - SIGNATURE..]);
    signatures
        .map(|signature| {
            let pairs = signature.chunks_exact(2).zip(query.chunks_exact(2));
            pairs.map(|(a, b)| (reading(a) - reading(b)).unsigned_abs()).sum::<u32>()
        })
        .min()
        .unwrap_or(0)
}

// ---- crafted keys ----

type Bucket = fn(u32) -> u32;

/// Rules by which a judge might choose the bucket of a card or a timestamp; all keys of a crafted table fall into one
/// bucket. To craft tables against a judge, add its own rule here.
const BUCKETS: [(&str, Bucket); 5] = [
    ("equal low 12 bits", |key| key & 4095),
    ("equal low 21 bits", |key| key & ((1 << 21) - 1)),
    ("equal high 21 bits", |key| key >> 11),
    ("one bucket of 4,096 by golden ratio", |key| key.wrapping_mul(0x9e37_79b1) >> 20),
    ("equal halves when folded", |key| ((key >> 16) ^ key) & 4095),
];

/// The first so many keys that fall into the bucket of 2^22, rising.
fn colliding_keys(bucket: Bucket, many: usize) -> Vec<u32> {
    let shared = bucket(1 << 22);
    (1..=u32::MAX).filter(|key| bucket(*key) == shared).take(many).collect()
}

/// The table with its cards and timestamps replaced by these rising keys, oldest first.
fn with_keys(table: &[u8], keys: &[u32]) -> Vec<u8> {
    let mut records = parse_table(table);
    let mut by_age: Vec<usize> = (0..records.len()).filter(|slot| records[*slot].used()).collect();
    by_age.sort_by_key(|slot| records[*slot].timestamp);
    for (age, slot) in by_age.iter().enumerate() {
        records[*slot].timestamp = keys[age];
        records[*slot].card = keys[by_age.len() - 1 - age];
    }
    table_bytes(&records)
}

/// The card in the middle slot deleted and stored again. Its timestamp is now the largest, so timestamps no longer rise
/// with the slots, as they do in a table that was only inserted into.
fn with_a_card_anew(table: &[u8]) -> Vec<u8> {
    let mut anew = table.to_vec();
    let records = parse_table(table);
    let middle = &records[records.len() / 2];
    Model.delete(&mut anew, middle.card, 8);
    Model.insert(&mut anew, middle.card, middle.kind, &middle.signature, 8);
    anew
}

/// The last record in slot order gets the card of the first.
fn with_equal_cards(table: &[u8]) -> Vec<u8> {
    let mut records = parse_table(table);
    let last = records.len() - 1;
    records[last].card = records[0].card;
    table_bytes(&records)
}

// ---- the tables ----

/// The tables to judge, each with the answer that it must have.
fn tables(random: &mut Random) -> Vec<(String, Vec<u8>, u32)> {
    let mut source = Source::new(random, READINGS, Flavour::Clustered);
    let full = full_table(random, &mut source, READINGS, MOST_RECORDS);
    let mut list = vec![
        ("1,024 records, ordinary".to_string(), full.clone(), DONE),
        ("1,024 records, a card stored anew".to_string(), with_a_card_anew(&full), DONE),
    ];
    for (shape, name) in [(Shape::Chain, "a chain"), (Shape::Full, "eight children each")] {
        let table = assemble::table(random, MOST_RECORDS, MOST_RECORDS, shape, Clock::Sparse, READINGS);
        list.push((format!("1,024 records, {name}"), table, DONE));
    }
    for (name, bucket) in BUCKETS {
        let keys = colliding_keys(bucket, MOST_RECORDS);
        list.push((format!("1,024 records, keys with {name}"), with_keys(&full, &keys), DONE));
    }
    list.push(("1,024 records, empty".to_string(), vec![0; MOST_RECORDS * RECORD], DONE));
    for records in [64, 512] {
        list.push((format!("{records} records, ordinary"), full_table(random, &mut source, READINGS, records), DONE));
    }
    list.push(("1,024 records, two equal cards".to_string(), with_equal_cards(&full), TABLE));
    list
}

/// Eight different ordinary tables of 1,024 records.
fn ordinary(random: &mut Random) -> Vec<Vec<u8>> {
    let table = |_| {
        let mut source = Source::new(random, READINGS, Flavour::Clustered);
        full_table(random, &mut source, READINGS, MOST_RECORDS)
    };
    (0..8).map(table).collect()
}

// ---- timing ----

/// What is timed, and how often.
struct Bench {
    probe: Box<dyn Probe>,
    repetitions: usize,
}

impl Bench {
    /// Judges tables in turn, and scans others in turn with them; prints the median of a call and its ratio to a scan.
    /// False if a table is not judged as it must be, by the model or by what is timed.
    fn row(&self, name: &str, judged: &[&[u8]], answer: u32, scanned: &[&[u8]]) -> bool {
        let verdict = |table: &[u8]| if judge(table) == Verdict::WellFormed { DONE } else { TABLE };
        if judged.iter().any(|table| verdict(table) != answer || self.probe.judge(table) != answer) {
            println!("{name}: judged wrongly");
            return false;
        }
        let query: Signature = std::array::from_fn(|at| at as u8);
        let judge = reading(judged.len(), |table, _| self.probe.judge(black_box(judged[table])));
        let scan = reading(scanned.len(), |table, _| plain_scan(black_box(scanned[table]), black_box(&query)));
        let [time, scan] = medians([judge, scan], self.repetitions);
        println!("{name:<60} {time:>10.2} {scan:>10.2} {:>8.2}", time / scan);
        true
    }
}

#[cfg(not(feature = "stub"))]
fn library() -> Option<Box<dyn Probe>> {
    Some(Box::new(probe::library::Library))
}

#[cfg(feature = "stub")]
fn library() -> Option<Box<dyn Probe>> {
    None
}

fn main() -> ExitCode {
    let arguments: Vec<String> = std::env::args().skip(1).collect();
    let on_self = arguments.iter().any(|argument| argument == "--self");
    let repetitions = arguments.iter().find_map(|number| number.parse().ok()).unwrap_or(DEFAULT_REPETITIONS).max(1);
    let subject: Option<Box<dyn Probe>> = if on_self { Some(Box::new(Answers::default())) } else { library() };
    let Some(probe) = subject else {
        eprintln!("built without the library (feature stub): only --self can run");
        return ExitCode::from(2);
    };

    let mut random = Random::new(99);
    let (tables, ordinary) = (tables(&mut random), ordinary(&mut random));
    println!("{:<60} {:>10} {:>10} {:>8}", format!("judging, median of {repetitions}"), "us", "scan, us", "scans");
    let bench = Bench { probe, repetitions };
    let mut right = true;
    for (name, table, answer) in &tables {
        right &= bench.row(name, &[table], *answer, &[&tables[0].1]);
    }
    // After other work: no table is the one that was judged or scanned just before.
    let in_turn: Vec<&[u8]> = ordinary.iter().map(Vec::as_slice).collect();
    right &= bench.row("1,024 records, eight ordinary tables in turn", &in_turn, DONE, &in_turn);
    let anew: Vec<Vec<u8>> = ordinary.iter().map(|table| with_a_card_anew(table)).collect();
    let in_turn: Vec<&[u8]> = anew.iter().map(Vec::as_slice).collect();
    right &= bench.row("1,024 records, eight tables in turn, a card of each stored anew", &in_turn, DONE, &in_turn);
    if right {
        ExitCode::SUCCESS
    } else {
        ExitCode::FAILURE
    }
}
