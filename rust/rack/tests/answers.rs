//! The answers are the library's: on random tables of both kinds the program's file is the wrapper's table byte for
//! byte, and every card and distance that it tells is the wrapper's. And the paper's listing, typed by hand.

mod bench;

use bench::json::{objects, Json};
use bench::Folder;
use plotvuga::{Kind, Signature, Table};
use std::fs;

/// Random numbers, the same in every run.
struct Random(u64);

impl Random {
    fn below(&mut self, end: u64) -> u64 {
        self.0 ^= self.0 << 13;
        self.0 ^= self.0 >> 7;
        self.0 ^= self.0 << 17;
        (self.0 >> 16) % end
    }

    /// A signature near one of a few, so that searches find some cards and leave others.
    fn signature(&mut self, kind: Kind) -> Signature {
        let middle = self.below(5);
        match kind {
            Kind::Readings => {
                let reading = |random: &mut Random, place: u64| match place % (middle + 1) {
                    0 => 9000 * middle + random.below(40),
                    _ => random.below(3),
                };
                Signature::readings(std::array::from_fn(|place| reading(self, place as u64) as u16))
            }
            Kind::Faults => {
                let word = |random: &mut Random| (0x0f0f_u64 << (12 * middle)) ^ (1 << random.below(64));
                Signature::faults(std::array::from_fn(|_| word(self)))
            }
        }
    }
}

/// A signature as it is typed, whole.
fn typed(signature: &Signature) -> String {
    match signature.as_readings() {
        Some(readings) => readings.iter().fold("readings".to_string(), |text, reading| format!("{text} {reading}")),
        None => signature.bytes().iter().fold("mask ".to_string(), |text, byte| format!("{text}{byte:02x}")),
    }
}

/// The distance by the paper's words.
fn apart(one: &Signature, other: &Signature) -> u64 {
    match (one.as_readings(), other.as_readings()) {
        (Some(one), Some(other)) => one.iter().zip(other).map(|(a, b)| u64::from(a.abs_diff(b))).sum(),
        _ => one.bytes().iter().zip(other.bytes()).map(|(a, b)| u64::from((a ^ b).count_ones())).sum(),
    }
}

/// A table made by the wrapper, and the lines that make it by the program: cards come and go.
fn history(random: &mut Random, kind: Kind, records: usize) -> (Table, String) {
    let (mut table, mut lines) = (Table::new(records).unwrap(), String::new());
    for _ in 0..2 * records {
        let (card, arity) = (1 + random.below(2 * records as u64) as u32, 1 + random.below(8) as u8);
        if random.below(4) == 0 {
            let _ = table.delete(card, arity);
            lines += &format!("delete {card} arity {arity}\n");
        } else {
            let signature = random.signature(kind);
            let _ = table.insert(card, &signature, arity);
            lines += &format!("insert {card} arity {arity} {}\n", typed(&signature));
        }
    }
    (table, lines)
}

/// What the wrapper answers: the cards with their distances, and how many distances were worked out.
fn expected(table: &Table, signature: &Signature, radius: Option<u32>, k: u32) -> (Vec<[u64; 2]>, u64) {
    match radius {
        Some(radius) => {
            let found = table.search(signature, radius).unwrap();
            let pair = |card: u32| [u64::from(card), apart(&table.card(card).unwrap(), signature)];
            (found.cards.into_iter().map(pair).collect(), found.distances.into())
        }
        None => {
            let found = table.nearest(signature, k).unwrap();
            (found.pairs.iter().map(|pair| [pair.card.into(), pair.distance.into()]).collect(), found.distances.into())
        }
    }
}

/// The same in words, as the answer to a line: nearest first.
fn in_words(number: usize, stored: usize, radius: Option<u32>, pairs: &[[u64; 2]], distances: u64) -> String {
    let s = |many: usize| if many == 1 { "" } else { "s" };
    let (many, compared) = (pairs.len(), format!("{distances} of {stored} stored card{} compared", s(stored)));
    let mut pairs = pairs.to_vec();
    pairs.sort_by_key(|[card, distance]| (*distance, *card));
    let listed: String = pairs.iter().map(|[card, distance]| format!("  card {card}, {distance} away\n")).collect();
    match radius {
        Some(radius) if many == 0 => format!("line {number}: no stored card is within {radius}; {compared}\n"),
        Some(radius) => format!("line {number}: {many} card{} within {radius}; {compared}\n{listed}", s(many)),
        None => format!("line {number}: the nearest {many} card{}; {compared}\n{listed}", s(many)),
    }
}

fn told(object: &Json) -> (Vec<[u64; 2]>, u64) {
    let pair = |pair: &Json| [pair.number("card"), pair.number("distance")];
    (object.list("cards").iter().map(pair).collect(), object.number("distances"))
}

/// Searches and nearest calls of a table, in words and as objects, are answered as the wrapper answers them.
fn answers_are_the_wrappers(folder: &Folder, table: &Table, random: &mut Random, kind: Kind) {
    let stored = table.stored().unwrap();
    let (mut lines, mut words, mut all) = (String::new(), String::new(), Vec::new());
    for number in 1..=60 {
        let signature = random.signature(kind);
        let farthest = if kind == Kind::Readings { 100_000 } else { 256 };
        let (near, far) = (random.below(60) as u32, random.below(farthest) as u32);
        let radius = [None, Some(near), Some(far)][number % 3];
        let k = 1 + random.below(64) as u32;
        let (pairs, distances) = expected(table, &signature, radius, k);
        let asked = radius.map_or_else(|| format!("nearest {k}"), |radius| format!("search radius {radius}"));
        lines += &format!("{asked} {}\n", typed(&signature));
        words += &in_words(number, stored, radius, &pairs, distances);
        all.push((pairs, distances));
    }
    folder.fed("t", lines.as_bytes()).is(0, &words, "");
    let json = folder.fed("t --json", lines.as_bytes());
    assert_eq!(objects(&json.out).iter().map(told).collect::<Vec<_>>(), all);
    let found = |(pairs, _): &&(Vec<[u64; 2]>, u64)| !pairs.is_empty() && pairs.len() < stored;
    assert!(all.iter().filter(found).count() > 10, "some cards are near and others are not");
    assert!(all.iter().any(|(_, distances)| *distances < stored as u64), "not all are compared each time");
}

#[test]
fn random_tables_are_the_wrappers_and_so_are_the_answers() {
    let mut random = Random(0x5eed_1e55_u64);
    for kind in [Kind::Readings, Kind::Faults] {
        for records in [20, 90, 300] {
            let folder = Folder::with_table("random", records);
            let (table, lines) = history(&mut random, kind, records);
            assert!(folder.fed("t", lines.as_bytes()).status <= 1, "done or refused");
            assert!(folder.table() == table.bytes(), "{records} records of kind {kind:?}");
            answers_are_the_wrappers(&folder, &table, &mut random, kind);
        }
    }
}

#[test]
fn what_cards_prints_can_be_inserted() {
    let mut random = Random(0xca4d_u64);
    for kind in [Kind::Readings, Kind::Faults] {
        let folder = Folder::with_table("anew", 200);
        let (mut table, lines) = history(&mut random, kind, 200);
        folder.fed("t", lines.as_bytes());
        // The two ends of what a signature can be.
        for (card, byte) in [(900, 0), (901, 255)] {
            let edge = Signature::from_bytes(kind, [byte; 32]);
            table.insert(card, &edge, 4).unwrap();
            assert_eq!(folder.rack(&format!("t insert {card} {}", typed(&edge))).status, 0);
        }
        let cards = folder.rack("t cards").out;
        assert_eq!(folder.rack("new u --records 200").status, 0);
        let inserted = folder.fed("u insert", cards.as_bytes());
        assert_eq!((inserted.status, inserted.err.as_str()), (0, ""));
        let anew = Table::over(fs::read(folder.path("u")).unwrap());
        let all = |table: &Table| table.cards().unwrap().map(|c| (c, table.card(c).unwrap())).collect::<Vec<_>>();
        assert_eq!(all(&anew), all(&table), "the same cards with the same signatures");
        assert_eq!((anew.check(), folder.rack("u cards").out), (Ok(()), cards));
    }
}

#[test]
fn the_papers_listing_by_hand() {
    let folder = Folder::with_table("listing", 512);
    let lines = "insert 11 arity 2 readings 50\ninsert 12 arity 2 readings 80\ninsert 13 arity 2 readings 20\n\
                 insert 14 arity 2 readings 52\ninsert 15 arity 2 readings 40\ninsert 16 arity 2 readings 78\n\
                 search radius 5 readings 48\ndelete 12 arity 2\nsearch radius 5 readings 48\ndelete 99 arity 2\n\
                 check\n";
    let out = "card 11 stored; 0 distances worked out\ncard 12 stored; 1 distance worked out\n\
               card 13 stored; 2 distances worked out\ncard 14 stored; 3 distances worked out\n\
               card 15 stored; 3 distances worked out\ncard 16 stored; 4 distances worked out\n\
               line 7: 2 cards within 5; 5 of 6 stored cards compared\n  card 11, 2 away\n  card 14, 4 away\n\
               card 12 deleted; 5 distances worked out\n\
               line 9: 2 cards within 5; 4 of 5 stored cards compared\n  card 11, 2 away\n  card 14, 4 away\n\
               sound: every search finds all that is near among 5 stored cards\n";
    let err = "rack: line 10: 6 ABSENT: card 99 is not stored; rack t cards tells which are\n";
    folder.fed("t", lines.as_bytes()).is(1, out, err);
    // The same lines as the bench program's example has them.
    let again = Folder::with_table("listing-file", 512);
    let told = again.fed("t", include_bytes!("../../../examples/listing.txt"));
    assert_eq!(told.status, 1, "{told:?}");
    assert_eq!(again.table(), folder.table());
}

#[test]
fn a_line_is_answered_of_the_table_that_the_lines_before_it_have_left() {
    let folder = Folder::with_listing("left");
    // The first change has the table read anew, so what follows it is looked at.
    let lines = "insert 99 readings 51\nsearch radius 2 readings 82\ndelete 12\nsearch radius 2 readings 82\n\
                 insert 12 readings 81\nsearch radius 2 readings 82\nclear all\nsearch radius 2 readings 82\n";
    let told = folder.fed("t", lines.as_bytes());
    let listed: Vec<&str> =
        told.out.lines().filter(|line| line.contains("away") || line.contains("no stored")).collect();
    assert_eq!((told.status, listed.len()), (0, 4), "{told:?}");
    assert_eq!([listed[0], listed[2]], ["  card 12, 2 away", "  card 12, 1 away"]);
    assert!(listed[1].starts_with("line 4: no stored") && listed[3].starts_with("line 8: no stored"), "{told:?}");
}

#[test]
fn a_table_that_a_change_has_mended_is_searched_again() {
    let folder = Folder::with_listing("mended");
    folder.forge(8, &29u32.to_le_bytes());
    // All below the root are stored anew when it leaves.
    let lines = b"insert 99 readings 60\nsearch radius 5 readings 48\ndelete 11\nsearch radius 5 readings 48\n";
    let told = folder.fed("t", lines);
    assert!(told.status == 1 && told.err.starts_with("rack: line 2: 10 LOOSE"), "{told:?}");
    assert!(told.err.lines().count() == 1 && told.out.ends_with("compared\n  card 14, 4 away\n"), "{told:?}");
}
