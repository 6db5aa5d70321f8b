//! The words around the table.

use crate::few::Worst;
use crate::rows::Row;
use model::signature::Flavour;

const HEAD: &str = "\
| records | signatures | kind | call | us | of scan | of validated scan | of twin |
|---|---|---|---|---|---|---|---|";

pub fn opening(arity: u8) {
    println!(
        "# Performance

`bash tools/benchmark.sh > docs/PERFORMANCE.md` made this page. Every ratio was measured in one run, the works of a row
in turn, so a slower machine moves the times and hardly the ratios. Below 1 is faster than what is named.

- **us**: the library's time for one call, in microseconds, the median of many.
- **of scan**: over the time of a plain scan that works out every used record's distance, lists the cards within the
  radius and judges nothing. Calls other than search and nearest are held against the scan of 1 in 100.
- **of validated scan**: over the library's own judging of the table followed by that scan. Every call but clear judges
  the whole table first, so this is what a scan over lent bytes would cost if it trusted them no more than the index.
- **of twin**: over the same algorithm in plain Rust, in place over the same bytes, with the same judging, not proved
  (`rust/twin`). Before anything is timed, both are seen to give the same answers and the same bytes.

Tables were made by inserts with arity {arity}. Clustered: a few centres, readings within 40 of them or up to twelve
bits turned. Uniform: random bytes, where no index can rule much out. `insert` goes into the last free record. A card in
the middle has the median number of records below it, among those that have any. `cards` tells all cards in slot order,
`card` what one card was stored with: the last slot's, which is found last. Judging alone is timed through a search that
is refused with 3 right after it. These rows make one call on one table again and again; further down is what calls cost
after other work.

Machine: {}; load {}.

{HEAD}",
        processor(),
        load()
    );
}

pub fn nearest_few() {
    println!(
        "
## The nearest few

Here the scan works out every used record's distance and keeps the first k in a rising row. **Compared** is the share
of the stored cards whose distance the library worked out, in hundredths: what the tree could not rule out. The tables
are those above.

| records | signatures | kind | call | us | of scan | of validated scan | of twin | compared |
|---|---|---|---|---|---|---|---|---|"
    );
}

pub fn after_other_work() {
    println!(
        "
## After other work

A rack makes one call after something else, and not the same call a thousand times on one table, as the rows above do,
until caches and branch prediction know it. Here eight different tables of 1,024 records, made in the same way, are used
in turn: the call, both scans and the twin each go over all eight, one call on each. A time is that of the middle call
of a turn, and the median of many turns. Before a turn of inserts all eight are copied afresh, outside the time.

{HEAD}"
    );
}

pub fn after_deletions() {
    println!(
        "
## After deletions

In a table that was only inserted into, timestamps rise with the slots, and the library sees from that alone that they
are different. Here sixteen cards were deleted and stored again, so that their timestamps have to be told apart like the
cards; otherwise these are the first rows' tables, again one call on one table again and again.

{HEAD}"
    );
}

pub fn worst_cases() {
    println!(
        "
## The worst shape

A chain of 1,024 records with covering radii that reach everything: the deepest walk, and the most work for check, which
holds every record against each one above it.

{HEAD}"
    );
}

pub fn worst_for_nearest() {
    println!(
        "
For the nearest few the dearest table known is a crowd: 1,024 equal cards whose covering radii were set by hand, so that
320 records come to wait, the later before or behind the earlier, then 338 others one after the other before all of
these, and each card that is compared comes before all that are held. Its time for k 64, and the chain's, over that of
ordinary tables of 1,024 records, the works of a row in turn:

| shape | kind | us | of clustered | of uniform |
|---|---|---|---|---|"
    );
}

pub fn worst(shape: &str, kind: u8, Worst { time, ratios: [clustered, uniform] }: &Worst) {
    println!("| {shape} | {kind} | {time:.2} | {clustered:.2} | {uniform:.2} |");
}

/// The aims at 1,024 records, each with the worst row for it.
pub fn aims(rows: &[Row]) {
    println!("\n## Aims at 1,024 records\n");
    println!("| aim | worst row | measured | |\n|---|---|---|---|");
    let large = || rows.iter().filter(|row| row.setting.records == 1024);
    let near = |row: &&Row| row.setting.flavour == Flavour::Clustered && row.call == "search, 1 in 100 found";
    aim("search, clustered, 1 in 100: at most 1.6 of the plain scan", 1.6, large().filter(near), |row| row.scan);
    aim("the same: below the validated scan", 1.0, large().filter(near), |row| row.validated);
    let few =
        |row: &&Row| row.setting.flavour == Flavour::Clustered && ["nearest, k 1", "nearest, k 8"].contains(&row.call);
    aim("nearest, clustered, k up to 8: below the validated scan", 1.0, large().filter(few), |row| row.validated);
    let nearest = |row: &&Row| row.setting.flavour == Flavour::Clustered && row.call.starts_with("nearest");
    aim("nearest, clustered: at most 1.25 of the twin", 1.25, large().filter(nearest), |row| row.twin);
    aim("insert: at most 2.5 of the plain scan", 2.5, large().filter(|row| row.call == "insert"), |row| row.scan);
    aim("every row: at most 1.25 of the twin", 1.25, large(), |row| row.twin);
    println!("\nLoad at the end: {}.", load());
}

fn aim<'a>(name: &str, most: f64, rows: impl Iterator<Item = &'a Row>, ratio: fn(&Row) -> f64) {
    let Some(worst) = rows.max_by(|one, other| ratio(one).total_cmp(&ratio(other))) else { return };
    let place = format!("{:?}, kind {}, {}", worst.setting.flavour, worst.setting.kind, worst.call).to_lowercase();
    let verdict = if ratio(worst) <= most { "met" } else { "missed" };
    println!("| {name} | {place} | {:.2} | {verdict} |", ratio(worst));
}

fn processor() -> String {
    let text = std::fs::read_to_string("/proc/cpuinfo").unwrap_or_default();
    let name = text.lines().find(|line| line.starts_with("model name")).and_then(|line| line.split(": ").nth(1));
    name.unwrap_or("unknown").to_string()
}

fn load() -> String {
    let text = std::fs::read_to_string("/proc/loadavg").unwrap_or_default();
    text.split(' ').next().unwrap_or("unknown").to_string()
}
