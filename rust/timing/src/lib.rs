//! Medians of work done in turn, so that whatever slows the machine for a while slows all of it alike. A call is timed
//! on one table again and again, or on several in turn, so that each call comes after other work.

use std::hint::black_box;
use std::time::{Duration, Instant};

/// One thing to time: item number in, the time of one call out.
pub type Work<'a> = Box<dyn FnMut(usize) -> Duration + 'a>;

/// The rounds of all works that fit into this time, more or less, and are neither too few nor more than needed.
pub fn rounds_within(time: Duration, works: &mut [Work]) -> usize {
    const FEWEST: usize = 15;
    const MOST: usize = 2000;
    let begin = Instant::now();
    for item in 0..2 {
        for work in works.iter_mut() {
            work(item);
        }
    }
    let round = begin.elapsed().max(Duration::from_micros(2)) / 2;
    ((time.as_nanos() / round.as_nanos()) as usize).clamp(FEWEST, MOST)
}

/// The median time of each over so many rounds, in microseconds.
pub fn medians<const N: usize>(mut works: [Work; N], rounds: usize) -> [f64; N] {
    let mut times = [const { Vec::new() }; N];
    for item in 0..rounds {
        for (work, times) in works.iter_mut().zip(&mut times) {
            times.push(work(item));
        }
    }
    times.map(|times| middle(times).as_nanos() as f64 / 1000.0)
}

fn middle(mut times: Vec<Duration>) -> Duration {
    times.sort();
    times[times.len() / 2]
}

/// Calls that change nothing. On one table: as many at once as take some microseconds, and their mean. On several: one
/// call on each in turn, and the middle one, so that a call that was broken into does not count.
pub fn reading<'a, T>(tables: usize, mut call: impl FnMut(usize, usize) -> T + 'a) -> Work<'a> {
    let mut timed = move |table: usize, item: usize, times: u32| {
        let begin = Instant::now();
        for _ in 0..times {
            black_box(call(table, item));
        }
        begin.elapsed() / times
    };
    let mut at_once = if tables == 1 { None } else { Some(1) };
    Box::new(move |item| {
        let times = *at_once.get_or_insert_with(|| {
            let once = timed(0, item, 1).as_nanos().max(1);
            (20_000 / once).clamp(1, 64) as u32
        });
        middle((0..tables).map(|table| timed(table, item, times)).collect())
    })
}

/// Calls that change their table, one on each in turn, and the middle one. All tables are put back before the next
/// turn, outside the time.
pub fn changing<'a, T>(starts: Vec<&'a [u8]>, mut call: impl FnMut(&mut [u8], usize, usize) -> T + 'a) -> Work<'a> {
    let mut tables: Vec<Vec<u8>> = starts.iter().map(|start| start.to_vec()).collect();
    Box::new(move |item| {
        for (table, start) in tables.iter_mut().zip(&starts) {
            table.copy_from_slice(start);
        }
        let mut timed = |(place, table): (usize, &mut Vec<u8>)| {
            let begin = Instant::now();
            black_box(call(table, place, item));
            begin.elapsed()
        };
        middle(tables.iter_mut().enumerate().map(&mut timed).collect())
    })
}
