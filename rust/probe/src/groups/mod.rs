//! The comparisons, group by group: distances, sizes, judging, clear and the questions. The same seed and number of
//! rounds give the same comparisons.

mod clauses;
mod distances;
mod families;
mod judging;
mod questions;
mod sizes;

use crate::tally::{Group, Report};
use crate::Probe;
use model::random::Random;

pub const DEFAULT_SEED: u64 = 20_260_101;
pub const DEFAULT_ROUNDS: usize = 1000;

/// All groups. A line is handed to `print` as soon as its group is done.
pub fn compare_all(probe: &dyn Probe, seed: u64, rounds: usize, print: &mut dyn FnMut(&str)) -> Report {
    let stride = (DEFAULT_ROUNDS / rounds.max(1)).max(1);
    let mut run = Run { probe, random: Random::new(seed), stride, print, report: Report::default() };
    run.distances(rounds);
    run.sizes();
    let clauses = run.judging(rounds);
    run.clauses(&clauses);
    run.clear(rounds);
    run.questions(rounds);
    run.report
}

struct Run<'a> {
    probe: &'a dyn Probe,
    random: Random,
    /// Where every table of a family is judged: 1, or one in so many when the rounds are few.
    stride: usize,
    print: &'a mut dyn FnMut(&str),
    report: Report,
}

impl Run<'_> {
    fn finish(&mut self, group: Group) {
        (self.print)(&group.to_string());
        self.report.groups.push(group);
    }
}
