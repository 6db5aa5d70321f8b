//! The running of the edges and of the groups, each history on the doors and on the model.

use super::{DEFAULT_AMOUNT, GROUPS};
use crate::doors::Doors;
use crate::edges::{self, Step};
use crate::guarded::Guarded;
use model::calls::Model;
use model::compare::{compare, run, same, Tally};
use model::history::History;
use model::random::Random;
use model::refusal::name;

/// Failures shown in full; later ones are only counted.
const SHOWN: usize = 3;

/// What a run compared.
#[derive(Clone, Debug, Default)]
pub struct Report {
    pub passed: usize,
    pub failed: usize,
    pub tally: Tally,
}

impl Report {
    /// How many calls were compared, by refusal.
    pub fn calls(&self) -> String {
        let mut text = format!("{} calls compared", self.tally.calls);
        for (refusal, times) in self.tally.refusals().iter().enumerate() {
            text += &format!("{} {times} {}", if refusal == 0 { ":" } else { "," }, name(refusal as u32));
        }
        text += &format!("; {} searches and {} lists of the nearest few", self.tally.scanned, self.tally.ranked);
        text += " held against a plain scan as well";
        text + &format!(", and {} answers what is stored against what the calls stored", self.tally.told)
    }
}

/// All groups. A line is handed to `print` as soon as its group is done.
pub fn run_all<D: Doors, E: Doors>(one: D, other: E, seed: u64, amount: usize, print: &mut dyn FnMut(&str)) -> Report {
    let mut run = Run {
        one: Guarded::new(one),
        other: Guarded::new(other),
        random: Random::new(seed),
        amount,
        print,
        report: Report::default(),
    };
    run.edges();
    run.groups();
    run.report
}

struct Run<'a, D, E> {
    /// Histories go to one and to the other in turn.
    one: Guarded<D>,
    other: Guarded<E>,
    random: Random,
    amount: usize,
    print: &'a mut dyn FnMut(&str),
    report: Report,
}

impl<D: Doors, E: Doors> Run<'_, D, E> {
    /// Runs one history and counts it.
    fn compare(&mut self, what: &str, history: &History) {
        let shown = self.report.failed < SHOWN;
        let result = match (self.report.passed + self.report.failed) % 2 {
            0 => compared(&mut self.one, history, shown),
            _ => compared(&mut self.other, history, shown),
        };
        match result {
            Ok(tally) => {
                self.report.passed += 1;
                self.report.tally.add(&tally);
            }
            Err(why) => self.failed(what, &why),
        }
    }

    fn failed(&mut self, what: &str, why: &str) {
        self.report.failed += 1;
        if self.report.failed <= SHOWN {
            (self.print)(&format!("FAILED: {what}\n  {}", why.replace('\n', "\n  ")));
        }
    }

    // ---- the edges by name ----

    fn edges(&mut self) {
        let (edges, calls) = (edges::all(), self.report.tally.calls);
        for edge in &edges {
            self.compare(&edge.name, &edge.history());
            let differing = match self.report.passed % 2 {
                0 => first_wrong(&mut self.one, edge),
                _ => first_wrong(&mut self.other, edge),
            };
            match differing {
                None => self.report.passed += 1,
                Some(why) => self.failed(&edge.name, &why),
            }
        }
        let calls = self.report.tally.calls - calls;
        (self.print)(&format!("edges by name: {} edges, {calls} calls, twice each", edges.len()));
        edges.iter().for_each(|edge| (self.print)(&format!("    {}", edge.name)));
    }

    // ---- random histories ----

    fn groups(&mut self) {
        for (name, many, draw) in GROUPS {
            // A group of all sizes is thinned evenly; every other one is cut short or prolonged.
            let times = (many * self.amount).div_ceil(DEFAULT_AMOUNT).max(1);
            let (calls, failed) = (self.report.tally.calls, self.report.failed);
            for round in 0..times {
                let history = draw(&mut self.random, round * many / times);
                self.compare(&format!("{name}, history {}", round + 1), &history);
            }
            let (calls, failed) = (self.report.tally.calls - calls, self.report.failed - failed);
            (self.print)(&format!("{name}: {times} histories, {calls} calls, {failed} failed"));
        }
    }
}

/// Runs the history on the doors and the model. A difference that is shown is made short first.
fn compared<D: Doors>(index: &mut Guarded<D>, history: &History, shown: bool) -> Result<Tally, String> {
    if !shown {
        return run(index, &mut Model, history).map_err(|difference| difference.what);
    }
    index.broken = None;
    compare(index, &mut Model, history).map_err(|failure| {
        let broken = index.broken.take().map_or(String::new(), |broken| format!("\n({broken})"));
        format!("{failure}{broken}")
    })
}

/// The first call of an edge whose answer, list or row is not the one worked out by hand.
fn first_wrong<D: Doors>(index: &mut Guarded<D>, edge: &edges::Edge) -> Option<String> {
    let history = edge.history();
    let mut table = history.start.clone();
    for Step { command, answer, written } in edge.steps() {
        let (mut lent, before) = (command.lent(), command.lent());
        let own = command.make(index, &mut table, &mut lent);
        if own != Some(*answer) {
            return Some(format!("{command}\n{own:?}\nand not {answer:?}"));
        }
        let list = same("list entry", &lent.list, &over(&before.list, &written.list));
        let pairs = same("pair", &lent.pairs, &over(&before.pairs, &written.pairs));
        if let Err(what) = list.and(pairs).and(same("row byte", &lent.row, &over(&before.row, &written.row))) {
            return Some(format!("{command}\n{what}"));
        }
    }
    None
}

/// What was lent, with this written over its start.
fn over<T: Copy>(before: &[T], written: &[T]) -> Vec<T> {
    [written, before.get(written.len()..).unwrap_or_default()].concat()
}
