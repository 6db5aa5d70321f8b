//! Runs a history on two indexes and compares, after each call, refusal, counts, every byte of the table, every entry
//! of either list and every byte of the row. A history that fails is made as short as it can be and printed as
//! commands.

mod told;

use crate::history::History;
use crate::index::{Answer, Index};
use crate::refusal::{name, OF_CALLS};
use crate::scan::Stored;
use std::collections::BTreeMap;
use std::fmt;

/// What was compared when nothing differed.
#[derive(Clone, Debug, Default, PartialEq, Eq)]
pub struct Tally {
    pub calls: usize,
    /// How often each call gave each refusal number.
    pub answers: BTreeMap<(&'static str, u32), usize>,
    /// Searches whose list is exactly what the plain scan finds.
    pub scanned: usize,
    /// Nearest calls whose list is exactly the first of the plain scan.
    pub ranked: usize,
    /// Questions what is stored whose answer is exactly what the calls before them stored.
    pub told: usize,
}

impl Tally {
    pub fn add(&mut self, other: &Tally) {
        self.calls += other.calls;
        self.scanned += other.scanned;
        self.ranked += other.ranked;
        self.told += other.told;
        other.answers.iter().for_each(|(answer, times)| *self.answers.entry(*answer).or_default() += times);
    }

    fn answered(&mut self, call: &'static str, refusal: u32) {
        self.calls += 1;
        *self.answers.entry((call, refusal)).or_default() += 1;
    }

    /// Calls with each refusal number.
    pub fn refusals(&self) -> [usize; 11] {
        let with = |number: usize| self.answers.iter().filter(move |((_, refusal), _)| *refusal as usize == number);
        std::array::from_fn(|number| with(number).map(|(_, times)| times).sum())
    }

    /// The answers that some call can give and none gave.
    pub fn not_met(&self) -> Vec<(&'static str, u32)> {
        let all = OF_CALLS.iter().flat_map(|(call, refusals)| refusals.iter().map(move |refusal| (*call, *refusal)));
        all.filter(|answer| !self.answers.contains_key(answer)).collect()
    }
}

/// The first difference: at which command, and what.
#[derive(Clone, Debug, PartialEq, Eq)]
pub struct Difference {
    pub at: usize,
    pub what: String,
}

/// A failing history, shortened, with its difference.
#[derive(Clone, Debug)]
pub struct Failure {
    pub history: History,
    pub difference: Difference,
}

impl fmt::Display for Failure {
    fn fmt(&self, f: &mut fmt::Formatter<'_>) -> fmt::Result {
        write!(f, "{}at command {}: {}", self.history, self.difference.at + 1, self.difference.what)
    }
}

/// Runs the history on both and compares; a failing history comes back shortened.
pub fn compare(subject: &mut dyn Index, model: &mut dyn Index, history: &History) -> Result<Tally, Box<Failure>> {
    run(subject, model, history).map_err(|difference| Box::new(shrink(subject, model, history, difference)))
}

/// Runs the history on both, up to the first difference.
pub fn run(subject: &mut dyn Index, model: &mut dyn Index, history: &History) -> Result<Tally, Difference> {
    let mut tally = Tally::default();
    let mut tables = [history.start.clone(), history.start.clone()];
    let mut stored = history.told_by_calls().then(Stored::default);
    for (at, command) in history.commands.iter().enumerate() {
        let differs = |what: String| Difference { at, what };
        let mut lent = [command.lent(), command.lent()];
        let answer = command.make(subject, &mut tables[0], &mut lent[0]);
        let right = command.make(model, &mut tables[1], &mut lent[1]);
        if answer != right {
            return Err(differs(format!("{} where the model has {}", words(answer), words(right))));
        }
        same("table byte", &tables[0], &tables[1]).map_err(differs)?;
        same("list entry", &lent[0].list, &lent[1].list).map_err(differs)?;
        same("pair", &lent[0].pairs, &lent[1].pairs).map_err(differs)?;
        same("row byte", &lent[0].row, &lent[1].row).map_err(differs)?;
        if let Some(answer) = answer {
            tally.answered(command.name(), answer.refusal);
            if let Some(stored) = &mut stored {
                told::scan(&mut tally, stored, command, answer, &lent[0]).map_err(differs)?;
            }
        }
    }
    Ok(tally)
}

/// Refuses, in words, at the first place in which what was lent differs from what is right.
pub fn same<T: PartialEq + fmt::Display>(what: &str, own: &[T], right: &[T]) -> Result<(), String> {
    match (0..own.len()).find(|place| own[*place] != right[*place]) {
        None => Ok(()),
        Some(place) => Err(format!("{what} {place} is {} and not {}", own[place], right[place])),
    }
}

fn words(answer: Option<Answer>) -> String {
    match answer {
        None => "no answer".to_string(),
        Some(answer) => format!(
            "refusal {} ({}), count {}, found {}, kind {}",
            answer.refusal,
            name(answer.refusal),
            answer.count,
            answer.found,
            answer.kind
        ),
    }
}

/// Drops commands, many at a time and then fewer, for as long as some difference is left.
fn shrink(subject: &mut dyn Index, model: &mut dyn Index, history: &History, difference: Difference) -> Failure {
    let mut failure = Failure { history: history.clone(), difference };
    failure.history.commands.truncate(failure.difference.at + 1);
    let mut width = failure.history.commands.len().div_ceil(2).max(1);
    loop {
        let mut dropped = false;
        let mut from = 0;
        while from < failure.history.commands.len() {
            let mut shorter = failure.history.clone();
            let end = (from + width).min(shorter.commands.len());
            shorter.commands.drain(from..end);
            match run(subject, model, &shorter) {
                Err(difference) => {
                    shorter.commands.truncate(difference.at + 1);
                    failure = Failure { history: shorter, difference };
                    dropped = true;
                }
                Ok(_) => from += width,
            }
        }
        if width == 1 && !dropped {
            return failure;
        }
        width = (width / 2).max(1);
    }
}
