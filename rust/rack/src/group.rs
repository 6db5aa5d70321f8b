//! Requests carried out together: what has arrived is done on one copy of the table, which is put into the file once;
//! only then is it answered, so that what was told to be stored is on the disk, unless standard error says otherwise.
//! The file is locked from a group's first change to its end, and never while lines are waited for.

use crate::advice;
use crate::answer::{Answer, Refused};
use crate::call::Bench;
use crate::failure::Failure;
use crate::output::{Asked, Output, Reply};
use crate::request::Request;
use crate::store::{self, Held, NoTable};
use front::words::Fault;
use plotvuga::{Refusal, Table};
use std::path::Path;
use std::time::Duration;

/// From how many replies on a group is ended, so that they need little room.
const MOST: usize = 2048;

/// From how long on a group that holds the file is ended: searches between its changes take their time too, and
/// another writer may wait.
const LONGEST: Duration = Duration::from_millis(500);

/// The requests at hand, carried out and not yet answered.
pub struct Group<'a> {
    path: &'a Path,
    wait: Duration,
    bench: Option<Bench>,
    held: Option<Held>,
    replies: Vec<Reply>,
}

/// Whether there is something to go on with.
#[derive(Clone, Copy, PartialEq, Eq)]
pub enum Next {
    GoOn,
    /// The file holds no table, or the input no lines: nothing further is asked.
    Stop,
}

impl<'a> Group<'a> {
    /// An empty group of requests on a file.
    pub fn on(path: &'a Path, wait: Duration) -> Group<'a> {
        Group { path, wait, bench: None, held: None, replies: Vec::new() }
    }

    /// Whether it should be ended before more is added.
    pub fn is_full(&self) -> bool {
        let is_long = |reply: &Reply| matches!(&reply.told, Ok((_, Answer::Cards(_) | Answer::Drawn(_))));
        let holds_up = |held: &Held| held.since.elapsed() >= LONGEST;
        self.replies.len() >= MOST
            || self.replies.last().is_some_and(is_long)
            || self.held.as_ref().is_some_and(holds_up)
    }

    /// Notes a line that is no request.
    pub fn bad(&mut self, line: Option<u64>, fault: Fault) {
        self.replies.push(Reply { line, told: Err(fault) });
    }

    /// Carries a request out on the copy.
    pub fn add(&mut self, line: Option<u64>, request: &Request) -> Result<Next, Failure> {
        let (answer, next) = match self.bench(request.changes()) {
            Ok(bench) => (bench.answer(request)?, Next::GoOn),
            Err(NoTable::Failed(failure)) => return Err(failure),
            Err(NoTable::Refused(refusal, length)) => (self.no_table(refusal, length), Next::Stop),
        };
        self.replies.push(Reply { line, told: Ok((Asked::of(request), answer)) });
        Ok(next)
    }

    /// The copy of the table; to be changed, it is read when no other writer can change the file.
    fn bench(&mut self, to_change: bool) -> Result<&mut Bench, NoTable> {
        if to_change && self.held.is_none() {
            let held = Held::take(self.path, self.wait)?;
            self.bench = Some(Bench::new(self.path, held.bytes.clone()));
            self.held = Some(held);
        }
        if self.bench.is_none() {
            self.bench = Some(Bench::new(self.path, store::read(self.path)?));
        }
        Ok(self.bench.as_mut().expect("it was just read"))
    }

    fn no_table(&self, refusal: Refusal, length: u64) -> Answer {
        let advice = match refusal {
            Refusal::Size => advice::size(self.path, length),
            _ => advice::on(refusal, None, self.path, &Table::over(Vec::new())),
        };
        Answer::Refused(Refused { refusal, advice })
    }

    /// Puts what was changed into the file, lets the file go, and answers.
    pub fn end(&mut self, output: &mut Output) -> Result<(), Failure> {
        let replies = std::mem::take(&mut self.replies);
        let line = |reply: Option<&Reply>| reply.and_then(|reply| reply.line);
        let (first, last) = (line(replies.first()), line(replies.last()));
        // One answer that is lost must not keep back the refusals behind it, which go another way.
        let mut tell = || replies.iter().map(|reply| output.tell(reply)).fold(Ok(()), Result::and);
        let both = self.held.take().zip(self.bench.take());
        let changed = both.filter(|(held, bench)| held.bytes != bench.table.bytes());
        // Whoever reads the answers may take his time: the file is let go before.
        let Some((held, bench)) = changed else { return tell() };
        match held.replace(bench.table.bytes()) {
            Ok(()) => tell().map_err(|failure| failure.after_change(last)),
            Err(failure) if failure.is_made() => {
                let _ = tell();
                Err(failure)
            }
            Err(failure) => Err(failure.from_line(first)),
        }
    }
}

#[cfg(test)]
mod tests {
    use super::*;

    #[test]
    fn a_group_that_holds_the_file_for_long_is_ended() {
        let table = std::env::temp_dir().join(format!("rack-long-{}", std::process::id()));
        store::create(&table, &[0; plotvuga::RECORD]).unwrap();
        let mut group = Group::on(&table, Duration::ZERO);
        assert!(group.add(Some(1), &Request::Count).is_ok());
        std::thread::sleep(LONGEST);
        assert!(!group.is_full(), "who only reads holds nobody up");
        assert!(group.add(Some(2), &Request::Clear).is_ok());
        assert!(!group.is_full());
        std::thread::sleep(LONGEST);
        assert!(group.is_full());
        std::fs::remove_file(&table).unwrap();
    }
}
