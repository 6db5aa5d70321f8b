//! What the system would not do, in words: which file, what was tried, and how the table stands now.

use crate::name::{shown, typed};
use std::fmt;
use std::io;
use std::path::Path;
use std::time::Duration;

/// Input or output failed.
#[derive(Clone, Debug, PartialEq, Eq)]
pub struct Failure {
    words: String,
    /// Whether the new table stands in the old one's place all the same.
    made: bool,
}

impl fmt::Display for Failure {
    fn fmt(&self, f: &mut fmt::Formatter<'_>) -> fmt::Result {
        f.write_str(&self.words)
    }
}

impl Failure {
    /// Of any kind, in these words.
    pub fn new(words: impl Into<String>) -> Failure {
        Failure { words: words.into(), made: false }
    }

    /// Whether the change that failed is made all the same.
    pub fn is_made(&self) -> bool {
        self.made
    }

    /// The same of requests that were read from lines: this one is not done, nor is any after it.
    pub fn from_line(&self, first: Option<u64>) -> Failure {
        match first {
            Some(first) => self.and(&format!("nothing is done from line {first} on")),
            None => self.clone(),
        }
    }

    /// The same of an answer that was lost when the change was in the file; no line after this one was read.
    pub fn after_change(&self, last: Option<u64>) -> Failure {
        match last {
            Some(last) => self.and(&format!("the change is made: the lines up to {last} are done, and none after")),
            None => self.and("the change is made"),
        }
    }

    /// The same where a table was to be changed: it was not written to.
    pub fn kept(self) -> Failure {
        self.and("the table stands as it stood before")
    }

    /// The same where a table was to be made: there is none.
    pub fn not_made(self) -> Failure {
        self.and("nothing was made")
    }

    /// With a further sentence.
    fn and(&self, sentence: &str) -> Failure {
        Failure { words: format!("{}; {sentence}", self.words), made: self.made }
    }

    /// An answer that could not be written.
    pub fn answer(error: &io::Error) -> Failure {
        Failure::new(format!("the answer could not be written to standard output: {}", plain(error)))
    }

    /// A line that could not be read.
    pub fn input(line: u64, error: &io::Error) -> Failure {
        Failure::new(format!("standard input, line {line}: {}", plain(error)))
    }

    /// Something done to a file did not go well; the file itself was not written to.
    pub fn at(doing: &str, path: &Path, error: &io::Error) -> Failure {
        Failure::new(format!("{doing} {}: {}", shown(path), plain(error)))
    }

    /// The new table is in place, but the system did not say that it would outlast a loss of power.
    pub fn unsynced(path: &Path, error: &io::Error) -> Failure {
        let words = format!(
            "syncing the folder of {}: {}; the change is made, but a loss of power now might undo it",
            shown(path),
            plain(error)
        );
        Failure { words, made: true }
    }

    /// No such file.
    pub fn missing(path: &Path) -> Failure {
        Failure::new(format!("there is no {}; to make an empty table: rack new {}", shown(path), typed(path)))
    }

    /// A folder, a pipe or a device.
    pub fn no_file(path: &Path) -> Failure {
        Failure::new(format!("{} is no file, so it can't be a table", shown(path)))
    }

    /// A file that was to be made is there.
    pub fn there_already(path: &Path) -> Failure {
        Failure::new(format!("{} is there already and was not touched; choose another name", shown(path)))
    }

    /// A file that something else than a writer of ours has moved.
    pub fn moved(path: &Path) -> Failure {
        Failure::new(format!(
            "{} was replaced or taken away meanwhile; what is there now was not touched, so try again",
            shown(path)
        ))
    }

    /// What an ended run has left, and what this one may not take off; or a file of somebody else's.
    pub fn in_the_way(path: &Path) -> Failure {
        Failure::new(format!("{} is in the way: take it off first", shown(path)))
    }

    /// Another writer did not end in time.
    pub fn busy(path: &Path, waited: Duration) -> Failure {
        Failure::new(format!(
            "another program has been changing {} for {} s, so this one did not: try again, or wait longer by --wait",
            shown(path),
            waited.as_secs()
        ))
    }
}

/// The system's words without its number.
fn plain(error: &io::Error) -> String {
    let words = error.to_string();
    match words.split_once(" (os error") {
        Some((words, _)) => words.to_string(),
        None => words,
    }
}
