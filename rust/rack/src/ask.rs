//! The command line read: which file, which words, and the options that may stand anywhere.

use crate::store::BESIDE;
use front::words::{fault, number, once, shown, Fault};
use std::ffi::{OsStr, OsString};
use std::path::PathBuf;
use std::time::Duration;

/// Asks for objects; main looks for it by itself, since a command line that can't be read is told as one too.
pub const JSON: &str = "--json";
/// How long a writer waits for another where nothing is said.
const WAIT: u32 = 10;
/// The records of a new table where nothing is said: the most there can be.
const RECORDS: usize = plotvuga::MOST_RECORDS;

/// What the command line asks for.
#[derive(Debug, PartialEq, Eq)]
pub struct Ask {
    pub wait: Duration,
    pub what: What,
}

/// What is to be done.
#[derive(Debug, PartialEq, Eq)]
pub enum What {
    Help,
    Version,
    New { path: PathBuf, records: usize },
    Words { path: PathBuf, words: Vec<String> },
}

impl Ask {
    /// Of the words behind the program's name.
    pub fn read(arguments: impl Iterator<Item = OsString>) -> Result<Ask, Fault> {
        let (mut wait, mut rest) = (None, Vec::new());
        let mut arguments = arguments;
        while let Some(argument) = arguments.next() {
            match argument.to_str() {
                Some(JSON) => {}
                Some("--wait") => once("--wait", &mut wait, option::<u32>("--wait", arguments.next())?)?,
                Some("--help" | "-h") => return Ok(Ask { wait: Duration::ZERO, what: What::Help }),
                Some("--version") => return Ok(Ask { wait: Duration::ZERO, what: What::Version }),
                _ => rest.push(argument),
            }
        }
        Ok(Ask { wait: Duration::from_secs(wait.unwrap_or(WAIT).into()), what: what(rest)? })
    }
}

fn what(mut rest: Vec<OsString>) -> Result<What, Fault> {
    if rest.first().is_none_or(|first| first.is_empty()) {
        return fault("it needs a file");
    }
    let first = rest.remove(0);
    if first == "new" {
        return new(rest);
    }
    no_option(&first)?;
    let path = PathBuf::from(first);
    let words = rest.into_iter().map(text).collect::<Result<Vec<_>, _>>()?;
    if let Some(verb) = path.to_str().and_then(crate::request::Verb::named) {
        if !path.exists() {
            return fault(format!("the file comes first: rack FILE {}", verb.name()));
        }
    }
    Ok(What::Words { path, words })
}

fn new(rest: Vec<OsString>) -> Result<What, Fault> {
    let (mut path, mut records) = (None, None);
    let mut rest = rest.into_iter();
    while let Some(word) = rest.next() {
        if word == "--records" {
            once("--records", &mut records, option::<u32>("--records", rest.next())? as usize)?;
        } else if path.is_none() && !word.is_empty() {
            no_option(&word)?;
            path = Some(not_beside(PathBuf::from(word))?);
        } else {
            return fault(format!("new takes a file and --records, and here is {}", shown(&word.to_string_lossy())));
        }
    }
    let Some(path) = path else { return fault("new needs the name of the file to make") };
    Ok(What::New { path, records: records.unwrap_or(RECORDS) })
}

/// Whoever mistypes an option must not get a file of that name.
fn no_option(word: &OsStr) -> Result<(), Fault> {
    match word.to_string_lossy() {
        word if word.starts_with('-') => {
            fault(format!("it takes no {}; a file whose name begins with - is typed as ./-", shown(&word)))
        }
        _ => Ok(()),
    }
}

/// A table of such a name would be lost when the table beside it is changed.
fn not_beside(path: PathBuf) -> Result<PathBuf, Fault> {
    if path.extension().is_some_and(|ending| ending == BESIDE) {
        return fault(format!("a name that ends in .{BESIDE} is that of a table half written; choose another"));
    }
    Ok(path)
}

/// The number behind an option.
fn option<T: TryFrom<u64>>(name: &str, word: Option<OsString>) -> Result<T, Fault> {
    number(name, word.map(text).transpose()?.as_deref())
}

fn text(word: OsString) -> Result<String, Fault> {
    word.into_string().or_else(|word| fault(format!("not text: {}", shown(&word.to_string_lossy()))))
}
