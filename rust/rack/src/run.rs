//! A command line carried out on a file: one request, or one for each line of standard input.

use crate::failure::Failure;
use crate::group::{Group, Next};
use crate::lines::Lines;
use crate::output::{complain, Output, Reply};
use crate::progress::Progress;
use crate::request::Verb;
use crate::said::{self, Said};
use crate::store;
use front::words::Fault;
use std::io::Read;
use std::path::Path;
use std::time::Duration;

/// After so many bad lines in a row no more are read: it is most likely another file than was meant.
const MOST_BAD: u64 = 20;

/// Carries out what the words ask of the file.
pub fn run(
    path: &Path,
    wait: Duration,
    words: &[String],
    input: impl Read,
    terminal: bool,
    output: &mut Output,
) -> Result<(), Failure> {
    let group = Group::on(path, wait);
    let (verb, said) = match read(words) {
        Ok(asked) => asked,
        Err(fault) => return output.tell(&Reply { line: None, told: Err(fault) }),
    };
    match verb {
        Some(verb) if !said.is_open(verb) => one(group, verb, &said, output),
        _ => {
            // A name that is mistyped is told before anything is typed, and though there be nothing to do.
            store::is_one(path)?;
            if terminal {
                complain("type a line for each card or word, and Ctrl-D at the end; rack --help tells what to type\n");
            }
            each_line(group, verb, &said, Lines::of(input), Progress::begin(terminal), output)
        }
    }
}

/// The verb, if there is one, and what the words behind it say.
fn read(words: &[String]) -> Result<(Option<Verb>, Said), Fault> {
    let mut words = words.iter().map(String::as_str);
    match words.next() {
        None => Ok((None, Said::default())),
        Some(word) => {
            let verb = said::verb(word)?;
            Ok((Some(verb), Said::read(verb, &mut words, &Said::default())?))
        }
    }
}

fn one(mut group: Group, verb: Verb, said: &Said, output: &mut Output) -> Result<(), Failure> {
    match said.request(verb) {
        Ok(request) => {
            group.add(None, &request)?;
        }
        Err(fault) => group.bad(None, fault),
    }
    group.end(output)
}

/// Carries lines out as they arrive: whatever is at hand together, and nothing is left undone while more is waited for.
fn each_line(
    mut group: Group,
    verb: Option<Verb>,
    said: &Said,
    mut lines: Lines<impl Read>,
    mut progress: Progress,
    output: &mut Output,
) -> Result<(), Failure> {
    let (mut asked, mut bad) = (false, 0);
    let mut next = Ok(Next::GoOn);
    while let Ok(Next::GoOn) = next {
        if !lines.at_hand() || group.is_full() {
            progress.hide();
            group.end(output)?;
        }
        let Some((number, text)) = lines.next_line()? else { break };
        next = match text.and_then(|text| said::line(&text, verb, said)) {
            Ok(None) => Ok(Next::GoOn),
            Ok(Some(request)) => {
                (asked, bad) = (true, 0);
                group.add(Some(number), &request).map_err(|failure| failure.from_line(Some(number)))
            }
            Err(fault) => {
                (asked, bad) = (true, bad + 1);
                group.bad(Some(number), fault);
                Ok(too_many(bad, number, &mut group))
            }
        };
        progress.at(number);
    }
    progress.hide();
    group.end(output)?;
    next?;
    if let Some(number) = lines.cut() {
        complain(format_args!("line {number} has no line end: see that it was not cut short\n"));
    }
    if asked {
        return Ok(());
    }
    unasked(verb, said, output)
}

/// No line asked for anything. A search that was asked of no card must not pass for one that found none.
fn unasked(verb: Option<Verb>, said: &Said, output: &mut Output) -> Result<(), Failure> {
    complain("standard input had no line, so nothing was done\n");
    match verb.filter(|verb| said.is_begun(*verb)).map(|verb| said.request(verb)) {
        Some(Err(fault)) => output.tell(&Reply { line: None, told: Err(fault) }),
        _ => Ok(()),
    }
}

/// Whether to go on after so many bad lines in a row.
fn too_many(bad: u64, number: u64, group: &mut Group) -> Next {
    if bad < MOST_BAD {
        return Next::GoOn;
    }
    group.bad(Some(number), Fault::new(format!("{bad} bad lines in a row: is this the right input? No more is read")));
    Next::Stop
}
