//! What can be done about a refusal at the bench: the library's sentences speak to programs that lend bytes, these to
//! whoever holds a card and has a file.

use crate::kind::{is_here, stored_with};
use crate::name::{shown, typed};
use crate::request::Request;
use plotvuga::{Refusal, Table, MOST_NEAREST, MOST_RECORDS, RECORD};
use std::path::Path;

/// The advice on a refusal of a request, or of whatever was asked of a file that holds no table.
pub fn on(refusal: Refusal, request: Option<&Request>, path: &Path, table: &Table) -> String {
    let file = typed(path);
    let card = request.and_then(Request::card).unwrap_or(0);
    match refusal {
        Refusal::Size => size(path, table.bytes().len() as u64),
        Refusal::Table => format!(
            "{file} is damaged or no table: its records are not one tree; bring back a copy that was kept, or make a \
             new table; it was not written to"
        ),
        Refusal::Argument => argument(request),
        Refusal::Kind => format!("{file} holds cards {}; keep a file for each kind", kinds(request, table)),
        Refusal::Twice => format!("card {card} is stored already; to store it anew, first: rack {file} delete {card}"),
        Refusal::Absent => format!("card {card} is not stored; rack {file} cards tells which are"),
        Refusal::Full if table.records() < MOST_RECORDS => format!(
            "{0} of {0} records are in use; delete a card, or go over to a longer table: {1}",
            table.records(),
            moved(path, MOST_RECORDS)
        ),
        Refusal::Full => format!("all {MOST_RECORDS} records are in use, and no table has more; begin a second one"),
        Refusal::Clock => format!("its timestamps are used up; store the cards anew: {}", moved(path, table.records())),
        Refusal::Short => "there was no room for the answer, which is a fault of rack's".to_string(),
        Refusal::Loose => format!(
            "some search on {file} would miss a card, so none is made; store the cards anew: {}",
            moved(path, table.records())
        ),
    }
}

/// A file of a length that no table has.
pub fn size(path: &Path, length: u64) -> String {
    format!(
        "{} has {length} bytes, and a table has {RECORD} for each of 1 to {MOST_RECORDS} records; this is another \
         file, or a part of it is lost; it was not written to",
        shown(path)
    )
}

/// Which argument was out of its range.
fn argument(request: Option<&Request>) -> String {
    if let Some(Request::Nearest { k, .. }) = request {
        return format!("1 to {MOST_NEAREST} can be asked for, and here is {k}");
    }
    match request.and_then(Request::arity).filter(|arity| !(1..=8).contains(arity)) {
        Some(arity) => format!("the arity is 1 to 8, and here is {arity}"),
        None => "a card's number is 1 or more".to_string(),
    }
}

/// What kind of cards a table holds, and what kind is at hand.
fn kinds(request: Option<&Request>, table: &Table) -> String {
    let first = table.cards().ok().and_then(|mut cards| cards.next());
    let stored = first.and_then(|card| table.card(card).ok()).map(|signature| signature.kind());
    match stored.zip(request.and_then(Request::signature)) {
        Some((stored, signature)) => format!("with {}, and {}", stored_with(stored), is_here(signature.kind())),
        None => "of another kind".to_string(),
    }
}

/// The commands that store all cards anew in another file, and not in one that is there already.
fn moved(path: &Path, records: usize) -> String {
    let mut anew = path.as_os_str().to_os_string();
    anew.push(".anew");
    let (file, anew) = (typed(path), typed(Path::new(&anew)));
    format!("rack new {anew} --records {records} && rack {file} cards | rack {anew} insert")
}

/// A number of records that no table has.
pub fn records(records: usize) -> String {
    format!("a table has 1 to {MOST_RECORDS} records, and here is {records}; nothing was made")
}
