//! Answers in words, for whoever reads the screen.

use crate::answer::{Answer, Count, Found};
use crate::draw;
use crate::kind::{stored_with, word};
use crate::name::shown;
use plotvuga::{Pair, Signature};

/// The words of an answer that is no refusal, with the end of the last line.
pub fn words(answer: &Answer) -> String {
    match answer {
        Answer::Made { records } => format!("an empty table of {}\n", many(*records, "record")),
        Answer::Inserted { card, distances } => format!("card {card} stored; {}\n", worked_out(*distances)),
        Answer::Deleted { card, distances } => format!("card {card} deleted; {}\n", worked_out(*distances)),
        Answer::Found(found) => searched(found),
        Answer::Nearest(found) => nearest(found),
        Answer::Sound { stored } => {
            format!("sound: every search finds all that is near among {}\n", many(*stored, "stored card"))
        }
        Answer::Cards(cards) => cards.iter().map(|(card, signature)| line(*card, signature)).collect(),
        Answer::Card(card, signature) => line(*card, signature),
        Answer::Count(count) => counted(count),
        Answer::Cleared { stored } => format!("cleared: {} deleted\n", many(*stored, "card")),
        Answer::Drawn(drawing) => match &drawing.svg {
            Some(path) => format!("drawn: {}\n", shown(path)),
            None => draw::text(&drawing.tree, drawing.walk.as_ref(), drawing.sound),
        },
        Answer::Refused(refused) => {
            format!("{} {}: {}\n", refused.refusal.number(), refused.refusal.name(), refused.advice)
        }
    }
}

fn searched(found: &Found) -> String {
    let (asked, compared) = (found.asked, compared(found));
    match found.near.len() {
        0 => format!("no stored card is within {asked}; {compared}\n"),
        near => format!("{} within {asked}; {compared}\n{}", many(near, "card"), listed(&found.near)),
    }
}

fn nearest(found: &Found) -> String {
    match found.near.len() {
        0 => "no card is stored\n".to_string(),
        near => format!("the nearest {}; {}\n{}", many(near, "card"), compared(found), listed(&found.near)),
    }
}

/// The cards, nearest first, whatever way the search came upon them.
fn listed(near: &[Pair]) -> String {
    let mut near = near.to_vec();
    near.sort_by_key(|pair| (pair.distance, pair.card));
    near.iter().map(|pair| format!("  card {}, {} away\n", pair.card, pair.distance)).collect()
}

fn compared(found: &Found) -> String {
    format!("{} of {} compared", found.distances, many(found.stored, "stored card"))
}

fn worked_out(distances: u32) -> String {
    format!("{} worked out", many(distances as usize, "distance"))
}

fn counted(count: &Count) -> String {
    let kind = count.kind.map_or_else(String::new, |kind| format!(" with {}", stored_with(kind)));
    format!("{} stored{kind}; room for {} more\n", many(count.stored, "card"), count.free)
}

/// A card as insert takes it from a line.
fn line(card: u32, signature: &Signature) -> String {
    format!("{card} {}\n", said(signature))
}

/// A signature as a line has it; zeros at its end are left out.
pub fn said(signature: &Signature) -> String {
    let (word, long) = (word(signature.kind()), long(signature));
    match signature.as_readings() {
        Some(readings) => readings[..long].iter().fold(word.to_string(), |words, reading| format!("{words} {reading}")),
        None => signature.bytes()[..long].iter().fold(format!("{word} "), |words, byte| format!("{words}{byte:02x}")),
    }
}

/// Whether that leaves something out.
pub fn is_cut(signature: &Signature) -> bool {
    let whole = signature.as_readings().map_or(Signature::BYTES, |readings| readings.len());
    long(signature) < whole
}

/// How many readings, or bytes of a mask, there are up to the last that is not 0; one at least.
fn long(signature: &Signature) -> usize {
    let last = match signature.as_readings() {
        Some(readings) => readings.iter().rposition(|reading| *reading != 0),
        None => signature.bytes().iter().rposition(|byte| *byte != 0),
    };
    last.unwrap_or(0) + 1
}

/// So many of something, in the plural but for one.
pub fn many(number: usize, what: &str) -> String {
    format!("{number} {what}{}", if number == 1 { "" } else { "s" })
}
