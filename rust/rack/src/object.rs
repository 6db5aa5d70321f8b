//! Answers for programs: one JSON object a line.

use crate::answer::{Answer, Count, Drawing, Found, Refused};
use crate::draw::{Drawn, Record};
use crate::kind::word;
use plotvuga::Signature;
use std::fmt::{Display, Write};

/// An object whose fields are added one by one.
pub struct Object(String);

impl Default for Object {
    fn default() -> Object {
        Object("{".to_string())
    }
}

impl Object {
    /// A field whose value is written as it is: a number, a list, an object.
    pub fn plain(mut self, name: &str, value: impl Display) -> Object {
        if self.0.len() > 1 {
            self.0.push(',');
        }
        let _ = write!(self.0, "\"{name}\":{value}");
        self
    }

    /// A field whose value is a text.
    pub fn text(self, name: &str, value: &str) -> Object {
        self.plain(name, quoted(value))
    }

    /// The whole object.
    pub fn end(mut self) -> String {
        self.0.push('}');
        self.0
    }
}

/// A list of values, each as it is written.
fn list<T: Display>(values: impl Iterator<Item = T>) -> String {
    let all: Vec<String> = values.map(|value| value.to_string()).collect();
    format!("[{}]", all.join(","))
}

fn quoted(text: &str) -> String {
    let mut quoted = String::from('"');
    for character in text.chars() {
        let _ = match character {
            '"' | '\\' => write!(quoted, "\\{character}"),
            other if u32::from(other) < 0x20 => write!(quoted, "\\u{:04x}", u32::from(other)),
            other => write!(quoted, "{other}"),
        };
    }
    quoted.push('"');
    quoted
}

/// The fields of an answer, behind those that tell what was asked.
pub fn fields(asked: Object, answer: &Answer) -> Object {
    let refusal = if let Answer::Refused(refused) = answer { refused.refusal.number() } else { 0 };
    let asked = asked.plain("refusal", refusal);
    match answer {
        Answer::Made { records } => asked.plain("records", records),
        Answer::Inserted { distances, .. } | Answer::Deleted { distances, .. } => asked.plain("distances", distances),
        Answer::Found(found) => near(asked.plain("radius", found.asked), found),
        Answer::Nearest(found) => near(asked.plain("k", found.asked), found),
        Answer::Sound { stored } => asked.plain("stored", stored),
        Answer::Cards(cards) => {
            let card = |(card, known): &(u32, Signature)| signature(Object::default().plain("card", card), known).end();
            asked.plain("cards", list(cards.iter().map(card)))
        }
        Answer::Card(_, known) => signature(asked, known),
        Answer::Count(count) => counted(asked, count),
        Answer::Cleared { stored } => asked.plain("deleted", stored),
        Answer::Drawn(drawing) => drawn(asked, drawing),
        Answer::Refused(refused) => told(asked, refused),
    }
}

fn near(asked: Object, found: &Found) -> Object {
    let pair =
        |pair: &plotvuga::Pair| Object::default().plain("card", pair.card).plain("distance", pair.distance).end();
    asked
        .plain("stored", found.stored)
        .plain("distances", found.distances)
        .plain("cards", list(found.near.iter().map(pair)))
}

fn signature(object: Object, signature: &Signature) -> Object {
    let (object, word) = (object.plain("kind", signature.kind().number()), word(signature.kind()));
    match signature.as_readings() {
        Some(readings) => object.plain(word, list(readings.iter())),
        None => {
            let digits = signature.bytes().iter().map(|byte| format!("{byte:02x}")).collect::<String>();
            object.text(word, &digits)
        }
    }
}

fn counted(asked: Object, count: &Count) -> Object {
    let asked = asked.plain("stored", count.stored).plain("free", count.free);
    match count.kind {
        Some(kind) => asked.plain("kind", kind.number()),
        None => asked,
    }
}

fn drawn(asked: Object, drawing: &Drawing) -> Object {
    let drawn = Drawn::of(&drawing.tree, drawing.walk.as_ref(), drawing.sound);
    let asked = asked.plain("sound", drawn.sound);
    match &drawing.svg {
        Some(path) => asked.text("svg", &path.display().to_string()),
        None => {
            asked.plain("records", list(drawing.tree.in_order().map(|(record, _)| of_record(&drawn, record).end())))
        }
    }
}

/// A record of the tree; with a search, what was done there, its distance if it was compared, and if it was left out
/// how far off all from it down is at least.
fn of_record(drawn: &Drawn, record: &Record) -> Object {
    let parent = record.parent.and_then(|slot| drawn.tree.record(slot));
    let object = Object::default()
        .plain("card", record.card)
        .plain("slot", record.slot)
        .plain("age", record.age)
        .plain("radius", record.radius)
        .plain("parent", parent.map_or("null".to_string(), |parent| parent.card.to_string()));
    let (Some(walk), Some(mark)) = (drawn.walk, drawn.mark(record)) else { return object };
    let least = walk.least(record.slot).filter(|_| drawn.sound);
    [("distance", drawn.distance(record)), ("least", least)].into_iter().fold(
        object.text("fate", &mark.word().to_lowercase()),
        |object, (name, number)| match number {
            Some(number) => object.plain(name, number),
            None => object,
        },
    )
}

fn told(asked: Object, refused: &Refused) -> Object {
    asked.text("name", refused.refusal.name()).text("advice", &refused.advice)
}
