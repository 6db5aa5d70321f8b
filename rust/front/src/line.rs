//! One line read as a command, or what is wrong with it.

use crate::record::{Command, Operation};
use crate::words::{fault, mask, number, once, readings, shown, Fault};

/// The command of a line; none for a blank one or a comment.
pub fn command(line: &str) -> Result<Option<Command>, Fault> {
    let text = line.split('#').next().unwrap_or_default();
    let mut words = text.split_whitespace();
    let Some(first) = words.next() else { return Ok(None) };
    let operation = match first {
        "insert" => Operation::Insert,
        "delete" => Operation::Delete,
        "search" => Operation::Search,
        "check" => Operation::Check,
        other => return fault(format!("{} is no operation; these are: insert, delete, search, check", shown(other))),
    };
    let mut fields = Fields::default();
    if matches!(operation, Operation::Insert | Operation::Delete) {
        fields.card = Some(number("the card", words.next())?);
    }
    while let Some(word) = words.next() {
        if !takes(operation).contains(&word) {
            return fault(not_taken(first, operation, word));
        }
        match word {
            "kind" => once("kind", &mut fields.kind, number("kind", words.next())?)?,
            "arity" => once("arity", &mut fields.arity, number("arity", words.next())?)?,
            "radius" => once("radius", &mut fields.radius, number("radius", words.next())?)?,
            "readings" => fields.signature = Some((1, readings(words.by_ref())?)),
            _ => fields.signature = Some((2, mask(words.by_ref())?)),
        }
    }
    fields.command(first, operation).map(Some)
}

/// The words that an operation takes, after the card where it has one.
fn takes(operation: Operation) -> &'static [&'static str] {
    match operation {
        Operation::Insert => &["kind", "arity", "readings", "mask"],
        Operation::Delete => &["arity"],
        Operation::Search => &["kind", "radius", "readings", "mask"],
        Operation::Check => &[],
    }
}

fn not_taken(first: &str, operation: Operation, word: &str) -> String {
    match takes(operation) {
        [] => format!("{first} stands alone, and here is {}", shown(word)),
        words => format!("{first} takes {}, and here is {}", words.join(", "), shown(word)),
    }
}

/// What a line has said so far.
#[derive(Default)]
struct Fields {
    card: Option<u32>,
    kind: Option<u8>,
    arity: Option<u8>,
    radius: Option<u32>,
    /// The kind that the word stands for, and the bytes.
    signature: Option<(u8, [u8; 32])>,
}

impl Fields {
    fn command(self, first: &str, operation: Operation) -> Result<Command, Fault> {
        let wanted = takes(operation);
        let missing = |word: &str, said: bool| wanted.contains(&word) && !said;
        for (word, said) in
            [("kind", self.kind.is_some()), ("arity", self.arity.is_some()), ("radius", self.radius.is_some())]
        {
            if missing(word, said) {
                return fault(format!("{first} needs {word} and its number"));
            }
        }
        if missing("readings", self.signature.is_some()) {
            return fault(format!("{first} needs readings or a mask at its end"));
        }
        let (kind, (meant, signature)) = (self.kind.unwrap_or(0), self.signature.unwrap_or((0, [0; 32])));
        match (kind, meant) {
            (1, 2) => return fault("a mask belongs to kind 2, and the kind here is 1"),
            (2, 1) => return fault("readings belong to kind 1, and the kind here is 2"),
            _ => {}
        }
        Ok(Command {
            operation,
            kind,
            arity: self.arity.unwrap_or(0),
            card: self.card.unwrap_or(0),
            radius: self.radius.unwrap_or(0),
            signature,
        })
    }
}
