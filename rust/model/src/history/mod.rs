//! Histories of calls to try: a table to begin with and the commands made on it, right and wrong ones mixed.

mod author;
mod drawn;

pub use drawn::{any_history, full_table, grown_table, history, Manner};

use crate::index::{Answer, Index, Nearest, Pair, Search};
use crate::record::RECORD;
use std::fmt;

#[derive(Clone, Debug, PartialEq, Eq)]
pub enum Command {
    Clear,
    Insert {
        card: u32,
        kind: u8,
        signature: Vec<u8>,
        arity: u8,
    },
    Delete {
        card: u32,
        arity: u8,
    },
    Search {
        kind: u8,
        signature: Vec<u8>,
        radius: u32,
        places: usize,
    },
    Nearest {
        kind: u8,
        signature: Vec<u8>,
        k: u32,
        places: usize,
    },
    Check,
    Cards {
        places: usize,
    },
    Card {
        card: u32,
        /// The row's length in bytes.
        row: usize,
    },
    /// No call: bits of one byte of the table are turned from outside. Twice the same gives the byte back.
    Turn {
        at: usize,
        bits: u8,
    },
}

/// What a command is lent to be written besides its table; each is empty where the call takes none.
#[derive(Clone, Debug, Default, PartialEq, Eq)]
pub struct Lent {
    pub list: Vec<u32>,
    pub pairs: Vec<Pair>,
    pub row: Vec<u8>,
}

#[derive(Clone, Debug, PartialEq, Eq)]
pub struct History {
    pub start: Vec<u8>,
    pub commands: Vec<Command>,
}

impl Command {
    /// Makes the call on a table and what else is lent; no answer where the command is no call.
    pub fn make(&self, index: &mut dyn Index, table: &mut [u8], lent: &mut Lent) -> Option<Answer> {
        match self {
            Command::Clear => Some(index.clear(table)),
            Command::Insert { card, kind, signature, arity } => {
                Some(index.insert(table, *card, *kind, signature, *arity))
            }
            Command::Delete { card, arity } => Some(index.delete(table, *card, *arity)),
            Command::Search { kind, signature, radius, .. } => {
                let list = &mut lent.list;
                Some(index.search(table, Search { kind: *kind, signature, radius: *radius, list }))
            }
            Command::Nearest { kind, signature, k, .. } => {
                let list = &mut lent.pairs;
                Some(index.nearest(table, Nearest { kind: *kind, signature, k: *k, list }))
            }
            Command::Check => Some(index.check(table)),
            Command::Cards { .. } => Some(index.cards(table, &mut lent.list)),
            Command::Card { card, .. } => Some(index.card(table, *card, &mut lent.row)),
            Command::Turn { at, bits } => {
                if let Some(byte) = table.get_mut(*at) {
                    *byte ^= bits;
                }
                None
            }
        }
    }

    /// What is lent to this command: hardly an entry is one that a call would write by chance, or is like another.
    pub fn lent(&self) -> Lent {
        let mut lent = Lent::default();
        match self {
            Command::Search { places, .. } | Command::Cards { places } => {
                lent.list = (0..*places as u32).map(|place| 0xdead_0000 + place).collect();
            }
            Command::Nearest { places, .. } => {
                let pair = |place: u32| Pair { card: 0xdead_0000 + place, distance: 0xbeef_0000 + place };
                lent.pairs = (0..*places as u32).map(pair).collect();
            }
            Command::Card { row, .. } => {
                lent.row = (0..*row).map(|place| (0xa3 + 29 * place) as u8).collect();
            }
            _ => {}
        }
        lent
    }

    /// The name of the call; bytes turned from outside have one as well.
    pub fn name(&self) -> &'static str {
        match self {
            Command::Clear => "clear",
            Command::Insert { .. } => "insert",
            Command::Delete { .. } => "delete",
            Command::Search { .. } => "search",
            Command::Nearest { .. } => "nearest",
            Command::Check => "check",
            Command::Cards { .. } => "cards",
            Command::Card { .. } => "card",
            Command::Turn { .. } => "turn",
        }
    }
}

impl History {
    /// Whether the stored cards can be told from the calls alone: a free table to begin with, nothing from outside.
    pub fn told_by_calls(&self) -> bool {
        self.start.iter().all(|byte| *byte == 0)
            && self.commands.iter().all(|command| !matches!(command, Command::Turn { .. }))
    }
}

struct Hex<'a>(&'a [u8]);

impl fmt::Display for Hex<'_> {
    fn fmt(&self, f: &mut fmt::Formatter<'_>) -> fmt::Result {
        self.0.iter().try_for_each(|byte| write!(f, "{byte:02x}"))
    }
}

impl fmt::Display for Command {
    fn fmt(&self, f: &mut fmt::Formatter<'_>) -> fmt::Result {
        write!(f, "{}", self.name())?;
        match self {
            Command::Clear | Command::Check => Ok(()),
            Command::Insert { card, kind, signature, arity } => {
                write!(f, " card {card} kind {kind} arity {arity} signature {}", Hex(signature))
            }
            Command::Delete { card, arity } => write!(f, " card {card} arity {arity}"),
            Command::Search { kind, signature, radius, places } => {
                write!(f, " kind {kind} radius {radius} places {places} signature {}", Hex(signature))
            }
            Command::Nearest { kind, signature, k, places } => {
                write!(f, " kind {kind} k {k} places {places} signature {}", Hex(signature))
            }
            Command::Cards { places } => write!(f, " places {places}"),
            Command::Card { card, row } => write!(f, " {card} row of {row} bytes"),
            Command::Turn { at, bits } => write!(f, " byte {at} by {bits:#04x}"),
        }
    }
}

impl fmt::Display for History {
    fn fmt(&self, f: &mut fmt::Formatter<'_>) -> fmt::Result {
        writeln!(f, "table of {} bytes", self.start.len())?;
        for (slot, record) in self.start.chunks(RECORD).enumerate() {
            if record.iter().any(|byte| *byte != 0) {
                writeln!(f, "  record {slot}: {}", Hex(record))?;
            }
        }
        self.commands.iter().enumerate().try_for_each(|(before, command)| writeln!(f, "{}. {command}", before + 1))
    }
}
