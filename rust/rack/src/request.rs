//! What is asked of a table: one word of the command line with all that it needs.

use plotvuga::Signature;
use std::path::PathBuf;

/// The arity where none is given: it serves well, and from 2 to 8 it matters little.
pub const ARITY: u8 = 4;

/// A word of the command line.
#[derive(Clone, Copy, Debug, PartialEq, Eq)]
pub enum Verb {
    Insert,
    Delete,
    Search,
    Nearest,
    Check,
    Cards,
    Card,
    Count,
    Clear,
    Draw,
}

impl Verb {
    /// All of them, in the order in which help tells them.
    pub const ALL: [Verb; 10] = [
        Verb::Insert,
        Verb::Delete,
        Verb::Search,
        Verb::Nearest,
        Verb::Check,
        Verb::Cards,
        Verb::Card,
        Verb::Count,
        Verb::Clear,
        Verb::Draw,
    ];

    /// As it is typed.
    pub fn name(self) -> &'static str {
        match self {
            Verb::Insert => "insert",
            Verb::Delete => "delete",
            Verb::Search => "search",
            Verb::Nearest => "nearest",
            Verb::Check => "check",
            Verb::Cards => "cards",
            Verb::Card => "card",
            Verb::Count => "count",
            Verb::Clear => "clear",
            Verb::Draw => "draw",
        }
    }

    /// The verb of that name.
    pub fn named(name: &str) -> Option<Verb> {
        Verb::ALL.into_iter().find(|verb| verb.name() == name)
    }
}

/// What is asked, whole.
#[derive(Clone, Debug, PartialEq, Eq)]
pub enum Request {
    Insert { card: u32, arity: u8, signature: Signature },
    Delete { card: u32, arity: u8 },
    Search(Search),
    Nearest { k: u32, signature: Signature },
    Check,
    Cards,
    Card { card: u32 },
    Count,
    Clear,
    Draw { svg: Option<PathBuf>, search: Option<Search> },
}

/// A range search: which stored cards are within the radius of the signature?
#[derive(Clone, Debug, PartialEq, Eq)]
pub struct Search {
    pub radius: u32,
    pub signature: Signature,
}

impl Request {
    /// The word that asks it.
    pub fn verb(&self) -> Verb {
        match self {
            Request::Insert { .. } => Verb::Insert,
            Request::Delete { .. } => Verb::Delete,
            Request::Search(_) => Verb::Search,
            Request::Nearest { .. } => Verb::Nearest,
            Request::Check => Verb::Check,
            Request::Cards => Verb::Cards,
            Request::Card { .. } => Verb::Card,
            Request::Count => Verb::Count,
            Request::Clear => Verb::Clear,
            Request::Draw { .. } => Verb::Draw,
        }
    }

    /// The card that it names.
    pub fn card(&self) -> Option<u32> {
        match self {
            Request::Insert { card, .. } | Request::Delete { card, .. } | Request::Card { card } => Some(*card),
            _ => None,
        }
    }

    /// The signature that is stored or looked for.
    pub fn signature(&self) -> Option<&Signature> {
        match self {
            Request::Insert { signature, .. } | Request::Nearest { signature, .. } => Some(signature),
            Request::Search(search) | Request::Draw { search: Some(search), .. } => Some(&search.signature),
            _ => None,
        }
    }

    /// The arity that new children are taken by.
    pub fn arity(&self) -> Option<u8> {
        match self {
            Request::Insert { arity, .. } | Request::Delete { arity, .. } => Some(*arity),
            _ => None,
        }
    }

    /// Whether it changes the table, so that it has to be alone with the file. Every word is named here: one that
    /// changes the table and is forgotten would be answered and never written.
    pub fn changes(&self) -> bool {
        match self.verb() {
            Verb::Insert | Verb::Delete | Verb::Clear => true,
            Verb::Search | Verb::Nearest | Verb::Check | Verb::Cards | Verb::Card | Verb::Count | Verb::Draw => false,
        }
    }
}
