//! What a request came to, before it is put into words or into an object.

use crate::draw::{Tree, Walk};
use plotvuga::{Kind, Pair, Refusal, Signature};
use std::path::PathBuf;

/// The answer to a request.
pub enum Answer {
    /// A table was made.
    Made {
        records: usize,
    },
    Inserted {
        card: u32,
        distances: u32,
    },
    Deleted {
        card: u32,
        distances: u32,
    },
    Found(Found),
    Nearest(Found),
    Sound {
        stored: usize,
    },
    Cards(Vec<(u32, Signature)>),
    Card(u32, Signature),
    Count(Count),
    Cleared {
        stored: usize,
    },
    Drawn(Box<Drawing>),
    Refused(Refused),
}

/// The cards that a search or a nearest call listed, each with its distance.
pub struct Found {
    /// The radius, or how many were asked for.
    pub asked: u32,
    pub stored: usize,
    pub distances: u32,
    pub near: Vec<Pair>,
}

/// How many cards there are, of which kind, and how many more can be stored.
pub struct Count {
    pub stored: usize,
    pub free: usize,
    pub kind: Option<Kind>,
}

/// A picture that is to be printed, or to be written to a file.
pub struct Drawing {
    pub title: String,
    pub tree: Tree,
    pub walk: Option<Walk>,
    pub sound: bool,
    pub svg: Option<PathBuf>,
}

/// A refusal, and what can be done about it at the bench.
pub struct Refused {
    pub refusal: Refusal,
    pub advice: String,
}
