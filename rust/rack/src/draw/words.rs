//! What the drawings say of one record: what the search did there and why, in short and in full. Both drawings take
//! their words from here, so that they tell the same.

use super::tree::{Record, Tree};
use super::walk::{Fate, Siblings, Walk, Why};
use crate::text::{is_cut, said};
use plotvuga::Signature;

/// What a drawing is made of.
#[derive(Clone, Copy)]
pub struct Drawn<'a> {
    pub tree: &'a Tree,
    pub walk: Option<&'a Walk>,
    /// Whether the table is sound. Where it is not, nothing is said that only a sound table makes true.
    pub sound: bool,
}

/// How a record is marked: by colour, by sign and by word, so that no one of them has to be seen.
#[derive(Clone, Copy, Debug, PartialEq, Eq)]
pub enum Mark {
    Listed,
    Entered,
    NotEntered,
    NotCompared,
    /// Within the radius and walked past, which only a table that is not sound lets happen.
    Missed,
}

impl Mark {
    pub const ALL: [Mark; 5] = [Mark::Listed, Mark::Entered, Mark::NotEntered, Mark::NotCompared, Mark::Missed];

    pub fn sign(self) -> &'static str {
        match self {
            Mark::Listed => "✓",
            Mark::Entered => "↓",
            Mark::NotEntered => "✕",
            Mark::NotCompared => "–",
            Mark::Missed => "!",
        }
    }

    pub fn word(self) -> &'static str {
        match self {
            Mark::Listed => "listed",
            Mark::Entered => "entered",
            Mark::NotEntered => "not entered",
            Mark::NotCompared => "not compared",
            Mark::Missed => "MISSED",
        }
    }
}

/// Card numbers in a row; of many the first, and how many more there are.
pub fn cards(numbers: &[u32]) -> String {
    const SHOWN: usize = 12;
    let first: Vec<String> = numbers.iter().take(SHOWN).map(u32::to_string).collect();
    match numbers.len().saturating_sub(SHOWN) {
        0 => first.join(", "),
        more => format!("{} and {more} more", first.join(", ")),
    }
}

/// A signature as it is typed: zeros at its end are left out and said so.
pub fn signature(signature: &Signature) -> String {
    format!("{}{}", said(signature), if is_cut(signature) { ", the rest 0" } else { "" })
}

impl<'a> Drawn<'a> {
    /// A table on which a search has missed a card is not sound, whatever is said of it.
    pub fn of(tree: &'a Tree, walk: Option<&'a Walk>, sound: bool) -> Drawn<'a> {
        Drawn { tree, walk, sound: sound && walk.is_none_or(|walk| walk.missed.is_empty()) }
    }

    /// What the search did at a record; none without a search.
    pub fn mark(&self, record: &Record) -> Option<Mark> {
        let walk = self.walk?;
        if walk.missed.contains(&record.card) {
            return Some(Mark::Missed);
        }
        Some(match walk.fate(record.slot)? {
            Fate::Listed { .. } => Mark::Listed,
            Fate::Entered { .. } => Mark::Entered,
            Fate::NotEntered { .. } => Mark::NotEntered,
            Fate::NotCompared { .. } => Mark::NotCompared,
        })
    }

    /// The record's distance to the query, if the search worked it out.
    pub fn distance(&self, record: &Record) -> Option<u32> {
        self.walk?.fate(record.slot)?.distance()
    }

    fn card(&self, slot: usize) -> u32 {
        self.tree.at(slot).card
    }

    /// Why a record was not entered or not compared, and how far off all from it down is; none if it was entered.
    pub fn reason(&self, record: &Record) -> Option<String> {
        let walk = self.walk?;
        let (why, below) = match walk.fate(record.slot)? {
            Fate::NotEntered { why, .. } => (self.short(why), !record.children.is_empty()),
            Fate::NotCompared { below } => return Some(format!("below card {}", self.card(*below))),
            Fate::Listed { .. } | Fate::Entered { .. } => return None,
        };
        Some(match (below, self.sound, walk.least(record.slot)) {
            (false, _, _) => format!("{why}; no card below"),
            (true, true, Some(least)) => format!("{why}, so nothing from here down is nearer than {least}"),
            _ => why,
        })
    }

    fn short(&self, why: &Why) -> String {
        match why {
            Why::Covering { reach } => format!("reaches {reach}"),
            Why::Older(Siblings { nearer, .. }) => {
                format!("older card {} is {} away", self.card(nearer.slot), nearer.distance)
            }
            Why::Time(Siblings { farther, nearer }) => {
                let (b, c) = (self.card(farther.slot), self.card(nearer.slot));
                format!("younger than card {c} ({} away), below card {b} ({} away)", nearer.distance, farther.distance)
            }
        }
    }

    /// All that is known of a record, in full sentences, one to a line.
    pub fn full(&self, record: &Record) -> Vec<String> {
        let mut lines = vec![format!(
            "Card {} in slot {}, age {}, covering radius {}.",
            record.card, record.slot, record.age, record.radius
        )];
        let children: Vec<u32> = record.children.iter().map(|slot| self.card(*slot)).collect();
        let above = record
            .parent
            .map_or("It is the root".to_string(), |slot| format!("Its parent is card {}", self.card(slot)));
        lines.push(match children.as_slice() {
            [] => format!("{above}; it has no child."),
            children => format!("{above}; its children, oldest first: {}.", cards(children)),
        });
        lines.push(format!("Stored with {}.", signature(&record.signature)));
        if let Some((walk, fate)) = self.walk.and_then(|walk| Some((walk, walk.fate(record.slot)?))) {
            if walk.missed.contains(&record.card) {
                lines.push("MISSED: it is within the radius, and the search walked past it.".to_string());
            }
            self.told(walk, record, fate, &mut lines);
        }
        lines
    }

    fn told(&self, walk: &Walk, record: &Record, fate: &Fate, lines: &mut Vec<String>) {
        let r = walk.radius;
        match fate {
            Fate::Listed { distance, bound } => {
                lines.push(format!("Entered and listed: it is {distance} away, and the radius is {r}."));
                lines.extend(bound.map(|pair| self.bound(&pair)));
            }
            Fate::Entered { distance, bound } => {
                lines.push(format!("Entered, not listed: it is {distance} away, and the radius is {r}."));
                lines.extend(bound.map(|pair| self.bound(&pair)));
            }
            Fate::NotEntered { distance, why } => {
                lines.push(format!("Compared, not entered: it is {distance} away, and the radius is {r}."));
                lines.push(self.rule(why, r));
                if let Some(least) = walk.least(record.slot).filter(|_| self.sound) {
                    let law = self.law(record, why);
                    lines.push(format!("{law}: nothing from here down is nearer than {least}."));
                }
            }
            Fate::NotCompared { below } => {
                lines.push(format!("Not compared: it stands below card {}, which was not entered.", self.card(*below)));
                if let Some(least) = walk.least(record.slot).filter(|_| self.sound) {
                    lines.push(format!("From there down nothing is nearer than {least}, and the radius is {r}."));
                }
            }
        }
    }

    fn bound(&self, pair: &Siblings) -> String {
        let (b, c) = (self.card(pair.farther.slot), self.card(pair.nearer.slot));
        let (d_b, d_c) = (pair.farther.distance, pair.nearer.distance);
        format!(
            "From card {b} down, what is younger than card {c} is not entered: card {b} is {d_b} away, and card {c} \
             {d_c}."
        )
    }

    /// The rule that kept the search out.
    fn rule(&self, why: &Why, r: u32) -> String {
        match why {
            Why::Covering { reach } => format!("That is more than its covering radius, {reach}, and {r} together."),
            Why::Older(pair) => {
                let (c, d_c) = (self.card(pair.nearer.slot), pair.nearer.distance);
                format!("Its older sibling, card {c}, is {d_c} away: {} nearer, more than twice {r}.", pair.nearer_by())
            }
            Why::Time(pair) => {
                let (b, c) = (self.card(pair.farther.slot), self.card(pair.nearer.slot));
                let (d_b, d_c) = (pair.farther.distance, pair.nearer.distance);
                format!(
                    "It is younger than card {c} and stands below card {b}, a sibling of that one. Card {b} is {d_b} \
                     away, and card {c} {d_c}: {} nearer, more than twice {r}.",
                    pair.nearer_by()
                )
            }
        }
    }

    /// What makes the rule right on a sound table.
    fn law(&self, record: &Record, why: &Why) -> String {
        let (pair, what) = match why {
            Why::Covering { reach } => return format!("All below it is within {reach} of it"),
            Why::Older(pair) => (pair, format!("All below card {}", record.card)),
            Why::Time(pair) => {
                let (b, c) = (self.card(pair.farther.slot), self.card(pair.nearer.slot));
                (pair, format!("What is below card {b} and younger than card {c}"))
            }
        };
        let (b, c) = (self.card(pair.farther.slot), self.card(pair.nearer.slot));
        format!(
            "{what} is no nearer to card {c} than to card {b}, so it is half of those {} away or more",
            pair.nearer_by()
        )
    }
}
