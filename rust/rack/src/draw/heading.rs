//! What stands above and below a drawing: the table in a few words, the search, and the sentence that says why nothing
//! near was missed, or that something may have been.

use super::walk::Fate;
use super::words::{cards, signature, Drawn};
use crate::text::many;
use plotvuga::Kind;

/// A sentence of the heading; a warning is drawn so that it can't be overlooked.
pub enum Sentence {
    Plain(String),
    Warning(String),
}

impl Drawn<'_> {
    /// What the table holds, and whether it is sound.
    pub fn table(&self) -> Vec<Sentence> {
        let (stored, records) = (self.tree.stored(), many(self.tree.records(), "record"));
        let kind = match self.tree.kind() {
            Some(Kind::Readings) => ", kind 1 (readings)",
            Some(Kind::Faults) => ", kind 2 (fault masks)",
            None => "",
        };
        let sound = if self.sound { "; sound: no search misses a near card" } else { "; NOT SOUND" };
        let mut lines = vec![Sentence::Plain(match stored {
            0 => format!("No card is stored: the table is empty. It has {records}, all free."),
            _ => format!("{} stored in {records}{kind}{sound}.", many(stored, "card")),
        })];
        if !self.sound {
            // The library speaks of a cleared table; whoever clears this one has lost its cards.
            let told = "WARNING: the table is not sound, so a search can miss a card; check tells how to mend it.";
            lines.push(Sentence::Warning(told.to_string()));
        }
        lines
    }

    /// What was looked for, and what came of it.
    pub fn search(&self) -> Vec<Sentence> {
        let Some(walk) = self.walk else { return Vec::new() };
        let listed = match walk.cards.len() {
            0 => "none listed".to_string(),
            count => format!("{count} listed: {}", cards(&walk.cards)),
        };
        vec![
            Sentence::Plain(format!("Search for {}; radius {}.", signature(&walk.query), walk.radius)),
            Sentence::Plain(format!("{} of {} compared, {listed}.", walk.distances, many(self.tree.stored(), "card"))),
        ]
    }

    /// Why nothing near was missed; or a warning, where that can't be said.
    pub fn closing(&self) -> Option<Sentence> {
        let walk = self.walk?;
        if !walk.missed.is_empty() {
            return Some(Sentence::Warning(format!(
                "MISSED: {} within the radius {} not listed: {}.",
                many(walk.missed.len(), "card"),
                if walk.missed.len() == 1 { "is" } else { "are" },
                cards(&walk.missed)
            )));
        }
        let skipped = self.tree.stored() - walk.distances as usize;
        if !self.sound {
            let told =
                "No near card was missed this time, as every distance worked out shows; another search may miss one.";
            return Some(Sentence::Warning(told.to_string()));
        }
        let cut = self.tree.in_order().filter(|(record, _)| {
            !record.children.is_empty() && matches!(walk.fate(record.slot), Some(Fate::NotEntered { .. }))
        });
        let least = cut.filter_map(|(record, _)| walk.least(record.slot)).min();
        Some(Sentence::Plain(match (self.tree.stored(), least) {
            (0, _) => "Nothing near was missed: there is no card.".to_string(),
            (_, None) => "Nothing near was missed: every card was compared.".to_string(),
            (_, Some(least)) => format!(
                "Nothing near was missed: {}, and from there down nothing is nearer than {least}. The radius is {}.",
                match skipped {
                    1 => "1 card was not compared; it stands below a record that was not entered".to_string(),
                    _ => format!("{skipped} cards were not compared; they stand below records that were not entered"),
                },
                walk.radius
            ),
        }))
    }
}
