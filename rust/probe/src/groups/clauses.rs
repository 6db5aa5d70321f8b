//! Which clauses of well-formedness the damaged tables violated, so that none goes untried.

use super::Run;
use crate::tally::Group;
use model::judge::Clause;
use std::collections::BTreeMap;

/// For each clause: the tables that violate it, those that violate no other, and those that were refused.
#[derive(Clone, Copy, Debug, Default)]
pub struct Hits {
    pub violated: usize,
    pub alone: usize,
    pub refused: usize,
}

pub type Clauses = BTreeMap<Clause, Hits>;

impl Run<'_> {
    /// One line for each clause; a clause never violated, or never alone though it can be, fails.
    pub fn clauses(&mut self, clauses: &Clauses) {
        let mut group = Group::new("clauses of well-formedness hit by damaged tables");
        for clause in Clause::ALL {
            let hits = clauses.get(&clause).copied().unwrap_or_default();
            let alone = if clause.follows_from_others() {
                "never alone, as it follows from others".to_string()
            } else {
                format!("alone in {}", hits.alone)
            };
            let share = 100.0 * hits.refused as f64 / hits.violated.max(1) as f64;
            (self.print)(&format!(
                "  clause {}: violated by {} tables ({alone}), refused {} ({share:.2} %)",
                clause.name(),
                hits.violated,
                hits.refused,
            ));
            let hit = hits.violated > 0 && (hits.alone > 0 || clause.follows_from_others());
            group.count(hit, 0, || format!("no damaged table tells whether {:?} is judged", clause.name()));
        }
        self.finish(group);
    }
}
