//! The named damages: which clause each violates, and how it is done to a well-formed table.

use super::row::Row;
use crate::judge::Clause;
use crate::random::Random;
use crate::record::{parse_table, table_bytes, RECORD};

/// A named damage.
#[derive(Clone, Copy, Debug, PartialEq, Eq)]
pub enum Wrong {
    /// A free record with one byte that is not zero.
    FreeByte,
    /// A used record's card set to 0, the rest left.
    CardZero,
    TimestampZero,
    CountOverEight,
    KindZero,
    KindThree,
    /// One record of the other kind.
    KindMixed,
    /// Every used record of the same unknown kind.
    KindUnknownAll,
    SlotPastCount,
    /// A child replaced by a slot that is not there.
    ChildOutOfRange,
    /// One more child counted, in a slot that is not there, often 65,535.
    ChildCountRaised,
    /// A child replaced by a free record, or a free record named besides.
    ChildFree,
    /// Record 0, which every free record seems to name as its parent, names one as its first child.
    ChildFreeOfRecordZero,
    /// A record named by one that is not its parent.
    ChildOfAnother,
    /// A record that names itself, or the root, as a child.
    ChildAbove,
    EqualCards,
    EqualTimestamps,
    NoRoot,
    TwoRoots,
    ParentOutOfRange,
    ParentFree,
    ParentNotOlder,
    ParentItself,
    /// A branch whose top hangs below its own bottom, apart from the root.
    ParentCycle,
    ChildMissing,
    ChildTwice,
    ChildrenNotRising,
}

impl Wrong {
    pub const ALL: [Wrong; 27] = [
        Wrong::FreeByte,
        Wrong::CardZero,
        Wrong::TimestampZero,
        Wrong::CountOverEight,
        Wrong::KindZero,
        Wrong::KindThree,
        Wrong::KindMixed,
        Wrong::KindUnknownAll,
        Wrong::SlotPastCount,
        Wrong::ChildOutOfRange,
        Wrong::ChildCountRaised,
        Wrong::ChildFree,
        Wrong::ChildFreeOfRecordZero,
        Wrong::ChildOfAnother,
        Wrong::ChildAbove,
        Wrong::EqualCards,
        Wrong::EqualTimestamps,
        Wrong::NoRoot,
        Wrong::TwoRoots,
        Wrong::ParentOutOfRange,
        Wrong::ParentFree,
        Wrong::ParentNotOlder,
        Wrong::ParentItself,
        Wrong::ParentCycle,
        Wrong::ChildMissing,
        Wrong::ChildTwice,
        Wrong::ChildrenNotRising,
    ];

    /// The clause that this damage violates, whatever else it does.
    pub fn clause(self) -> Clause {
        match self {
            Wrong::FreeByte | Wrong::CardZero => Clause::FreeNotZero,
            Wrong::TimestampZero => Clause::TimestampZero,
            Wrong::CountOverEight => Clause::CountOverEight,
            Wrong::KindZero | Wrong::KindThree | Wrong::KindUnknownAll => Clause::KindUnknown,
            Wrong::KindMixed => Clause::KindsDiffer,
            Wrong::SlotPastCount => Clause::SlotPastCount,
            Wrong::ChildOutOfRange | Wrong::ChildCountRaised => Clause::ChildOutOfRange,
            Wrong::ChildFree | Wrong::ChildFreeOfRecordZero => Clause::ChildFree,
            Wrong::ChildOfAnother | Wrong::ChildAbove => Clause::ChildOfAnother,
            Wrong::EqualCards => Clause::EqualCards,
            Wrong::EqualTimestamps => Clause::EqualTimestamps,
            Wrong::NoRoot => Clause::NoRoot,
            Wrong::TwoRoots => Clause::TwoRoots,
            Wrong::ParentOutOfRange => Clause::ParentOutOfRange,
            Wrong::ParentFree => Clause::ParentFree,
            Wrong::ParentNotOlder | Wrong::ParentItself | Wrong::ParentCycle => Clause::ParentNotOlder,
            Wrong::ChildMissing => Clause::MissingFromParent,
            Wrong::ChildTwice => Clause::TwiceInParent,
            Wrong::ChildrenNotRising => Clause::ChildrenNotRising,
        }
    }

    /// Does this damage to a well-formed table; false, and the table as it was, where the table has no place for it.
    pub fn apply(self, random: &mut Random, table: &mut [u8]) -> bool {
        let mut row = Row { random, records: parse_table(table) };
        let victim = row.damage(self);
        if let Some(slot) = victim {
            table.copy_from_slice(&table_bytes(&row.records));
            // A third of the damage moves to the last record, where a scan that stops early would miss it. Only the
            // damage that needs record 0 stays where it is.
            if self != Wrong::ChildFreeOfRecordZero && random.percent(33) {
                swap_slots(table, slot, (table.len() / RECORD - 1) as u16);
            }
        }
        victim.is_some()
    }
}

/// Two records change places, and every link to them follows. The table stays as right or as wrong as it was.
pub fn swap_slots(table: &mut [u8], one: u16, other: u16) {
    let mut records = parse_table(table);
    records.swap(usize::from(one), usize::from(other));
    let renamed = |slot: &mut u16| {
        if *slot == one {
            *slot = other;
        } else if *slot == other {
            *slot = one;
        }
    };
    for record in records.iter_mut().filter(|record| record.used()) {
        renamed(&mut record.parent);
        let count = record.children().len();
        record.slots[..count].iter_mut().for_each(renamed);
    }
    table.copy_from_slice(&table_bytes(&records));
}

impl Row<'_> {
    /// Does the damage and tells whose record it is in.
    fn damage(&mut self, wrong: Wrong) -> Option<u16> {
        match wrong {
            Wrong::FreeByte => self.free_byte(),
            Wrong::CardZero => self.with_used(|record, _| record.card = 0),
            Wrong::TimestampZero => self.timestamp_zero(),
            Wrong::CountOverEight => self.count_over_eight(),
            Wrong::KindZero => self.with_used(|record, _| record.kind = 0),
            Wrong::KindThree => self.with_used(|record, random| record.kind = random.pick(&[3, 4, 128, 129, 255])),
            Wrong::KindMixed => self.kind_mixed(),
            Wrong::KindUnknownAll => self.kind_unknown_all(),
            Wrong::SlotPastCount => self.slot_past_count(),
            Wrong::ChildOutOfRange => self.child_out_of_range(),
            Wrong::ChildCountRaised => self.child_count_raised(),
            Wrong::ChildFree => self.child_free(),
            Wrong::ChildFreeOfRecordZero => self.child_free_of_record_zero(),
            Wrong::ChildOfAnother => self.child_of_another(),
            Wrong::ChildAbove => self.child_above(),
            Wrong::EqualCards => self.equal_cards(),
            Wrong::EqualTimestamps => self.equal_timestamps(),
            Wrong::NoRoot => self.no_root(),
            Wrong::TwoRoots => self.two_roots(),
            Wrong::ParentOutOfRange => self.parent_out_of_range(),
            Wrong::ParentFree => self.parent_free(),
            Wrong::ParentNotOlder => self.parent_not_older(),
            Wrong::ParentItself => self.parent_itself(),
            Wrong::ParentCycle => self.parent_cycle(),
            Wrong::ChildMissing => self.child_missing(),
            Wrong::ChildTwice => self.child_twice(),
            Wrong::ChildrenNotRising => self.children_not_rising(),
        }
    }
}

#[cfg(test)]
mod tests {
    use super::*;
    use crate::assemble::any_table;
    use crate::judge::{judge, Verdict};
    use std::collections::BTreeMap;

    #[test]
    fn every_damage_violates_its_clause_and_often_no_other() {
        let mut random = Random::new(5);
        let mut alone: BTreeMap<Clause, usize> = BTreeMap::new();
        for wrong in Wrong::ALL {
            let mut done = 0;
            for _ in 0..600 {
                let mut table = any_table(&mut random);
                let before = table.clone();
                if !wrong.apply(&mut random, &mut table) {
                    assert_eq!(table, before);
                    continue;
                }
                done += 1;
                let violated = judge(&table).violated();
                assert!(violated.contains(&wrong.clause()), "{wrong:?} did {violated:?}");
                if violated.len() == 1 {
                    *alone.entry(wrong.clause()).or_default() += 1;
                }
            }
            assert!(done > 20, "{wrong:?} was done {done} times");
        }
        for clause in Clause::ALL {
            let times = alone.get(&clause).copied().unwrap_or(0);
            assert_eq!(times == 0, clause.follows_from_others(), "{clause:?} alone {times} times");
        }
    }

    #[test]
    fn changing_places_keeps_a_table_well_formed() {
        let mut random = Random::new(6);
        for _ in 0..300 {
            let mut table = any_table(&mut random);
            let records = table.len() / RECORD;
            let (one, other) = (random.below(records) as u16, random.below(records) as u16);
            swap_slots(&mut table, one, other);
            assert_eq!(judge(&table), Verdict::WellFormed);
        }
    }
}
