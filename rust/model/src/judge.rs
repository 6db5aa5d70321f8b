//! Whether a table is well formed, clause by clause in the paper's order, each clause on its own and by brute force.

use crate::distance::{FAULT_BITS, READINGS};
use crate::record::{parse_table, Record, CHILD_SLOTS, MOST_RECORDS, NO_SLOT, RECORD};
use std::collections::{BTreeSet, HashSet};

/// A way in which a table fails to be well formed.
#[derive(Clone, Copy, Debug, PartialEq, Eq, Hash, PartialOrd, Ord)]
pub enum Clause {
    FreeNotZero,
    TimestampZero,
    CountOverEight,
    KindUnknown,
    SlotPastCount,
    EqualCards,
    EqualTimestamps,
    KindsDiffer,
    NoRoot,
    TwoRoots,
    ParentOutOfRange,
    ParentFree,
    ParentNotOlder,
    MissingFromParent,
    TwiceInParent,
    ChildOutOfRange,
    ChildFree,
    ChildOfAnother,
    ChildrenNotRising,
}

#[derive(Clone, Debug, PartialEq, Eq)]
pub enum Verdict {
    WellFormed,
    Size,
    /// Not well formed: the first clause that fails, and all that do.
    Table(Clause, BTreeSet<Clause>),
}

impl Verdict {
    /// Every clause violated; none for a table of the wrong size.
    pub fn violated(&self) -> BTreeSet<Clause> {
        match self {
            Verdict::Table(_, all) => all.clone(),
            _ => BTreeSet::new(),
        }
    }
}

/// A multiple of 64 from 64 to 65,536.
pub fn size_is_right(length: usize) -> bool {
    (1..=MOST_RECORDS).any(|records| length == records * RECORD)
}

pub fn judge(table: &[u8]) -> Verdict {
    if !size_is_right(table.len()) {
        return Verdict::Size;
    }
    let records = parse_table(table);
    let all: BTreeSet<Clause> = Clause::ALL.into_iter().filter(|clause| clause.violated_by(&records)).collect();
    match all.first() {
        None => Verdict::WellFormed,
        Some(first) => Verdict::Table(*first, all),
    }
}

impl Clause {
    pub const ALL: [Clause; 19] = [
        Clause::FreeNotZero,
        Clause::TimestampZero,
        Clause::CountOverEight,
        Clause::KindUnknown,
        Clause::SlotPastCount,
        Clause::EqualCards,
        Clause::EqualTimestamps,
        Clause::KindsDiffer,
        Clause::NoRoot,
        Clause::TwoRoots,
        Clause::ParentOutOfRange,
        Clause::ParentFree,
        Clause::ParentNotOlder,
        Clause::MissingFromParent,
        Clause::TwiceInParent,
        Clause::ChildOutOfRange,
        Clause::ChildFree,
        Clause::ChildOfAnother,
        Clause::ChildrenNotRising,
    ];

    pub fn name(self) -> &'static str {
        match self {
            Clause::FreeNotZero => "card 0 but not all zero",
            Clause::TimestampZero => "timestamp 0",
            Clause::CountOverEight => "child count over 8",
            Clause::KindUnknown => "kind not 1 or 2",
            Clause::SlotPastCount => "child slot past the count not 65,535",
            Clause::EqualCards => "equal cards",
            Clause::EqualTimestamps => "equal timestamps",
            Clause::KindsDiffer => "kinds differ",
            Clause::NoRoot => "no root",
            Clause::TwoRoots => "two roots",
            Clause::ParentOutOfRange => "parent out of range",
            Clause::ParentFree => "parent free",
            Clause::ParentNotOlder => "parent's timestamp not smaller",
            Clause::MissingFromParent => "missing from the parent's child slots",
            Clause::TwiceInParent => "twice in the parent's child slots",
            Clause::ChildOutOfRange => "child out of range",
            Clause::ChildFree => "child free",
            Clause::ChildOfAnother => "child of another parent",
            Clause::ChildrenNotRising => "children not in rising timestamp order",
        }
    }

    /// Whether the clause can only be violated together with another one. Without a root, the oldest record's parent
    /// is not a used older one; a free parent has no child slots within its count; a child standing twice does not
    /// rise. A judge may leave these three out and still be right.
    pub fn follows_from_others(self) -> bool {
        matches!(self, Clause::NoRoot | Clause::ParentFree | Clause::TwiceInParent)
    }

    /// Whether the records violate this clause, read from the fields as they stand wherever a slot names a record.
    pub fn violated_by(self, records: &[Record]) -> bool {
        let row = Row(records);
        let of_used = |wrong: fn(&Record) -> bool| row.used().any(|(_, record)| wrong(record));
        match self {
            Clause::FreeNotZero => records.iter().any(|record| !record.used() && *record != Record::free()),
            Clause::TimestampZero => of_used(|record| record.timestamp == 0),
            Clause::CountOverEight => of_used(|record| usize::from(record.count) > CHILD_SLOTS),
            Clause::KindUnknown => of_used(|record| ![READINGS, FAULT_BITS].contains(&record.kind)),
            Clause::SlotPastCount => of_used(|record| {
                (0..CHILD_SLOTS).any(|place| place >= usize::from(record.count) && record.slots[place] != NO_SLOT)
            }),
            Clause::EqualCards => row.values(|record| record.card) < row.used().count(),
            Clause::EqualTimestamps => row.values(|record| record.timestamp) < row.used().count(),
            Clause::KindsDiffer => row.values(|record| u32::from(record.kind)) > 1,
            Clause::NoRoot => row.used().count() > 0 && row.roots() == 0,
            Clause::TwoRoots => row.roots() > 1,
            Clause::ParentOutOfRange => row.below_root().any(|(_, record)| row.named(record.parent).is_none()),
            Clause::ParentFree => row.with_parent().any(|(_, _, parent)| !parent.used()),
            Clause::ParentNotOlder => row.with_parent().any(|(_, record, parent)| parent.timestamp >= record.timestamp),
            Clause::MissingFromParent => row.with_parent().any(|(slot, _, parent)| times_in(parent, slot) == 0),
            Clause::TwiceInParent => row.with_parent().any(|(slot, _, parent)| times_in(parent, slot) > 1),
            Clause::ChildOutOfRange => row.links().any(|(_, child)| child.is_none()),
            Clause::ChildFree => row.links().any(|(_, child)| child.is_some_and(|record| !record.used())),
            Clause::ChildOfAnother => {
                row.links().any(|(slot, child)| child.is_some_and(|record| record.parent != slot))
            }
            Clause::ChildrenNotRising => row.used().any(|(_, record)| !row.children_rise(record)),
        }
    }
}

/// How often a slot stands among a record's child slots.
fn times_in(parent: &Record, slot: u16) -> usize {
    parent.children().iter().filter(|child| **child == slot).count()
}

/// The records of a table being judged, and what the clauses speak of.
#[derive(Clone, Copy)]
struct Row<'a>(&'a [Record]);

impl<'a> Row<'a> {
    /// Every used record with its slot.
    fn used(self) -> impl Iterator<Item = (u16, &'a Record)> {
        self.0.iter().enumerate().filter(|(_, record)| record.used()).map(|(slot, record)| (slot as u16, record))
    }

    fn roots(self) -> usize {
        self.used().filter(|(_, record)| record.is_root()).count()
    }

    fn below_root(self) -> impl Iterator<Item = (u16, &'a Record)> {
        self.used().filter(|(_, record)| !record.is_root())
    }

    /// The record that a slot number names, if there is one.
    fn named(self, slot: u16) -> Option<&'a Record> {
        self.0.get(usize::from(slot))
    }

    /// How many distinct values the used records have.
    fn values(self, value: fn(&Record) -> u32) -> usize {
        self.used().map(|(_, record)| value(record)).collect::<HashSet<_>>().len()
    }

    /// Every used record that names a parent in the table, with its slot and that parent.
    fn with_parent(self) -> impl Iterator<Item = (u16, &'a Record, &'a Record)> {
        let parent = move |(slot, record): (u16, &'a Record)| Some((slot, record, self.named(record.parent)?));
        self.below_root().filter_map(parent)
    }

    /// Every child slot within the count: the slot of its record, and the record that it names, if any.
    fn links(self) -> impl Iterator<Item = (u16, Option<&'a Record>)> {
        self.used().flat_map(move |(slot, a)| a.children().iter().map(move |child| (slot, self.named(*child))))
    }

    /// Whether the children that are there stand in rising timestamp order, each against all before it.
    fn children_rise(self, record: &Record) -> bool {
        let children = record.children().iter().filter_map(|child| self.named(*child));
        let ages: Vec<u32> = children.map(|child| child.timestamp).collect();
        (0..ages.len()).all(|younger| (0..younger).all(|older| ages[older] < ages[younger]))
    }
}
