//! The tree that a table holds, read from its bytes once the library has judged them well formed: the paper's record,
//! field by field, and the records in the order in which a picture goes through them.

use plotvuga::{Kind, Refusal, Signature, RECORD};

// Where a record's fields begin, by the paper's table.
const CARD: usize = 0;
const TIMESTAMP: usize = 4;
const RADIUS: usize = 8;
const PARENT: usize = 12;
const COUNT: usize = 14;
const KIND: usize = 15;
const CHILDREN: usize = 16;
const SIGNATURE: usize = 32;
/// The slot that stands for none: the root's parent.
const NO_SLOT: usize = 65_535;

/// A stored card's record.
#[derive(Clone, Debug, PartialEq, Eq)]
pub struct Record {
    pub slot: usize,
    pub card: u32,
    /// The timestamp: a smaller one is older.
    pub age: u32,
    /// The covering radius: on a sound table no card below is farther from this one.
    pub radius: u32,
    /// The parent's slot; none for the root.
    pub parent: Option<usize>,
    /// The children's slots, oldest first.
    pub children: Vec<usize>,
    pub signature: Signature,
}

/// A table's records as a tree.
#[derive(Clone, Debug)]
pub struct Tree {
    bytes: Vec<u8>,
    /// By slot; free ones are none.
    records: Vec<Option<Record>>,
    /// Every used slot with its level below the root, which is 0: a parent before its children, these oldest first.
    order: Vec<(usize, usize)>,
}

impl Tree {
    /// The tree of a table that the library has judged well formed.
    ///
    /// # Errors
    /// [`Refusal::Size`], then [`Refusal::Table`]: the bytes are no well-formed table.
    pub fn of(bytes: &[u8]) -> Result<Tree, Refusal> {
        plotvuga::stored(bytes)?;
        let records: Vec<_> = bytes.chunks_exact(RECORD).enumerate().map(|(slot, row)| Record::of(slot, row)).collect();
        let mut tree = Tree { bytes: bytes.to_vec(), records, order: Vec::new() };
        // A stack of its own, since a chain has 1,024 levels.
        let root = tree.records.iter().flatten().find(|record| record.parent.is_none());
        let mut waiting: Vec<_> = root.map(|record| (record.slot, 0)).into_iter().collect();
        while let Some((slot, level)) = waiting.pop() {
            tree.order.push((slot, level));
            waiting.extend(tree.at(slot).children.iter().rev().map(|child| (*child, level + 1)));
        }
        Ok(tree)
    }

    pub fn root(&self) -> Option<&Record> {
        self.order.first().map(|(slot, _)| self.at(*slot))
    }

    /// The record of a used slot.
    pub fn record(&self, slot: usize) -> Option<&Record> {
        self.records.get(slot)?.as_ref()
    }

    /// The number of records, free ones too.
    pub fn records(&self) -> usize {
        self.records.len()
    }

    /// The number of stored cards.
    pub fn stored(&self) -> usize {
        self.order.len()
    }

    /// The kind of all stored cards; none in an empty table.
    pub fn kind(&self) -> Option<Kind> {
        self.root().map(|record| record.signature.kind())
    }

    /// The table's bytes.
    pub fn bytes(&self) -> &[u8] {
        &self.bytes
    }

    /// Every stored card's record with its level below the root, a parent before its children, these oldest first: the
    /// order in which a search that enters everything comes upon them.
    pub fn in_order(&self) -> impl DoubleEndedIterator<Item = (&Record, usize)> {
        self.order.iter().map(|(slot, level)| (self.at(*slot), *level))
    }

    /// The record of a slot that the tree itself named.
    pub(super) fn at(&self, slot: usize) -> &Record {
        self.record(slot).expect("in a well-formed table every slot that a record names is used")
    }
}

impl Record {
    /// The record in these bytes; none if it is free.
    fn of(slot: usize, row: &[u8]) -> Option<Record> {
        let four = |at: usize| u32::from_le_bytes(std::array::from_fn(|byte| row[at + byte]));
        let two = |at: usize| usize::from(u16::from_le_bytes([row[at], row[at + 1]]));
        if four(CARD) == 0 {
            return None;
        }
        let kind = Kind::from_number(row[KIND]).expect("in a well-formed table every kind is 1 or 2");
        Some(Record {
            slot,
            card: four(CARD),
            age: four(TIMESTAMP),
            radius: four(RADIUS),
            parent: Some(two(PARENT)).filter(|parent| *parent != NO_SLOT),
            children: (0..usize::from(row[COUNT])).map(|place| two(CHILDREN + 2 * place)).collect(),
            signature: Signature::from_bytes(kind, std::array::from_fn(|byte| row[SIGNATURE + byte])),
        })
    }
}
