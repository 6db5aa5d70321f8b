//! One record of 64 bytes, and a table as a row of them. Reading judges nothing: any 64 bytes are some record.

use crate::distance::{Signature, SIGNATURE};

/// The bytes of a record.
pub const RECORD: usize = 64;
/// The most records that a table has.
pub const MOST_RECORDS: usize = 1024;
/// The child slots of a record.
pub const CHILD_SLOTS: usize = 8;
/// The root's parent, and every child slot past the count.
pub const NO_SLOT: u16 = 65_535;

#[derive(Clone, Debug, PartialEq, Eq)]
pub struct Record {
    pub card: u32,
    pub timestamp: u32,
    pub radius: u32,
    pub parent: u16,
    pub count: u8,
    pub kind: u8,
    pub slots: [u16; CHILD_SLOTS],
    pub signature: Signature,
}

impl Record {
    pub fn free() -> Record {
        Record::parse(&[0; RECORD])
    }

    pub fn parse(bytes: &[u8]) -> Record {
        let mut rest = bytes.iter().copied();
        let mut number = |width: u32| (0..width).map(|place| u32::from(rest.next().unwrap()) << (8 * place)).sum();
        Record {
            card: number(4),
            timestamp: number(4),
            radius: number(4),
            parent: number(2) as u16,
            count: number(1) as u8,
            kind: number(1) as u8,
            slots: std::array::from_fn(|_| number(2) as u16),
            signature: std::array::from_fn::<u8, SIGNATURE, _>(|_| number(1) as u8),
        }
    }

    pub fn bytes(&self) -> [u8; RECORD] {
        let mut bytes = Vec::with_capacity(RECORD);
        bytes.extend(self.card.to_le_bytes());
        bytes.extend(self.timestamp.to_le_bytes());
        bytes.extend(self.radius.to_le_bytes());
        bytes.extend(self.parent.to_le_bytes());
        bytes.extend([self.count, self.kind]);
        bytes.extend(self.slots.iter().flat_map(|slot| slot.to_le_bytes()));
        bytes.extend(self.signature);
        bytes.try_into().unwrap()
    }

    pub fn used(&self) -> bool {
        self.card != 0
    }

    pub fn is_root(&self) -> bool {
        self.used() && self.parent == NO_SLOT
    }

    /// The child slots within the count; a count over 8 takes in all eight.
    pub fn children(&self) -> &[u16] {
        &self.slots[..usize::from(self.count).min(CHILD_SLOTS)]
    }

    /// Gives the record these children, at most eight, and 65,535 past them.
    pub fn set_children(&mut self, children: &[u16]) {
        self.count = children.len() as u8;
        self.slots = [NO_SLOT; CHILD_SLOTS];
        self.slots[..children.len()].copy_from_slice(children);
    }
}

/// The records of a table whose length is right.
pub fn parse_table(table: &[u8]) -> Vec<Record> {
    table.chunks(RECORD).map(Record::parse).collect()
}

pub fn table_bytes(records: &[Record]) -> Vec<u8> {
    records.iter().flat_map(Record::bytes).collect()
}

#[cfg(test)]
mod tests {
    use super::*;
    use crate::random::Random;

    #[test]
    fn there_and_back_is_the_same() {
        let mut random = Random::new(3);
        for _ in 0..1000 {
            let bytes: [u8; RECORD] = std::array::from_fn(|_| random.byte());
            assert_eq!(Record::parse(&bytes).bytes(), bytes);
        }
    }

    #[test]
    fn fields_stand_where_the_paper_has_them() {
        let bytes: [u8; RECORD] = std::array::from_fn(|at| at as u8);
        let record = Record::parse(&bytes);
        assert_eq!(record.card, 0x0302_0100);
        assert_eq!(record.timestamp, 0x0706_0504);
        assert_eq!(record.radius, 0x0b0a_0908);
        assert_eq!(record.parent, 0x0d0c);
        assert_eq!((record.count, record.kind), (14, 15));
        assert_eq!(record.slots, [0x1110, 0x1312, 0x1514, 0x1716, 0x1918, 0x1b1a, 0x1d1c, 0x1f1e]);
        assert_eq!(record.signature[..], bytes[32..]);
    }
}
