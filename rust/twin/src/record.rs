//! The fields of a record where they stand in the table, and the two distances.

pub const RECORD: usize = 64;
pub const MOST_RECORDS: usize = 1024;
pub const CHILD_SLOTS: usize = 8;
pub const NO_SLOT: u16 = 65_535;
pub const SIGNATURE: usize = 32;

pub type Record = [u8; RECORD];
pub type Signature = [u8; SIGNATURE];

/// The table as whole records; its length has been judged.
#[inline]
pub fn records(table: &[u8]) -> &[Record] {
    table.as_chunks().0
}

#[inline]
pub fn records_mut(table: &mut [u8]) -> &mut [Record] {
    table.as_chunks_mut().0
}

#[inline]
fn number(record: &Record, at: usize) -> u32 {
    u32::from_le_bytes([record[at], record[at + 1], record[at + 2], record[at + 3]])
}

#[inline]
fn slot(record: &Record, at: usize) -> u16 {
    u16::from_le_bytes([record[at], record[at + 1]])
}

#[inline]
pub fn card(record: &Record) -> u32 {
    number(record, 0)
}

#[inline]
pub fn timestamp(record: &Record) -> u32 {
    number(record, 4)
}

#[inline]
pub fn radius(record: &Record) -> u32 {
    number(record, 8)
}

#[inline]
pub fn parent(record: &Record) -> u16 {
    slot(record, 12)
}

#[inline]
pub fn count(record: &Record) -> usize {
    usize::from(record[14])
}

#[inline]
pub fn kind(record: &Record) -> u8 {
    record[15]
}

#[inline]
pub fn child(record: &Record, place: usize) -> u16 {
    slot(record, 16 + 2 * place)
}

/// All eight child slots, the first lowest.
#[inline]
pub fn child_slots(record: &Record) -> u128 {
    u128::from_le_bytes(record[16..32].try_into().unwrap())
}

#[inline]
pub fn signature(record: &Record) -> &Signature {
    record.last_chunk().unwrap()
}

#[inline]
pub fn set_timestamp(record: &mut Record, timestamp: u32) {
    record[4..8].copy_from_slice(&timestamp.to_le_bytes());
}

#[inline]
pub fn set_radius(record: &mut Record, radius: u32) {
    record[8..12].copy_from_slice(&radius.to_le_bytes());
}

#[inline]
pub fn set_parent(record: &mut Record, parent: u16) {
    record[12..14].copy_from_slice(&parent.to_le_bytes());
}

#[inline]
pub fn set_child(record: &mut Record, place: usize, child: u16) {
    record[16 + 2 * place..18 + 2 * place].copy_from_slice(&child.to_le_bytes());
}

/// No child: a count of 0 and 65,535 in every child slot.
#[inline]
pub fn set_no_child(record: &mut Record) {
    record[14] = 0;
    record[16..32].fill(255);
}

/// The distance of the given kind, 1 or 2.
#[inline]
pub fn distance(kind: u8, a: &Signature, b: &Signature) -> u32 {
    if kind == 1 {
        let reading = |s: &Signature, at: usize| i32::from(u16::from_le_bytes([s[2 * at], s[2 * at + 1]]));
        (0..16).map(|at| (reading(a, at) - reading(b, at)).unsigned_abs()).sum()
    } else {
        let words = |s: &Signature| -> [u64; 4] {
            std::array::from_fn(|word| u64::from_le_bytes(s[8 * word..8 * word + 8].try_into().unwrap()))
        };
        let (a, b) = (words(a), words(b));
        (0..4).map(|word| (a[word] ^ b[word]).count_ones()).sum()
    }
}
