//! The refusal numbers of the paper's table, in the order in which they are tested.

pub const DONE: u32 = 0;
pub const SIZE: u32 = 1;
pub const TABLE: u32 = 2;
pub const ARGUMENT: u32 = 3;
pub const KIND: u32 = 4;
pub const TWICE: u32 = 5;
pub const ABSENT: u32 = 6;
pub const FULL: u32 = 7;
pub const CLOCK: u32 = 8;
pub const SHORT: u32 = 9;
pub const LOOSE: u32 = 10;

/// What each call can answer: done, and the refusals that the paper gives it. The last two calls go beyond the paper.
pub const OF_CALLS: [(&str, &[u32]); 8] = [
    ("clear", &[DONE, SIZE]),
    ("insert", &[DONE, SIZE, TABLE, ARGUMENT, KIND, TWICE, FULL, CLOCK]),
    ("delete", &[DONE, SIZE, TABLE, ARGUMENT, ABSENT, CLOCK]),
    ("search", &[DONE, SIZE, TABLE, ARGUMENT, KIND, SHORT]),
    ("nearest", &[DONE, SIZE, TABLE, ARGUMENT, KIND, SHORT]),
    ("check", &[DONE, SIZE, TABLE, LOOSE]),
    ("cards", &[DONE, SIZE, TABLE, SHORT]),
    ("card", &[DONE, SIZE, TABLE, ARGUMENT, ABSENT, SHORT]),
];

/// The name that the paper gives to a refusal number.
pub fn name(refusal: u32) -> &'static str {
    const NAMES: [&str; 11] =
        ["done", "SIZE", "TABLE", "ARGUMENT", "KIND", "TWICE", "ABSENT", "FULL", "CLOCK", "SHORT", "LOOSE"];
    NAMES.get(refusal as usize).copied().unwrap_or("unknown")
}
