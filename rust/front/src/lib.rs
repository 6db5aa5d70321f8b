//! Readable lines turned into the bench program's command records.
//!
//! | line | what it asks for |
//! |---|---|
//! | `insert 11 kind 1 arity 2 readings 50 7` | store card 11 |
//! | `insert 11 kind 2 arity 2 mask 0f80` | the same with fault bits |
//! | `delete 12 arity 2` | remove card 12 |
//! | `search kind 1 radius 5 readings 48` | the cards within 5 of these readings |
//! | `check` | whether the table is sound |
//!
//! Up to sixteen readings, 0 to 65,535; missing ones are 0. A mask is hexadecimal, two digits for a byte, byte 0 first
//! and in each byte bit 0 lowest, up to 32 bytes; missing ones are 0. Readings and mask end a line; the words before
//! them stand in any order. `#` begins a comment. Every number that its field can hold is let through, so that the
//! program's own refusals can be asked for: card 0, arity 9, kind 3. `cards`, the program, skips a byte order mark
//! before the first line.

mod line;
mod record;
pub mod words;

pub use line::command;
pub use record::{Command, Operation, RECORD};
pub use words::{shown, Fault};
