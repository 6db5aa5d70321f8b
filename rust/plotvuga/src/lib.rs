//! A similarity index for failed relay cards: which stored cards look like this one? The work is done by the proved
//! library, which this crate links; here is what makes it safe and pleasant to call from Rust.
//!
//! A card's [`Signature`] is sixteen readings or 256 fault bits. Cards are stored in a table of bytes, 64 for each
//! record, 1 to 1,024 records, which the caller holds or lends. A search lists every stored card within a radius, each
//! once, and [`nearest`] the few that are nearest, with their distances; that none is missed is proved of every table
//! that these calls have made. Tables may come from anywhere: every call but clear judges the whole table first, and a
//! [`Refusal`] leaves everything as it was.
//!
//! The stack is the caller's to give: 512 KB suffice for every call, and each says how much it takes. A thread that
//! Rust starts has 2 MB unless told otherwise.
//!
//! ```
//! use plotvuga::{Refusal, Signature, Table};
//!
//! fn main() -> Result<(), Refusal> {
//!     // Reading 0 as given, the others 0.
//!     let card = |reading: u16| {
//!         let mut readings = [0; 16];
//!         readings[0] = reading;
//!         Signature::readings(readings)
//!     };
//!
//!     let mut table = Table::new(512)?;
//!     for (number, reading) in [(11, 50), (12, 80), (13, 20), (14, 52), (15, 40), (16, 78)] {
//!         table.insert(number, &card(reading), 2)?;
//!     }
//!
//!     let near = table.search(&card(48), 5)?;
//!     assert_eq!(near.cards, [11, 14]);
//!     assert_eq!(near.distances, 5);
//!
//!     // The nearest three, whatever their distance.
//!     let few: Vec<_> = table.nearest(&card(48), 3)?.pairs.iter().map(|pair| (pair.card, pair.distance)).collect();
//!     assert_eq!(few, [(11, 2), (14, 4), (15, 8)]);
//!
//!     table.delete(12, 2)?;
//!     assert_eq!(table.delete(99, 2), Err(Refusal::Absent));
//!     assert_eq!(table.search(&card(48), 5)?.cards, [11, 14]);
//!
//!     // What is stored, with what, and how much room is left.
//!     assert_eq!(table.cards()?.collect::<Vec<_>>(), [11, 13, 14, 15, 16]);
//!     assert_eq!(table.card(14)?, card(52));
//!     assert_eq!((table.stored()?, table.free()?), (5, 507));
//!     table.check()
//! }
//! ```
//!
//! Without a heap: the same calls are functions over lent slices.
//!
//! ```
//! let mut table = [0u8; 8 * plotvuga::RECORD];
//! let mut list = [0u32; 8];
//! let faults = plotvuga::Signature::faults([0b1011, 0, 0, 1 << 63]);
//! plotvuga::insert(&mut table, 7, &faults, 4)?;
//! let found = plotvuga::search(&table, &plotvuga::Signature::faults([0; 4]), 4, &mut list)?;
//! assert_eq!(found.cards, [7]);
//! assert_eq!(plotvuga::cards(&table, &mut list)?, [7]);
//! assert_eq!(plotvuga::card(&table, 7)?, faults);
//! # Ok::<(), plotvuga::Refusal>(())
//! ```

#![deny(unsafe_op_in_unsafe_fn)]
#![warn(missing_docs)]

mod calls;
pub mod library;
mod refusal;
mod signature;
mod table;

pub use calls::{card, cards, check, clear, delete, free, insert, nearest, search, stored};
pub use calls::{Deleted, Found, Inserted, Nearest, Pair};
pub use refusal::Refusal;
pub use signature::{Kind, Signature};
pub use table::{Cards, Pairs, Stored, Table, MOST_NEAREST, MOST_RECORDS, RECORD};
