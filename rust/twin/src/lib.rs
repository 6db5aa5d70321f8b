//! The library's twin: the same calls, the same algorithm and the same validation, in place over the same bytes,
//! in plain safe Rust and not proved. It is the yardstick of the benchmarks, so it is written to be fast.

pub mod calls;
pub mod check;
pub mod judge;
pub mod nearest;
pub mod place;
pub mod record;
pub mod stored;
pub mod walk;

pub use calls::{clear, delete, insert, search};
pub use check::check;
pub use model::index::{Answer, Nearest, Pair, Search};
pub use nearest::nearest;
pub use stored::{card, cards};
