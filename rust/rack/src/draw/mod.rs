//! The tree as it stands in a table, drawn: for a browser (`svg`) and for a terminal (`text`). With a search, the
//! drawing tells of every record what the search did there, and why nothing near was missed.

mod boxes;
mod heading;
pub mod layout;
mod overview;
mod svg;
mod text;
mod tree;
mod walk;
mod words;

pub use svg::svg;
pub use text::text;
pub use tree::{Record, Tree};
pub use walk::{Fate, Met, Siblings, Unlike, Walk, Why};
pub use words::{Drawn, Mark};
