//! The proved library against the independent model: edges by name, and many random histories. Everything lent to the
//! library stands between guard bytes, and counts and kinds are lent full of ones.

pub mod doors;
pub mod edges;
pub mod groups;
pub mod guarded;
pub mod starts;
