//! Tables made wrong on purpose: one named damage for each way in which a table can fail to be well formed, done so
//! that often nothing else is wrong; blind damage to bytes, fields and links; and tables well formed but not sound.

mod blind;
mod children;
mod fields;
mod loose;
mod parents;
mod row;
mod wrong;

pub use blind::Blind;
pub use loose::loosen;
pub use wrong::{swap_slots, Wrong};
