//! An independent model of the index, written from the paper and its later requests alone and in the most obvious way:
//! a table is parsed into records, judged clause by clause, turned into a real tree, worked on, and serialised back.
//! The proved library is compared with it call by call and byte by byte.

pub mod assemble;
pub mod calls;
pub mod compare;
pub mod damage;
pub mod distance;
pub mod history;
pub mod index;
pub mod judge;
pub mod nearest;
pub mod program;
pub mod random;
pub mod record;
pub mod refusal;
pub mod scan;
pub mod signature;
pub mod soundness;
pub mod tree;
