//! The index in a file, for the bench: what `rack`, the program, is made of.
//!
//! A table stands in a file, its bytes and nothing else ([`store`]). Words are read as requests ([`said`]), requests
//! are carried out by the proved library ([`call`]), in groups that are put into the file at once ([`group`]), and
//! answered in words or as objects ([`output`]). [`draw`] shows the tree and a search's way through it.

pub mod advice;
pub mod answer;
pub mod apart;
pub mod ask;
pub mod call;
pub mod draw;
pub mod failure;
pub mod group;
pub mod kind;
pub mod lines;
pub mod name;
pub mod object;
pub mod output;
pub mod picture;
pub mod progress;
pub mod request;
pub mod run;
pub mod said;
pub mod store;
pub mod text;
