//! The independent second program.
//!
//! It is written only from the rules of the format (docs/FORMAT.md), in plain Rust. It is slow and simple on purpose: it first collects the
//! entries of a stream, or the chunks and blocks of a module, and then checks them. It makes the corpus on which the proved library runs,
//! and the expected output of each case.

#![forbid(unsafe_code)]

pub mod all_records;
pub mod blocks;
pub mod chunks;
pub mod compare;
pub mod corpus;
pub mod draft;
pub mod expect;
pub mod generate;
pub mod listing;
pub mod module;
pub mod pairs;
pub mod part;
pub mod pattern;
pub mod records;
pub mod refusal;
pub mod repack;
pub mod replace;
pub mod rules;
pub mod tunes;
