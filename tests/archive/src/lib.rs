//! Compares libpattern.a and libdbm0.a with the independent second program.

#![forbid(unsafe_code)]

pub mod all_records;
pub mod compare;
pub mod comparing;
pub mod large;
pub mod masks;
pub mod modules;
pub mod queries;
pub mod records;
pub mod repacking;
pub mod replacing;
pub mod seeds;
pub mod stand_ins;
pub mod writing;
