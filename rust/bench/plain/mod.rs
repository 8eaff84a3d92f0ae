//! The library's algorithms in plain Rust: what the proved code is timed
//! beside. Each answers as the library does, with a refusal by its number.

pub mod admission;
pub mod building;
pub mod cutting;
pub mod directory;
pub mod first;
pub mod gaps;
pub mod matching;
pub mod readability;
pub mod reception;
pub mod searching;
pub mod text_scan;
pub mod width;

pub use readability::Query;
