//! What the tests share: a plain reading of the definitions to compare with,
//! random dictionaries and texts, the ways to damage them, and calls that hold
//! the library to all that it says of the slices lent.

pub mod admission;
pub mod building;
pub mod call;
pub mod damage;
pub mod delivery;
pub mod dictionary;
pub mod entries;
pub mod first;
pub mod gap_damage;
pub mod gaps;
pub mod index_damage;
pub mod lent;
pub mod lists;
pub mod lookup;
pub mod oracle;
pub mod random;
pub mod reading;
pub mod reception;
pub mod searching;
pub mod sheet;
pub mod text;
