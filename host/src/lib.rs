//! A second referee for the land rules of Invasion: America, written from the documents alone.
//!
//! Folders import one way: `record` from `rules`, `coverage` from both, `generator` from all three; `upkeep` from `rules`
//! and `record`. No file imports one that imports it, by whatever detour.

pub mod coverage;
pub mod generator;
pub mod record;
pub mod rules;
pub mod upkeep;
