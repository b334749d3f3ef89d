//! Positions made by chance: quiet ones, ones in the middle of a combat, and ones that a single rule decides.

pub mod breaks;
pub mod crowds;
pub mod dead_ends;
pub mod forces;
pub mod ground;
pub mod groups;
pub mod neutrals;
pub mod scene;
pub mod staged;
pub mod supply_lines;
pub mod units;
