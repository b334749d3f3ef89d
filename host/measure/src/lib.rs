//! What a call of the proved library costs. The positions are made by the second referee's types.

pub mod bound;
pub mod cases;
pub mod crowds;
pub mod deep;
pub mod disassembly;
pub mod figures;
pub mod frames;
pub mod scenes;
pub mod stagings;
