//! The position: its bytes, which positions are accepted, and what can be asked of one.

pub mod acceptance;
pub mod contents;
pub mod grid;
pub mod players;
pub mod position;
pub mod unit_type;
pub mod zones;
