//! The record: what a line says, the table on which lines are played, and the roster.

pub mod line;
pub mod roster;
pub mod table;
