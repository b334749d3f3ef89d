//! The eight calls, each with the rules that belong to it.

pub mod supply;

pub mod movement;

pub mod clock;
pub mod end_phase;

pub mod attack;
pub mod battle;
pub mod results;

pub mod owing;
pub mod part_routes;
pub mod pushes;
pub mod retreat;
pub mod vacant_routes;

pub mod losses;

pub mod advance;

pub mod close;

// What several calls have in common.
pub mod checks;
pub mod stages;
