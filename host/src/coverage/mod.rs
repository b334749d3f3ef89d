//! What a record reaches: the cases by which calls are told apart, and how often each came.

pub mod counting;
pub mod part_route_cases;
pub mod player_cases;
pub mod player_tally;
pub mod retreat_cases;
pub mod tally;
