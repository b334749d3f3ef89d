//! Part routes: a group that is to be destroyed goes as far as it can and is lost there (13.54).
//! Every run of steps is tried, and the longest are kept.

use super::owing::only_supply_units;
use super::vacant_routes::longer_by_one;
use crate::rules::board::position::*;
use crate::rules::board::zones::enemy_zones;

/// Every part route of a group that is to be destroyed: the longest runs, or the empty one where only supply units owe.
pub fn part_routes(position: &Position, start: usize, group: &[usize]) -> Vec<Vec<usize>> {
    if only_supply_units(position, group) {
        return vec![Vec::new()];
    }
    let mut runs = runs(position, start, group);
    let longest = runs.iter().map(Vec::len).max();
    runs.retain(|run| Some(run.len()) == longest);
    runs
}

/// Every run, the empty one too: each step keeps a legal route's rules and lies one further off than the last.
/// A run has at most n steps, for with n it is a legal route.
pub fn runs(position: &Position, start: usize, group: &[usize]) -> Vec<Vec<usize>> {
    let zones = enemy_zones(position, position.units[group[0]].force());
    let distances = position.grid().distances(start);
    let mut latest = vec![Vec::new()];
    let mut runs = latest.clone();
    for steps in 1..=usize::from(position.desk.owed_retreat) {
        latest = latest.iter().flat_map(|run| longer_by_one(position, start, &zones, run)).collect();
        latest.retain(|run| run.last().is_some_and(|&end| distances[end] == Some(steps)));
        runs.extend(latest.clone());
    }
    runs
}
