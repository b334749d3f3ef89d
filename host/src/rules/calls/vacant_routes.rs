//! Vacant routes: every step goes over an unblocked side to a vacant hex that bears units, outside Enemy zones.

use crate::rules::board::grid::DIRECTIONS;
use crate::rules::board::position::*;
use crate::rules::board::zones::enemy_zones;

/// Every legal route over vacant hexes: all sequences of n directions are tried, clockwise.
pub fn legal_routes(position: &Position, start: usize, group: &[usize]) -> Vec<Vec<usize>> {
    let force = position.units[group[0]].force();
    let zones = enemy_zones(position, force);
    let n = usize::from(position.desk.owed_retreat);
    let distances = position.grid().distances(start);
    let mut routes = vec![Vec::new()];
    for _ in 0..n {
        routes = routes.iter().flat_map(|route| longer_by_one(position, start, &zones, route)).collect();
    }
    routes.retain(|route| route.last().is_some_and(|&end| distances[end] == Some(n)));
    routes
}

/// A route with each step that may follow it.
pub fn longer_by_one(position: &Position, start: usize, zones: &[bool], route: &[usize]) -> Vec<Vec<usize>> {
    let here = *route.last().unwrap_or(&start);
    let mut longer = Vec::new();
    for direction in DIRECTIONS {
        let Some(next) = position.grid().neighbour(here, direction) else { continue };
        let unblocked = position.side(here, direction) != BLOCKED;
        if unblocked && position.bears_units(next) && position.is_vacant(next) && !zones[next] {
            longer.push([route, &[next]].concat());
        }
    }
    longer
}
