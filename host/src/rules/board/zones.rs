//! Zones: they cover the adjacent hexes, but not across blocked or major river sides nor into all-sea.

use super::grid::DIRECTIONS;
use super::position::{Position, ALL_SEA, BLOCKED, MAJOR_RIVER};
use super::unit_type;

/// For each hex: is it in a zone of an Enemy of `force`?
pub fn enemy_zones(position: &Position, force: u8) -> Vec<bool> {
    let mut covered = vec![false; position.grid().hexes()];
    for unit in &position.units {
        if unit.on_map() && position.desk.enemy(unit.force(), force) && unit_type::casts_zone(unit.kind) {
            for hex in zone_of(position, usize::from(unit.hex)) {
                covered[hex] = true;
            }
        }
    }
    covered
}

/// The hexes covered by a zone cast from `hex`.
fn zone_of(position: &Position, hex: usize) -> Vec<usize> {
    let mut covered = Vec::new();
    for direction in DIRECTIONS {
        let Some(near) = position.grid().neighbour(hex, direction) else { continue };
        let stopped = matches!(position.side(hex, direction), BLOCKED | MAJOR_RIVER);
        if !stopped && position.map.hexes[near].surface != ALL_SEA {
            covered.push(near);
        }
    }
    covered
}
