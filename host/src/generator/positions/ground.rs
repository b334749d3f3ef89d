//! Ground made to measure: hexes opened and closed, sides set, lanes laid out.

use crate::generator::chance::Chance;
use crate::rules::board::position::*;

/// The hex bears units.
pub fn open(chance: &mut Chance, position: &mut Position, hex: usize) {
    position.map.hexes[hex].surface = chance.pick(&[LAND, LAND, COASTAL]);
    position.map.hexes[hex].terrain = 0;
}

/// The hex bears no units: sea, lake, or prohibited terrain where the chart has some.
pub fn close(chance: &mut Chance, position: &mut Position, hex: usize) {
    let prohibited: Vec<u8> =
        (0..16).filter(|&terrain| position.chart.terrains[usize::from(terrain)].cost == 0).collect();
    match chance.pick_any(&prohibited) {
        Some(terrain) if chance.percent(50) => position.map.hexes[hex].terrain = terrain,
        _ => position.map.hexes[hex].surface = chance.pick(&[ALL_SEA, LAKE]),
    }
}

/// Set a side of a hex in any direction; a side at the map's edge stays as it is.
pub fn set_side(position: &mut Position, hex: usize, direction: usize, side: u8) {
    let Some(near) = position.grid().neighbour(hex, direction) else { return };
    let (keeper, stored) = if direction < 3 { (hex, direction) } else { (near, direction - 3) };
    let sides = &mut position.map.hexes[keeper].sides;
    *sides = *sides & !(3 << (2 * stored)) | side << (2 * stored);
}

/// Hexes on end, the first ones each further from the start; no hex comes twice.
pub fn lane_hexes(chance: &mut Chance, position: &Position, start: usize, length: usize) -> Vec<usize> {
    let distances = position.grid().distances(start);
    let mut lane = vec![start];
    while lane.len() < length {
        let here = lane[lane.len() - 1];
        let near: Vec<usize> = position.grid().neighbours(here).into_iter().flatten().collect();
        let unused: Vec<usize> = near.into_iter().filter(|hex| !lane.contains(hex)).collect();
        let further: Vec<usize> = unused.iter().copied().filter(|&hex| distances[hex] == Some(lane.len())).collect();
        let choices = if further.is_empty() || chance.percent(20) { unused } else { further };
        let Some(next) = chance.pick_any(&choices) else { break };
        lane.push(next);
    }
    lane
}
