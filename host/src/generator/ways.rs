//! Ways about a hex: what lies next to it, a series of steps that serves a group, and walks that curl.

use super::chance::Chance;
use crate::rules::board::position::*;
use crate::rules::board::zones::enemy_zones;
use crate::rules::calls::owing::owing_group;
use crate::rules::calls::part_routes::runs;
use crate::rules::calls::pushes::{Step, Way};
use crate::rules::calls::vacant_routes::longer_by_one;

/// The hexes next to one over an unblocked side where a unit may stand.
pub fn beside(board: &Position, hex: usize) -> Vec<usize> {
    let near = board.grid().neighbours(hex).into_iter().flatten();
    near.filter(|&near| board.joined(hex, near) && board.bears_units(near)).collect()
}

/// A hex next to one, whatever it is; the one itself where it has no neighbours.
pub fn any_beside(chance: &mut Chance, position: &Position, hex: usize) -> usize {
    let near: Vec<usize> = position.grid().neighbours(hex).into_iter().flatten().collect();
    chance.pick_any(&near).unwrap_or(hex)
}

/// A series of steps that serves, chosen by chance; none if there is none.
pub fn any_series(chance: &mut Chance, way: &Way) -> Option<Vec<Step>> {
    if way.is_done() {
        return Some(Vec::new());
    }
    let mut steps = way.steps();
    chance.shuffle(&mut steps);
    let step = steps.into_iter().find(|step| way.after(step).some_series())?;
    let rest = any_series(chance, &way.after(&step))?;
    Some([vec![step], rest].concat())
}

/// Walks of up to three steps that each keep a legal route's rules but for one that leads no further off.
pub fn curls(position: &Position, start: usize) -> Vec<Vec<usize>> {
    let group = owing_group(position, start);
    let zones = enemy_zones(position, position.units[group[0]].force());
    let mut latest = vec![Vec::new()];
    let mut walks = Vec::new();
    for _ in 0..3 {
        latest = latest.iter().flat_map(|walk| longer_by_one(position, start, &zones, walk)).collect();
        walks.extend(latest.clone());
    }
    let runs = runs(position, start, &group);
    walks.retain(|walk| !runs.contains(walk));
    walks
}
