//! Supply lines: a lane leads from a source to a force, and neutrals stand on it and beside it.

use super::forces::{any_force, any_pair, enemy_of, neutral_of};
use super::ground::{close, lane_hexes, open, set_side};
use super::scene::{empty_scene, results};
use super::units::add;
use crate::generator::chance::Chance;
use crate::generator::ways::any_beside;
use crate::rules::board::position::*;
use crate::rules::board::unit_type::{INFANTRY, MILITIA};

/// A lane leads from a source to a force; neutrals stand on it and beside it, and an Enemy near it.
pub fn supply_line(chance: &mut Chance) -> Position {
    let size = (chance.byte(3, 7), chance.byte(3, 7));
    let mut position = empty_scene(chance, size);
    let (start, length) = (chance.below(position.map.hexes.len()), chance.from_to(3, 8));
    let lane = lane_hexes(chance, &position, start, length);
    lay_lane(chance, &mut position, &lane);
    let any = any_force(chance, &position.desk);
    let (force, neutral) = any_pair(chance, &position.desk).unwrap_or((any, any));
    end_of_line(chance, &mut position, start, force);
    let end = lane[lane.len() - 1];
    add(chance, &mut position, end, force, false);
    let attacks = chance.percent(45);
    if attacks {
        post_target(chance, &mut position, &lane, force);
    } else if chance.percent(70) {
        post_enemy(chance, &mut position, &lane, force);
    }
    let held = chance.pick(&[20, 40]);
    for hex in 0..position.map.hexes.len() {
        if chance.percent(held) {
            let who = if chance.percent(85) { neutral } else { force };
            let supply_unit = chance.percent(15);
            add(chance, &mut position, hex, who, supply_unit);
        }
    }
    position.desk.phase = chance.pick(&[COMBAT, COMBAT, COMBAT, MECHANISED]);
    position.desk.force = chance.pick(&[force, force, force, neutral, 3]);
    if attacks {
        (position.desk.phase, position.desk.force) = (COMBAT, force);
    }
    position
}

/// The lane's hexes are open and its sides unblocked; much of the rest of the map is closed.
fn lay_lane(chance: &mut Chance, position: &mut Position, lane: &[usize]) {
    let closed = chance.pick(&[30, 60, 80]);
    for hex in 0..position.map.hexes.len() {
        if lane.contains(&hex) {
            open(chance, position, hex);
            position.map.hexes[hex].flags = 0;
        } else if chance.percent(closed) {
            close(chance, position, hex);
        }
    }
    for pair in lane.windows(2) {
        if let Some(direction) = position.grid().direction_to(pair[0], pair[1]) {
            set_side(position, pair[0], direction, chance.pick(&[PLAIN, PLAIN, RIVER, MAJOR_RIVER]));
        }
    }
}

/// A source for the force: a supply hex of a country, a coast with a supply unit, or a port that it holds. Now and then
/// a neutral holds it instead, or nobody.
fn end_of_line(chance: &mut Chance, position: &mut Position, hex: usize, force: u8) {
    let by_supply_unit = chance.percent(40);
    let ground = &mut position.map.hexes[hex];
    ground.surface = COASTAL;
    ground.country = chance.byte(1, 2);
    ground.flags = if by_supply_unit { 0 } else { chance.pick(&[PORT, URBAN, SUPPLY, SUPPLY | PORT]) };
    let neutral = neutral_of(chance, &position.desk, force);
    let holder = match chance.below(10) {
        0 => None,
        1 | 2 => neutral,
        _ => Some(force),
    };
    if let Some(holder) = holder {
        add(chance, position, hex, holder, by_supply_unit);
    }
}

/// An Enemy beside the lane's end that casts no zone and is about as strong as who stands there; many columns, so that
/// supply shows in the odds.
fn post_target(chance: &mut Chance, position: &mut Position, lane: &[usize], force: u8) {
    let end = lane[lane.len() - 1];
    let beside = any_beside(chance, position, end);
    let Some(direction) = position.grid().direction_to(end, beside).filter(|_| !lane.contains(&beside)) else { return };
    let enemy = enemy_of(chance, &position.desk, force);
    open(chance, position, beside);
    set_side(position, end, direction, PLAIN);
    let posted = add(chance, position, beside, enemy, true);
    posted.into_iter().filter(|_| enemy == 3).for_each(|unit| position.units[unit].kind = MILITIA);
    for unit in &mut position.units {
        unit.strength = chance.byte(4, 12);
        unit.marks &= !FOUGHT;
    }
    position.results = results(chance, 12);
}

/// An Enemy beside the lane, most often one that casts a zone.
fn post_enemy(chance: &mut Chance, position: &mut Position, lane: &[usize], force: u8) {
    let along = chance.pick(lane);
    let beside = any_beside(chance, position, along);
    let enemy = enemy_of(chance, &position.desk, force);
    if !lane.contains(&beside) {
        open(chance, position, beside);
        let posted = add(chance, position, beside, enemy, false);
        posted.into_iter().for_each(|unit| position.units[unit].kind = INFANTRY);
    }
}
