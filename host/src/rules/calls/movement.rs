//! The move call: one unit along a path of 1 to 30 hexes.

use super::checks;
use crate::rules::board::position::*;
use crate::rules::board::unit_type;
use crate::rules::board::zones::enemy_zones;
use crate::rules::refusal::*;

/// Rule on a move; when accepted the unit stands on the last hex and is marked moved.
pub fn move_unit(position: &mut Position, unit: u16, path: &[u16]) -> Result<(), Refusal> {
    checks::length(path.len(), 1, 30)?;
    let unit = checks::unit(position, unit, 0)?;
    let path = checks::hexes(position, path)?;
    checks::stage(position, QUIET)?;
    checks::phase(position, &[LAND_MOVEMENT, MECHANISED])?;
    checks::phasing(position, &position.units[unit], 0)?;
    require(may_move(position, &position.units[unit]), FORBIDDEN_BY_TYPE_OR_MARK, 0)?;
    steps(position, unit, &path)?;
    let end = path[path.len() - 1];
    require(!position.three_others_on(end, unit), THREE_OTHERS, path.len())?;
    position.units[unit].hex = end as u16;
    position.units[unit].marks |= MOVED;
    Ok(())
}

/// Do type and mark allow a move in this phase?
fn may_move(position: &Position, unit: &Unit) -> bool {
    let by_phase = position.desk.phase != MECHANISED || unit_type::moves_in_mechanised_phase(unit.kind);
    unit_type::may_move_by_land(unit.kind) && by_phase && !unit.has(MOVED)
}

/// The allowance, halved with fractions up without the supplied mark.
pub fn allowance(unit: &Unit) -> u32 {
    let full = u32::from(unit.allowance);
    if unit.has(SUPPLIED) {
        full
    } else {
        full.div_ceil(2)
    }
}

/// Each step in turn: zone left, way, Enemy, neutral, allowance.
fn steps(position: &Position, unit: usize, path: &[usize]) -> Result<(), Refusal> {
    let mover = &position.units[unit];
    let zones = enemy_zones(position, mover.force());
    let mut here = usize::from(mover.hex);
    let mut spent = 0;
    for (index, &next) in path.iter().enumerate() {
        let place = index + 1;
        let leaves_zone = place > 1 && zones[here];
        require(!leaves_zone, AFTER_ENEMY_ZONE, place)?;
        require(is_way(position, here, next), NO_WAY, place)?;
        require(!position.enemy_on(next, mover.force()), ENEMY_THERE, place)?;
        require(!position.neutral_on(next, mover.force()), NEUTRAL_THERE, place)?;
        spent += step_cost(position, here, next);
        require(spent <= allowance(mover), OVER_ALLOWANCE, place)?;
        here = next;
    }
    Ok(())
}

/// Adjacent over an unblocked side, into unprohibited land or coast.
pub fn is_way(position: &Position, from: usize, to: usize) -> bool {
    position.joined(from, to) && position.bears_units(to)
}

/// The entered hex's terrain plus the side crossed.
pub fn step_cost(position: &Position, from: usize, to: usize) -> u32 {
    let side = position.side_between(from, to).and_then(|side| position.river_effect(side));
    u32::from(position.terrain(to).cost) + side.map_or(0, |effect| u32::from(effect.cost))
}
