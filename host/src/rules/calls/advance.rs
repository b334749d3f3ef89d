//! The advance call: a victor follows a route.

use super::checks;
use super::stages;
use crate::rules::board::position::*;
use crate::rules::board::unit_type::SUPPLY_UNIT;
use crate::rules::refusal::*;

/// Rule on one unit's advance to a hex; zones are ignored.
pub fn advance(position: &mut Position, unit: u16, hex: u16) -> Result<(), Refusal> {
    let unit = checks::unit(position, unit, 0)?;
    let hex = checks::hex(position, hex, 0)?;
    checks::stage(position, ADVANCES)?;
    require(position.units[unit].role == MAY_ADVANCE, NOT_THE_UNIT, 0)?;
    require(position.units[unit].kind != SUPPLY_UNIT, FORBIDDEN_BY_TYPE_OR_MARK, 0)?;
    let routes = position.desk.filled_routes();
    require(routes.iter().any(|route| leads_to(position, &position.units[unit], route, hex)), NO_WAY, 0)?;
    require(!position.three_others_on(hex, unit), THREE_OTHERS, 0)?;
    position.units[unit].hex = hex as u16;
    position.units[unit].role = 0;
    stages::follow_on(position);
    Ok(())
}

/// The route starts beside the unit over an unblocked side and contains the hex,
/// with no Enemy and no neutral from its start to that hex.
pub fn leads_to(position: &Position, unit: &Unit, route: &[usize], hex: usize) -> bool {
    let Some(end) = route.iter().position(|&one| one == hex) else { return false };
    let beside = position.joined(usize::from(unit.hex), route[0]);
    let barred = |hex: usize| position.enemy_on(hex, unit.force()) || position.neutral_on(hex, unit.force());
    beside && route[..=end].iter().all(|&one| !barred(one))
}
