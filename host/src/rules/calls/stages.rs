//! What several calls do to units, routes and stages.

use crate::rules::board::position::*;

/// Put a unit into the box: role 0 and no mark but tried.
pub fn destroy(unit: &mut Unit) {
    unit.hex = NONE;
    unit.role = 0;
    unit.marks &= TRIED;
}

/// Write a route behind the filled ones.
pub fn write_route(desk: &mut Desk, hexes: &[u16]) {
    if let Some(free) = desk.routes.iter_mut().find(|route| route[0] == NONE) {
        free[..hexes.len()].copy_from_slice(hexes);
    }
}

/// When no role 1 is left in stage 1 or 2, stage 3 follows;
/// stage 3 without role 2 becomes 0 with routes cleared.
pub fn follow_on(position: &mut Position) {
    let owing = matches!(position.desk.stage, RETREATS | LOSSES);
    if owing && !position.any_role(OWES) {
        position.desk.stage = ADVANCES;
        position.desk.owed_retreat = 0;
        position.desk.need = 0;
    }
    if position.desk.stage == ADVANCES && !position.any_role(MAY_ADVANCE) {
        become_quiet(&mut position.desk);
    }
}

/// Stage 0, routes cleared.
pub fn become_quiet(desk: &mut Desk) {
    desk.stage = QUIET;
    desk.routes = [[NONE; 4]; 6];
}
