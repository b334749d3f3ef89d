//! Neutrals put where they matter: on paths and routes, and beside them.

use super::forces::{enemy_of, neutral_of};
use super::units::{add, takes};
use crate::generator::chance::Chance;
use crate::generator::ways::any_beside;
use crate::rules::board::position::*;

/// Some units neutral to those on the map: on routes, beside them, or anywhere; now and then an Enemy beside them.
pub fn add_neutrals(chance: &mut Chance, position: &mut Position) {
    for _ in 0..chance.pick(&[1, 1, 2, 3, 4]) {
        let neutrals = |unit: &&Unit| unit.on_map() && !position.desk.neutrals_of(unit.force()).is_empty();
        let units: Vec<Unit> = position.units.iter().filter(neutrals).copied().collect();
        let Some(unit) = chance.pick_any(&units) else { return };
        let Some(force) = neutral_of(chance, &position.desk, unit.force()) else { return };
        let Some(hex) = place_beside(chance, position, usize::from(unit.hex), force) else { continue };
        let supply_unit = chance.percent(12);
        add(chance, position, hex, force, supply_unit);
        if chance.percent(20) {
            let (near, enemy) = (any_beside(chance, position, hex), enemy_of(chance, &position.desk, force));
            add(chance, position, near, enemy, false);
        }
    }
}

/// A hex of a route, a hex one or two steps from this one, or any, that takes the force; none where it is hard to find.
fn place_beside(chance: &mut Chance, position: &Position, hex: usize, force: u8) -> Option<usize> {
    let on_routes: Vec<usize> = position.desk.filled_routes().concat();
    let mut place = || {
        let near = any_beside(chance, position, hex);
        match chance.below(10) {
            0..=4 if !on_routes.is_empty() => chance.pick(&on_routes),
            0..=5 => near,
            6..=8 => any_beside(chance, position, near),
            _ => chance.below(position.map.hexes.len()),
        }
    };
    (0..6).map(|_| place()).find(|&hex| takes(position, hex, force))
}

/// Neutrals to those who may advance hold a hex of some routes.
pub fn hold_routes(chance: &mut Chance, position: &mut Position) {
    let victors = position.units_with_role(MAY_ADVANCE);
    let Some(force) = chance.pick_any(&victors).map(|unit| position.units[unit].force()) else { return };
    for route in position.desk.filled_routes() {
        let (hex, neutral) = (chance.pick(&route), neutral_of(chance, &position.desk, force));
        if let Some(neutral) = neutral.filter(|_| chance.percent(60)) {
            add(chance, position, hex, neutral, false);
        }
    }
}
