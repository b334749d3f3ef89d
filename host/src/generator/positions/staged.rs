//! Positions in the middle of a combat: stages 1 to 3 with roles and routes set validly.

use super::forces::other_force;
use super::ground::set_side;
use super::scene::results;
use super::units::{takes, unit_of};
use crate::generator::chance::Chance;
use crate::rules::board::grid::DIRECTIONS;
use crate::rules::board::position::*;
use crate::rules::board::unit_type::{SPECIAL_INFANTRY, SUPPLY_UNIT};

/// Put a quiet position into a stage 1 to 3; false if it has too few units for it.
pub fn enter_stage(chance: &mut Chance, position: &mut Position, stage: u8) -> bool {
    let forces = mapped_forces(position);
    if forces.is_empty() {
        return false;
    }
    let mut order = forces.clone();
    chance.shuffle(&mut order);
    position.desk.phase = COMBAT;
    position.desk.stage = stage;
    let others = order.get(1).copied();
    match stage {
        RETREATS => enter_retreats(chance, position, order[0], others),
        LOSSES => enter_losses(chance, position, order[0]),
        _ => enter_advances(chance, position, order[0]),
    }
    true
}

/// The forces that have units on the map.
fn mapped_forces(position: &Position) -> Vec<u8> {
    (0..4).filter(|&force| !mapped_units(position, force).is_empty()).collect()
}

fn mapped_units(position: &Position, force: u8) -> Vec<usize> {
    let belongs = |unit: &usize| position.units[*unit].on_map() && position.units[*unit].force() == force;
    (0..position.units.len()).filter(belongs).collect()
}

pub fn give_role(position: &mut Position, unit: usize, role: u8) {
    position.units[unit].role = role;
    position.units[unit].marks |= TRIED;
}

/// One to six hexes owe; some of another force may advance; routes fill what room is left.
fn enter_retreats(chance: &mut Chance, position: &mut Position, owing: u8, others: Option<u8>) {
    position.desk.owed_retreat = chance.byte(1, 3);
    let mut units = mapped_units(position, owing);
    chance.shuffle(&mut units);
    let wanted = chance.pick(&[1, 1, 2, 3, 6]);
    let mut hexes = Vec::new();
    for unit in units {
        let hex = position.units[unit].hex;
        let fits = hexes.contains(&hex) || hexes.len() < wanted;
        if fits && (hexes.is_empty() || chance.percent(80)) {
            give_role(position, unit, OWES);
            if !hexes.contains(&hex) {
                hexes.push(hex);
            }
        }
    }
    if owing < 3 && chance.percent(30) {
        add_owing_supply_unit(chance, position);
    }
    if let Some(force) = others.filter(|_| chance.percent(85)) {
        give_some(chance, position, force, MAY_ADVANCE);
    }
    let room = 6 - hexes.len();
    let routes = if chance.percent(20) { room } else { chance.below(room + 1) };
    write_routes(chance, position, routes);
}

/// A supply unit joins an owing group; sometimes it is then the only one there that owes.
fn add_owing_supply_unit(chance: &mut Chance, position: &mut Position) {
    let leader = position.units[chance.pick(&position.units_with_role(OWES))];
    let hex = usize::from(leader.hex);
    if !takes(position, hex, leader.force()) {
        return;
    }
    if chance.percent(60) {
        for unit in position.units_on(hex) {
            position.units[unit].role = 0;
        }
    }
    let supply_unit = Unit::new(leader.nationality, SUPPLY_UNIT, leader.hex, chance.byte(1, 9), 0);
    position.units.push(Unit { role: OWES, ..supply_unit });
}

/// Up to eighteen owe; need lies about their printed total.
fn enter_losses(chance: &mut Chance, position: &mut Position, owing: u8) {
    give_some(chance, position, owing, OWES);
    for unit in position.units_with_role(OWES).into_iter().skip(18) {
        position.units[unit].role = 0;
    }
    let printed: usize =
        position.units_with_role(OWES).iter().map(|&unit| usize::from(position.units[unit].strength)).sum();
    position.desk.need = match chance.below(10) {
        0 => 1,
        1 => 1080,
        2 => chance.from_to(1, 1080) as u16,
        _ => chance.from_to(1, printed + 1) as u16,
    };
    let routes = chance.below(7);
    write_routes(chance, position, routes);
}

/// Some may advance, and most routes start beside one of them.
fn enter_advances(chance: &mut Chance, position: &mut Position, force: u8) {
    give_some(chance, position, force, MAY_ADVANCE);
    let routes = chance.below(7);
    write_routes(chance, position, routes);
    if chance.percent(30) {
        block_a_start(chance, position);
    }
}

/// Block the side between a unit that may advance and a route's start, where no route crosses it.
fn block_a_start(chance: &mut Chance, position: &mut Position) {
    let routes = position.desk.filled_routes();
    let unit = chance.pick(&position.units_with_role(MAY_ADVANCE));
    let Some(route) = routes.get(chance.below(routes.len())) else { return };
    let (here, start) = (usize::from(position.units[unit].hex), route[0]);
    let is_crossed =
        routes.iter().any(|route| route.windows(2).any(|pair| pair.contains(&here) && pair.contains(&start)));
    if let (Some(direction), false) = (position.grid().direction_to(here, start), is_crossed) {
        set_side(position, here, direction, BLOCKED);
    }
}

/// Give a role to at least one of a force's units.
fn give_some(chance: &mut Chance, position: &mut Position, force: u8, role: u8) {
    let units = mapped_units(position, force);
    give_role(position, chance.pick(&units), role);
    for unit in units {
        if chance.percent(60) {
            give_role(position, unit, role);
        }
    }
}

/// Write so many routes, as far as the ground allows.
pub fn write_routes(chance: &mut Chance, position: &mut Position, count: usize) {
    for slot in 0..count {
        let Some(route) = any_route(chance, position) else { return };
        position.desk.routes[slot] = route;
    }
}

/// A route of one to four hexes; its start lies beside a unit that may advance, where there is one.
/// It may turn back on itself.
fn any_route(chance: &mut Chance, position: &Position) -> Option<Route> {
    let mut hexes = vec![route_start(chance, position)?];
    for _ in 0..chance.below(4) {
        let here = hexes[hexes.len() - 1];
        let back = hexes.len().checked_sub(2).map(|before| hexes[before]).filter(|_| chance.percent(25));
        let near = position.grid().neighbours(here).into_iter().flatten();
        let ways: Vec<usize> = near.filter(|&next| is_route_step(position, here, next)).collect();
        hexes.push(back.or(chance.pick_any(&ways))?);
    }
    let mut route = [NONE; 4];
    for (place, hex) in route.iter_mut().zip(hexes) {
        *place = hex as u16;
    }
    Some(route)
}

fn is_route_step(position: &Position, from: usize, to: usize) -> bool {
    position.joined(from, to) && position.bears_units(to)
}

fn route_start(chance: &mut Chance, position: &Position) -> Option<usize> {
    let ground: Vec<usize> = (0..position.map.hexes.len()).filter(|&hex| position.bears_units(hex)).collect();
    let victors = position.units_with_role(MAY_ADVANCE);
    let beside = |hex: &usize| {
        victors.iter().any(|&unit| position.grid().direction_to(usize::from(position.units[unit].hex), *hex).is_some())
    };
    let likely: Vec<usize> = ground.iter().copied().filter(beside).collect();
    if chance.percent(80) && !likely.is_empty() {
        chance.pick_any(&likely)
    } else {
        chance.pick_any(&ground)
    }
}

/// A battle about to be fought: a target in the middle, its Enemies in the hexes around it. Now and then they are
/// neutral to it.
pub fn add_battle(chance: &mut Chance, position: &mut Position, crowded: bool) {
    let phasing = position.desk.force;
    let enemy = other_force(chance, &position.desk, phasing);
    let target = middle(position);
    let defenders = if crowded { 3 } else { chance.from_to(1, 3) };
    for _ in 0..defenders {
        add_fresh(chance, position, target, enemy);
    }
    for hex in position.grid().neighbours(target).into_iter().flatten() {
        let attackers = if crowded { 3 } else { chance.pick(&[0, 1, 1, 2, 3]) };
        for _ in 0..attackers {
            add_fresh(chance, position, hex, phasing);
        }
    }
}

/// Rivers of both kinds on all sides of the target, so that their multiples decide; many columns to show it.
pub fn add_rivers(chance: &mut Chance, position: &mut Position) {
    let target = middle(position);
    for direction in DIRECTIONS {
        let side = chance.pick(&[RIVER, RIVER, MAJOR_RIVER, MAJOR_RIVER, PLAIN]);
        set_side(position, target, direction, side);
    }
    position.chart.river.multiple = chance.byte(1, 4);
    position.chart.major_river.multiple = chance.byte(1, 4);
    position.results = results(chance, 12);
}

/// The hex in the middle of the map.
fn middle(position: &Position) -> usize {
    let grid = position.grid();
    grid.height / 2 * grid.width + grid.width / 2
}

/// P.A.L. units owe losses, special infantry among them.
pub fn enter_special_losses(chance: &mut Chance, position: &mut Position) {
    let ground: Vec<usize> = (0..position.map.hexes.len()).filter(|&hex| takes(position, hex, 2)).collect();
    let Some(hex) = chance.pick_any(&ground) else { return };
    for _ in 0..3 {
        add_fresh(chance, position, hex, 2);
    }
    for unit in mapped_units(position, 2) {
        if chance.percent(40) && position.units[unit].kind != SUPPLY_UNIT {
            position.units[unit].kind = SPECIAL_INFANTRY;
            position.units[unit].marks |= TRIED;
        }
    }
    position.desk.phase = COMBAT;
    position.desk.stage = LOSSES;
    enter_losses(chance, position, 2);
}

/// Add a unit that has not fought, if the hex takes it.
fn add_fresh(chance: &mut Chance, position: &mut Position, hex: usize, force: u8) {
    if takes(position, hex, force) {
        let mut unit = unit_of(chance, force, Some(hex as u16));
        unit.marks &= !FOUGHT;
        position.units.push(unit);
    }
}
