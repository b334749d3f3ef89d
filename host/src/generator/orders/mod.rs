//! Orders: plausible ones by looking at the position, and ways to spoil them.

pub mod lists;
pub mod neutral_paths;
pub mod part_routes;
pub mod retreats;

use crate::generator::chance::Chance;
use crate::rules::board::position::*;
use crate::rules::board::unit_type;
use crate::rules::board::zones::enemy_zones;
use crate::rules::calls::movement::{allowance, is_way, step_cost};
use crate::rules::order::{Call, Order};
use neutral_paths::{neutral_beside, road_to_a_neutral};
use retreats::{nearly_legal_retreat, plausible_retreat};

/// An order for a call that the referee may well accept.
pub fn plausible(chance: &mut Chance, position: &Position, call: Call) -> Order {
    match call {
        Call::Supply => Order::Supply { nationality: chance.below(5) as u16 },
        Call::Move => plausible_move(chance, position),
        Call::End => Order::End,
        Call::Attack => plausible_attack(chance, position),
        Call::Retreat => plausible_retreat(chance, position).unwrap_or_else(|| random(chance, position, Call::Retreat)),
        Call::Losses => plausible_losses(chance, position),
        Call::Advance => plausible_advance(chance, position),
        Call::Close => Order::Close,
    }
}

/// A retreat that goes wrong in one thing.
pub fn nearly_legal(chance: &mut Chance, position: &Position) -> Order {
    nearly_legal_retreat(chance, position).unwrap_or_else(|| random(chance, position, Call::Retreat))
}

/// An order of any numbers, most of them in range.
pub fn random(chance: &mut Chance, position: &Position, call: Call) -> Order {
    match call {
        Call::Supply => Order::Supply { nationality: chance.pick(&[0, 1, 2, 3, 4, 5, 6, 255, 65535]) },
        Call::Move => Order::Move { unit: any_unit(chance, position), path: any_hexes(chance, position, 4) },
        Call::End => Order::End,
        Call::Attack => {
            let (target, die) = (any_hex(chance, position), chance.from_to(1, 6) as u16);
            Order::Attack { target, die, list: any_units(chance, position, 4) }
        }
        Call::Retreat => {
            let (hex, route) = (any_hex(chance, position), any_hexes(chance, position, 3));
            let most = chance.pick(&[0, 0, 3, 9]);
            Order::Retreat { hex, route, pushes: any_hexes(chance, position, most) }
        }
        Call::Losses => Order::Losses { list: any_units(chance, position, 4) },
        Call::Advance => Order::Advance { unit: any_unit(chance, position), hex: any_hex(chance, position) },
        Call::Close => Order::Close,
    }
}

/// An order changed in one number, or in the length of its list.
pub fn spoiled(chance: &mut Chance, position: &Position, order: &Order) -> Order {
    let mut order = order.clone();
    let (other_unit, other_hex) = (any_unit(chance, position), any_hex(chance, position));
    match &mut order {
        Order::Supply { nationality } => *nationality = chance.pick(&[5, 6, 256, 65535]),
        Order::Move { unit, path } => match chance.below(4) {
            0 => *unit = other_unit,
            _ => spoil_list(chance, path, other_hex, 31),
        },
        Order::Attack { target, die, list } => match chance.below(6) {
            0 => *target = other_hex,
            1 => *die = chance.pick(&[0, 1, 6, 7, 257, 65535]),
            _ => spoil_list(chance, list, other_unit, 19),
        },
        Order::Retreat { hex, route, pushes } => match chance.below(7) {
            0 => *hex = other_hex,
            1..=3 => spoil_list(chance, route, other_hex, 4),
            _ => spoil_list(chance, pushes, other_hex, 10),
        },
        Order::Losses { list } => spoil_list(chance, list, other_unit, 19),
        Order::Advance { unit, hex } => match chance.below(2) {
            0 => *unit = other_unit,
            _ => *hex = other_hex,
        },
        Order::End | Order::Close => (),
    }
    order
}

/// Change, add, take away or double one number; or make the list just too long, or empty.
fn spoil_list(chance: &mut Chance, list: &mut Vec<u16>, number: u16, too_long: usize) {
    let at = chance.below(list.len());
    match chance.below(12) {
        0 => list.clear(),
        1 => list.resize(too_long - chance.below(2), number),
        2 if chance.percent(10) => list.resize(300, number),
        3 | 4 if !list.is_empty() => {
            list.remove(at);
        }
        5 | 6 if !list.is_empty() => list.push(list[at]),
        7 | 8 => list.insert(at, number),
        9 => list.push(number),
        _ if !list.is_empty() => list[at] = number,
        _ => list.push(number),
    }
}

/// Any hex number, now and then one off the map.
fn any_hex(chance: &mut Chance, position: &Position) -> u16 {
    let hexes = position.map.hexes.len();
    match chance.below(30) {
        0 => hexes as u16,
        1 => chance.pick(&[65535, 65534, 4096, 256]),
        _ => chance.below(hexes) as u16,
    }
}

/// Any unit number, now and then one too high.
fn any_unit(chance: &mut Chance, position: &Position) -> u16 {
    let units = position.units.len();
    match chance.below(30) {
        0 => units as u16,
        1 => chance.pick(&[65535, 400, 256, 65280]),
        _ => chance.below(units) as u16,
    }
}

fn any_hexes(chance: &mut Chance, position: &Position, most: usize) -> Vec<u16> {
    (0..chance.below(most + 1)).map(|_| any_hex(chance, position)).collect()
}

fn any_units(chance: &mut Chance, position: &Position, most: usize) -> Vec<u16> {
    (0..chance.below(most + 1)).map(|_| any_unit(chance, position)).collect()
}

/// The numbers of the units that answer the question.
fn units_where(position: &Position, question: impl Fn(&Unit) -> bool) -> Vec<usize> {
    (0..position.units.len()).filter(|&unit| question(&position.units[unit])).collect()
}

/// The units that type, marks and phase allow to move.
pub fn movers(position: &Position) -> Vec<usize> {
    let desk = &position.desk;
    units_where(position, |unit| {
        let by_phase = desk.phase != MECHANISED || unit_type::moves_in_mechanised_phase(unit.kind);
        unit.on_map()
            && unit.force() == desk.force
            && unit.kind != unit_type::SUPPLY_UNIT
            && by_phase
            && !unit.has(MOVED)
    })
}

/// A mover of the phasing force and a walk, most often within the rules; now and then the mover is neutral to the force.
fn plausible_move(chance: &mut Chance, position: &Position) -> Order {
    let neutrals =
        units_where(position, |unit| unit.on_map() && position.desk.neutral(unit.force(), position.desk.force));
    let movers = if chance.percent(4) && !neutrals.is_empty() { neutrals } else { movers(position) };
    let Some(unit) = chance.pick_any(&movers) else { return random(chance, position, Call::Move) };
    let near = position.grid().neighbours(usize::from(position.units[unit].hex)).into_iter().flatten();
    let force = position.units[unit].force();
    let is_full = |hex: &usize| position.units_on(*hex).len() == 3 && !position.enemy_on(*hex, force);
    let full: Vec<usize> = near.filter(is_full).collect();
    let path = match chance.pick_any(&full) {
        Some(hex) if chance.percent(30) => vec![hex as u16],
        _ => {
            let road = road_to_a_neutral(chance, position, &position.units[unit]).filter(|_| chance.percent(20));
            road.unwrap_or_else(|| walk(chance, position, unit))
        }
    };
    Order::Move { unit: unit as u16, path }
}

/// A walk step by step; it mostly stops in Enemy zones and at the end of the allowance. Some walks mind no neutrals, and
/// some end by a step into one, whatever it costs.
fn walk(chance: &mut Chance, position: &Position, unit: usize) -> Vec<u16> {
    let mover = &position.units[unit];
    let zones = enemy_zones(position, mover.force());
    let wanted = if chance.percent(8) { 30 } else { chance.from_to(1, 6) };
    let (careful, minds_neutrals) = (chance.percent(75), chance.percent(75));
    let mut here = usize::from(mover.hex);
    let mut left = allowance(mover);
    let mut path = Vec::new();
    while path.len() < wanted {
        let near: Vec<usize> = position.grid().neighbours(here).into_iter().flatten().collect();
        let neutral = |hex: usize| minds_neutrals && position.neutral_on(hex, mover.force());
        let barred = |hex: usize| position.enemy_on(hex, mover.force()) || neutral(hex);
        let fine = |next: &usize| is_way(position, here, *next) && !barred(*next);
        let good: Vec<usize> =
            near.iter().copied().filter(|next| fine(next) && step_cost(position, here, *next) <= left).collect();
        let choices = if careful || chance.percent(60) { &good } else { &near };
        let Some(next) = chance.pick_any(choices) else { break };
        left = left.saturating_sub(step_cost(position, here, next));
        here = next;
        path.push(here as u16);
        if zones[here] && (careful || chance.percent(50)) {
            break;
        }
    }
    if path.len() < 29 && chance.percent(20) {
        path.extend(neutral_beside(chance, position, here, mover.force()));
    }
    if path.is_empty() {
        path.push(chance.pick_any(&position.grid().neighbours(here)).flatten().unwrap_or(here) as u16);
    }
    path
}

/// A move into a neutral, if one can be reached.
pub fn into_a_neutral(chance: &mut Chance, position: &Position) -> Order {
    match chance.pick_any(&movers(position)) {
        Some(unit) => {
            let road = road_to_a_neutral(chance, position, &position.units[unit]);
            let path = road.unwrap_or_else(|| walk(chance, position, unit));
            Order::Move { unit: unit as u16, path }
        }
        None => random(chance, position, Call::Move),
    }
}

/// The phasing units that could attack a hex.
fn attackers_of(position: &Position, target: usize) -> Vec<usize> {
    units_where(position, |unit| {
        let may = unit.on_map()
            && unit.force() == position.desk.force
            && unit_type::may_attack(unit.kind)
            && !unit.has(FOUGHT);
        may && position.joined(usize::from(unit.hex), target)
    })
}

/// The hexes that could be attacked if those who answer the question, asked of their force and the phasing one, could
/// be; one that holds several units comes several times.
pub fn targets(position: &Position, question: impl Fn(u8, u8) -> bool) -> Vec<usize> {
    let attacked = units_where(position, |unit| unit.on_map() && question(unit.force(), position.desk.force));
    let hexes = attacked.into_iter().map(|unit| usize::from(position.units[unit].hex));
    let fresh = |hex: &usize| position.units_on(*hex).into_iter().all(|unit| !position.units[unit].has(FOUGHT));
    hexes.filter(|hex| fresh(hex) && !attackers_of(position, *hex).is_empty()).collect()
}

/// A target with Enemies, now and then with neutrals, beside units that may attack, and some of these.
fn plausible_attack(chance: &mut Chance, position: &Position) -> Order {
    let die = chance.from_to(1, 6) as u16;
    let enemies = targets(position, |one, other| position.desk.enemy(one, other));
    let neutrals = targets(position, |one, other| position.desk.neutral(one, other));
    let choices = if enemies.is_empty() || chance.percent(8) && !neutrals.is_empty() { neutrals } else { enemies };
    let Some(target) = chance.pick_any(&choices) else { return random(chance, position, Call::Attack) };
    let mut list = attackers_of(position, target);
    if chance.percent(4) {
        list.extend(units_where(position, |unit| {
            position.desk.neutral(unit.force(), position.desk.force)
                && unit.on_map()
                && position.joined(usize::from(unit.hex), target)
        }));
    }
    chance.shuffle(&mut list);
    let most = list.len().min(18);
    list.truncate(if chance.percent(40) { most } else { chance.from_to(1, most) });
    Order::Attack { target: target as u16, die, list: list.into_iter().map(|unit| unit as u16).collect() }
}

/// Owing units in any order until need is reached, or one fewer, or all.
fn plausible_losses(chance: &mut Chance, position: &Position) -> Order {
    let mut owing = position.units_with_role(OWES);
    if owing.is_empty() {
        return random(chance, position, Call::Losses);
    }
    chance.shuffle(&mut owing);
    let is_special = |unit: &usize| position.units[*unit].kind == unit_type::SPECIAL_INFANTRY;
    match chance.below(5) {
        0 | 1 => owing.sort_by_key(|unit| !is_special(unit)),
        2 => owing.sort_by_key(is_special),
        _ => (),
    }
    let mut total = 0;
    let mut enough = 0;
    while enough < owing.len() && total < u32::from(position.desk.need) {
        total += u32::from(position.units[owing[enough]].strength);
        enough += 1;
    }
    let count = match chance.below(5) {
        0 => enough.saturating_sub(1).max(1),
        1 => owing.len(),
        _ => enough,
    };
    Order::Losses { list: owing[..count].iter().map(|&unit| unit as u16).collect() }
}

/// A unit that may advance and a hex of a route, most often of one that starts beside it.
fn plausible_advance(chance: &mut Chance, position: &Position) -> Order {
    let units = position.units_with_role(MAY_ADVANCE);
    let Some(unit) = chance.pick_any(&units) else { return random(chance, position, Call::Advance) };
    let routes = position.desk.filled_routes();
    let starts_beside =
        |route: &&Vec<usize>| position.grid().direction_to(usize::from(position.units[unit].hex), route[0]).is_some();
    let beside: Vec<&Vec<usize>> = routes.iter().filter(starts_beside).collect();
    let all: Vec<&Vec<usize>> = routes.iter().collect();
    let choices = if beside.is_empty() || chance.percent(20) { all } else { beside };
    match chance.pick_any(&choices) {
        Some(route) => Order::Advance { unit: unit as u16, hex: chance.pick(route) as u16 },
        None => Order::Advance { unit: unit as u16, hex: any_hex(chance, position) },
    }
}
