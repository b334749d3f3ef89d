//! Dead ends: a group owes where neither a vacant route nor pushes serve; it can make none, one or two steps.

use super::forces::{any_force, neutral_of, other_force};
use super::ground::{close, open, set_side};
use super::groups::{group, others_that_owe};
use super::scene::retreat_scene;
use super::staged::give_role;
use super::units::{add, stack};
use crate::generator::chance::Chance;
use crate::generator::ways::curls;
use crate::rules::board::position::*;
use crate::rules::board::unit_type::{self, INFANTRY, SUPPLY_UNIT};
use crate::rules::calls::owing::owing_group;
use crate::rules::calls::part_routes::part_routes;
use crate::rules::calls::retreat::is_doomed;

/// What a dead end is to offer.
#[derive(Clone, Copy)]
struct Wanted {
    owed: usize,
    /// How many steps the longest run has.
    steps: usize,
    several: bool,
    /// How many steps the shortest walk over vacant hexes has that curls, if one does.
    shortest_curl: Option<usize>,
}

/// A position in which a group is doomed, most often with a run of one or two steps.
pub fn dead_end(chance: &mut Chance) -> Position {
    let steps = chance.weighted(&[2, 6, 8]);
    let shortest_curl = match steps {
        0 => None,
        1 => chance.pick(&[None, Some(2), Some(2)]),
        _ => chance.pick(&[Some(3), Some(2), Some(2)]),
    };
    let several = steps > 0 && chance.percent(50);
    let wanted = Wanted { owed: chance.from_to(steps + 1, 3), steps, several, shortest_curl };
    let mut found = attempt(chance, wanted);
    for _ in 0..150 {
        if suits(&found.0, found.1, wanted) {
            break;
        }
        found = attempt(chance, wanted);
    }
    let (mut position, start) = found;
    if chance.percent(8) {
        only_supply_units_owe(&mut position, start);
        position.desk.owed_retreat = chance.byte(1, 3);
    }
    position
}

fn suits(position: &Position, start: usize, wanted: Wanted) -> bool {
    let group = owing_group(position, start);
    let routes = part_routes(position, start, &group);
    is_doomed(position, start, &group)
        && routes[0].len() == wanted.steps
        && (routes.len() > 1) == wanted.several
        && curls(position, start).iter().map(Vec::len).min() == wanted.shortest_curl
}

/// The units of the group become supply units, if its force has any.
fn only_supply_units_owe(position: &mut Position, start: usize) {
    for number in owing_group(position, start) {
        let unit = position.units[number];
        if unit_type::belongs_to(SUPPLY_UNIT, unit.nationality) {
            let supply_unit = Unit::new(unit.nationality, SUPPLY_UNIT, unit.hex, unit.strength, 0);
            position.units[number] = Unit { role: OWES, ..supply_unit };
        }
    }
}

/// A position and the hex where the group owes: a pocket around it, whose rim is barred in several ways.
fn attempt(chance: &mut Chance, wanted: Wanted) -> (Position, usize) {
    let mut position = retreat_scene(chance, (2, 6), wanted.owed as u8);
    let (force, start) = (any_force(chance, &position.desk), chance.below(position.map.hexes.len()));
    let enemy = other_force(chance, &position.desk, force);
    open(chance, &mut position, start);
    victors(chance, &mut position, start, enemy);
    let pocket = pocket(chance, &mut position, start, wanted);
    for hex in rim(&position, &pocket) {
        bar(chance, &mut position, &pocket, hex, force, enemy);
    }
    let all_owe = chance.percent(60);
    group(chance, &mut position, force, start, all_owe);
    others_that_owe(chance, &mut position, force, start);
    (position, start)
}

/// Enemies beside the group, who may advance; now and then there are none.
fn victors(chance: &mut Chance, position: &mut Position, start: usize, enemy: u8) {
    let Some((direction, hex)) = any_neighbour(chance, position, start).filter(|_| chance.percent(85)) else { return };
    open(chance, position, hex);
    set_side(position, start, direction, chance.pick(&[PLAIN, PLAIN, RIVER, MAJOR_RIVER]));
    for _ in 0..chance.from_to(1, 2) {
        let victor = add(chance, position, hex, enemy, false);
        victor.into_iter().for_each(|unit| give_role(position, unit, MAY_ADVANCE));
    }
}

/// A direction and the hex that lies there.
fn any_neighbour(chance: &mut Chance, position: &Position, hex: usize) -> Option<(usize, usize)> {
    let near: Vec<(usize, usize)> =
        position.grid().neighbours(hex).into_iter().enumerate().filter_map(|(at, near)| Some((at, near?))).collect();
    chance.pick_any(&near)
}

/// The start and the vacant hexes about it: lanes that lead as far as wanted, and some hexes beside them.
fn pocket(chance: &mut Chance, position: &mut Position, start: usize, wanted: Wanted) -> Vec<usize> {
    let distances = position.grid().distances(start);
    let mut pocket = vec![start];
    let lanes = if wanted.several { chance.from_to(1, 3) } else { 1 };
    for _ in 0..lanes {
        let mut here = start;
        for steps in 1..=wanted.steps {
            let further = vacant_beside(position, here, |hex| distances[hex] == Some(steps));
            let Some(next) = chance.pick_any(&further) else { break };
            widen(chance, position, &mut pocket, here, next);
            here = next;
        }
    }
    let more = if wanted.shortest_curl.is_some() { chance.from_to(1, 3) } else { chance.below(2) };
    let far = if wanted.shortest_curl == Some(2) { 1 } else { wanted.steps };
    for _ in 0..more {
        let here = chance.pick(&pocket);
        let near = vacant_beside(position, here, |hex| (1..=far).any(|steps| distances[hex] == Some(steps)));
        if let Some(next) = chance.pick_any(&near) {
            widen(chance, position, &mut pocket, here, next);
        }
    }
    pocket
}

fn vacant_beside(position: &Position, here: usize, question: impl Fn(usize) -> bool) -> Vec<usize> {
    let near = position.grid().neighbours(here).into_iter().flatten();
    near.filter(|&hex| position.is_vacant(hex) && question(hex)).collect()
}

/// The next hex belongs to the pocket, and the way to it is open.
fn widen(chance: &mut Chance, position: &mut Position, pocket: &mut Vec<usize>, here: usize, next: usize) {
    if let (Some(direction), false) = (position.grid().direction_to(here, next), pocket.contains(&next)) {
        open(chance, position, next);
        set_side(position, here, direction, chance.pick(&[PLAIN, PLAIN, PLAIN, RIVER, MAJOR_RIVER]));
        pocket.push(next);
    }
}

/// The vacant hexes next to the pocket.
fn rim(position: &Position, pocket: &[usize]) -> Vec<usize> {
    let beside = |hex: &usize| pocket.iter().any(|&one| position.grid().direction_to(one, *hex).is_some());
    let outside = (0..position.map.hexes.len()).filter(|hex| !pocket.contains(hex) && position.is_vacant(*hex));
    outside.filter(beside).collect()
}

/// Keep the group out of a hex of the rim: by its ground, its sides, own units, Enemies, a zone, or neutrals.
/// Some stay open.
fn bar(chance: &mut Chance, position: &mut Position, pocket: &[usize], hex: usize, force: u8, enemy: u8) {
    let neutral = neutral_of(chance, &position.desk, force);
    match chance.weighted(&[4, 4, 4, 2, 4, 1, 4]) {
        0 => close(chance, position, hex),
        1 => block(position, pocket, hex),
        2 => stack(chance, position, hex, force, 60),
        3 => drop(add(chance, position, hex, enemy, true)),
        4 => cover(chance, position, pocket, hex, enemy),
        6 => match neutral {
            Some(neutral) => stack(chance, position, hex, neutral, 10),
            None => close(chance, position, hex),
        },
        _ => (),
    }
}

/// Block every side between the pocket and a hex.
fn block(position: &mut Position, pocket: &[usize], hex: usize) {
    for &one in pocket {
        if let Some(direction) = position.grid().direction_to(one, hex) {
            set_side(position, one, direction, BLOCKED);
        }
    }
}

/// The hex lies in the zone of an Enemy that stands away from the pocket; it is closed where there is no such place.
fn cover(chance: &mut Chance, position: &mut Position, pocket: &[usize], hex: usize, enemy: u8) {
    let away = |near: usize| pocket.iter().all(|&one| one != near && position.grid().direction_to(one, near).is_none());
    match chance.pick_any(&vacant_beside(position, hex, away)) {
        Some(near) => {
            open(chance, position, hex);
            open(chance, position, near);
            let added = add(chance, position, near, enemy, false);
            added.into_iter().for_each(|unit| position.units[unit].kind = INFANTRY);
        }
        None => close(chance, position, hex),
    }
}
