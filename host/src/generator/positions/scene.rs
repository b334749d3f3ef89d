//! Accepted positions in the quiet stage: chart, results, map, units and desk by chance.

use super::forces::{any_force, any_pair, enemy_of, players};
use super::units::{takes, unit_of};
use crate::generator::chance::Chance;
use crate::rules::board::position::*;

/// How rough a map is: the share of each kind of side, surface and terrain.
#[derive(Clone, Copy)]
enum Ground {
    Plain,
    Mixed,
    Rough,
}

/// A map size, small as a rule.
pub fn small_size(chance: &mut Chance) -> (u8, u8) {
    match chance.weighted(&[4, 8, 8, 60, 20]) {
        0 => (1, 1),
        1 => (1, chance.byte(2, 9)),
        2 => (chance.byte(2, 9), 1),
        3 => (chance.byte(3, 5), chance.byte(3, 5)),
        _ => (chance.byte(2, 8), chance.byte(2, 8)),
    }
}

/// A large map, now and then the largest.
pub fn large_size(chance: &mut Chance) -> (u8, u8) {
    match chance.below(4) {
        0 => (64, 64),
        1 => (64, chance.byte(1, 20)),
        2 => (chance.byte(1, 20), 64),
        _ => (chance.byte(9, 30), chance.byte(9, 30)),
    }
}

/// A map of a given size with some units.
pub fn scene(chance: &mut Chance, size: (u8, u8), units: usize) -> Position {
    let mut position = empty_scene(chance, size);
    let forces = forces(chance, &position.desk);
    for _ in 0..units {
        add_unit(chance, &mut position, &forces);
    }
    position
}

/// How many units suit a small map.
pub fn few_units(chance: &mut Chance, size: (u8, u8)) -> usize {
    let room = usize::from(size.0) * usize::from(size.1) * 2;
    chance.from_to(0, room.min(14))
}

/// A map of a given size with nobody on it.
pub fn empty_scene(chance: &mut Chance, size: (u8, u8)) -> Position {
    let ground = [Ground::Plain, Ground::Mixed, Ground::Rough][chance.weighted(&[40, 45, 15])];
    let mut position = Position::plain(size.0, size.1);
    position.chart = chart(chance, ground);
    let columns = chance.pick(&[1, 2, 3, 4, 6, 12]);
    position.results = results(chance, columns);
    for hex in 0..position.map.hexes.len() {
        position.map.hexes[hex] = hex_of(chance, ground, &position, hex);
    }
    position.desk = desk(chance);
    position
}

/// A small map with nobody on it, now and then a lane between these lengths, where retreats of so many hexes are owed.
pub fn retreat_scene(chance: &mut Chance, (shortest, longest): (u8, u8), owed: u8) -> Position {
    let size = match chance.below(12) {
        0 => (chance.byte(shortest, longest), 1),
        1 => (1, chance.byte(shortest, longest)),
        _ => (chance.byte(3, 7), chance.byte(3, 7)),
    };
    let mut position = empty_scene(chance, size);
    position.desk.phase = COMBAT;
    position.desk.stage = RETREATS;
    position.desk.owed_retreat = owed;
    position
}

fn chart(chance: &mut Chance, ground: Ground) -> Chart {
    let mut terrain = |_| Effect { cost: terrain_cost(chance, ground), multiple: chance.byte(1, 4) };
    let mut terrains: [Effect; 16] = std::array::from_fn(&mut terrain);
    terrains[0].cost = terrains[0].cost.clamp(1, 3);
    let mut side = || Effect { cost: [0, 1, 2, 9][chance.weighted(&[30, 40, 25, 5])], multiple: chance.byte(1, 4) };
    Chart { terrains, river: side(), major_river: side() }
}

fn terrain_cost(chance: &mut Chance, ground: Ground) -> u8 {
    match (ground, chance.below(10)) {
        (Ground::Plain, _) => chance.byte(1, 2),
        (Ground::Mixed, 0..=1) | (Ground::Rough, 0..=2) => 0,
        (_, 3) => chance.byte(4, 9),
        _ => chance.byte(1, 3),
    }
}

/// Columns with rising odds; mostly every code may come, sometimes one code fills the table.
pub fn results(chance: &mut Chance, wanted: usize) -> Vec<Column> {
    let only = chance.percent(40).then(|| chance.byte(1, 10));
    let mut columns = Vec::new();
    while columns.len() < wanted {
        let (a, d) = (chance.byte_at_limits(1, 20), chance.byte_at_limits(1, 20));
        insert_column(&mut columns, Column { a, d, codes: [0; 6] });
    }
    for column in &mut columns {
        column.codes = std::array::from_fn(|_| only.unwrap_or_else(|| chance.byte(1, 10)));
    }
    columns
}

/// Put a column where its odds belong; equal odds are left out.
fn insert_column(columns: &mut Vec<Column>, column: Column) {
    let cross = |one: &Column, other: &Column| u16::from(one.a) * u16::from(other.d);
    let place = columns.iter().take_while(|before| cross(before, &column) < cross(&column, before)).count();
    let is_new = columns.get(place).is_none_or(|after| cross(after, &column) != cross(&column, after));
    if is_new {
        columns.insert(place, column);
    }
}

fn hex_of(chance: &mut Chance, ground: Ground, position: &Position, hex: usize) -> Hex {
    let surface = match ground {
        Ground::Plain => chance.weighted(&[70, 30]),
        Ground::Mixed => chance.weighted(&[65, 20, 9, 6]),
        Ground::Rough => chance.weighted(&[40, 30, 15, 15]),
    } as u8;
    let terrain = if chance.percent(40) { 0 } else { chance.byte(0, 15) };
    let flags = if chance.percent(60) { 0 } else { chance.byte(0, 7) };
    let country = chance.byte(0, 2);
    Hex { terrain, surface, flags, country, sides: sides(chance, ground, position, hex) }
}

/// The three stored sides; 0 where the neighbour is off the map.
fn sides(chance: &mut Chance, ground: Ground, position: &Position, hex: usize) -> u8 {
    let weights = match ground {
        Ground::Plain => [90, 5, 5, 0],
        Ground::Mixed => [65, 13, 12, 10],
        Ground::Rough => [35, 20, 20, 25],
    };
    let mut sides = 0;
    for direction in 0..3 {
        if position.grid().neighbour(hex, direction).is_some() {
            sides |= (chance.weighted(&weights) as u8) << (2 * direction);
        }
    }
    sides
}

/// Any turn, force, phase and players; now and then the very last phase.
fn desk(chance: &mut Chance) -> Desk {
    let turn = chance.byte_at_limits(1, 60);
    let last_turn = if chance.percent(40) { turn } else { chance.byte_at_limits(turn, 60) };
    let last = chance.percent(10);
    let desk = Desk { turn, last_turn, players: players(chance), ..Desk::plain() };
    let force = if last { 3 } else { any_force(chance, &desk) };
    let phase = if last { 2 } else { chance.byte(0, 2) };
    Desk { force, phase, ..desk }
}

/// Two forces as a rule, sometimes all; where players are shared mostly two that share one, and an Enemy.
fn forces(chance: &mut Chance, desk: &Desk) -> Vec<u8> {
    if let Some((one, other)) = any_pair(chance, desk).filter(|_| chance.percent(80)) {
        let enemy = enemy_of(chance, desk, one);
        return if chance.percent(85) { vec![one, other, enemy] } else { vec![one, other] };
    }
    let mut forces = vec![0, 1, 2, 3];
    chance.shuffle(&mut forces);
    forces.truncate(chance.pick(&[1, 2, 2, 2, 3, 4]));
    forces
}

/// Add one unit of one of the forces, near others as a rule; it goes to the box where no hex bears it.
pub fn add_unit(chance: &mut Chance, position: &mut Position, forces: &[u8]) {
    let force = chance.pick(forces);
    let hex = if chance.percent(8) { None } else { place_for(chance, position, force) };
    let unit = unit_of(chance, force, hex);
    position.units.push(unit);
}

/// A hex that can take one more unit of the force.
fn place_for(chance: &mut Chance, position: &Position, force: u8) -> Option<u16> {
    for _ in 0..8 {
        let hex = likely_hex(chance, position);
        if takes(position, hex, force) {
            return Some(hex as u16);
        }
    }
    None
}

/// A hex beside or under a unit already there, or any hex.
fn likely_hex(chance: &mut Chance, position: &Position) -> usize {
    let any = chance.below(position.map.hexes.len());
    let mapped: Vec<usize> =
        position.units.iter().filter(|unit| unit.on_map()).map(|unit| usize::from(unit.hex)).collect();
    match chance.pick_any(&mapped) {
        Some(hex) if chance.percent(25) => hex,
        Some(hex) if chance.percent(70) => {
            let near: Vec<usize> = position.grid().neighbours(hex).into_iter().flatten().collect();
            chance.pick_any(&near).unwrap_or(hex)
        }
        _ => any,
    }
}
