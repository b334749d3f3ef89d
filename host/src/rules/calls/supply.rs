//! Supply: chains of open hexes that lead to a source.

use crate::rules::board::position::*;
use crate::rules::board::unit_type::SUPPLY_UNIT;
use crate::rules::board::zones::enemy_zones;
use crate::rules::refusal::{require, Refusal, OUT_OF_RANGE};

/// The supply call: 1 or 0 per hex for a nationality, in any phase and stage.
pub fn supply(position: &Position, nationality: u16, buffer: &mut [u8]) -> Result<(), Refusal> {
    require(buffer.len() == position.grid().hexes(), OUT_OF_RANGE, 0)?;
    require(nationality <= 4, OUT_OF_RANGE, 0)?;
    for (byte, supplied) in buffer.iter_mut().zip(supplied_hexes(position, nationality as u8)) {
        *byte = u8::from(supplied);
    }
    Ok(())
}

/// Flood the open hexes over unblocked sides, from every open source.
pub fn supplied_hexes(position: &Position, nationality: u8) -> Vec<bool> {
    let open = open_hexes(position, nationality);
    let sources = sources(position, nationality);
    let mut reached = vec![false; open.len()];
    let mut waiting: Vec<usize> = (0..open.len()).filter(|&hex| open[hex] && sources[hex]).collect();
    while let Some(hex) = waiting.pop() {
        if reached[hex] {
            continue;
        }
        reached[hex] = true;
        for near in position.grid().neighbours(hex).into_iter().flatten() {
            if open[near] && position.joined(hex, near) {
                waiting.push(near);
            }
        }
    }
    reached
}

/// The supply of each unit now, judged by its own nationality; false for destroyed units.
pub fn units_in_supply(position: &Position) -> Vec<bool> {
    let by_nationality = [0, 1, 2, 3, 4].map(|nationality| supplied_hexes(position, nationality));
    let in_supply = |unit: &Unit| unit.on_map() && by_nationality[usize::from(unit.nationality)][usize::from(unit.hex)];
    position.units.iter().map(in_supply).collect()
}

/// Not sea or lake, no Enemy, and outside Enemy zones or holding the force. Neutrals make no difference.
fn open_hexes(position: &Position, nationality: u8) -> Vec<bool> {
    let force = force_of(nationality);
    let zones = enemy_zones(position, force);
    let held = held_by(position, |unit| unit.force() == force);
    let enemy = held_by(position, |unit| position.desk.enemy(unit.force(), force));
    let open = |hex: usize| position.is_land_or_coast(hex) && !enemy[hex] && (!zones[hex] || held[hex]);
    (0..zones.len()).map(open).collect()
}

fn sources(position: &Position, nationality: u8) -> Vec<bool> {
    match nationality {
        3 => country_sources(position, 1),
        4 => country_sources(position, 2),
        _ => force_sources(position, nationality),
    }
}

/// US and Canada: supply hexes of their own country, no unit needed.
fn country_sources(position: &Position, country: u8) -> Vec<bool> {
    position.map.hexes.iter().map(|hex| hex.country == country && hex.flags & SUPPLY != 0).collect()
}

/// The other forces: a coastal hex with a supply unit, or a hex they hold that is
/// a port, or coastal and urban, or coastal and supply.
fn force_sources(position: &Position, force: u8) -> Vec<bool> {
    let held = held_by(position, |unit| unit.force() == force);
    let supply_unit = held_by(position, |unit| unit.force() == force && unit.kind == SUPPLY_UNIT);
    let is_source = |(number, hex): (usize, &Hex)| {
        let coastal = hex.surface == COASTAL;
        let landing = hex.flags & PORT != 0 || (coastal && hex.flags & (URBAN | SUPPLY) != 0);
        (coastal && supply_unit[number]) || (held[number] && landing)
    };
    position.map.hexes.iter().enumerate().map(is_source).collect()
}

/// For each hex: does a unit that answers the question stand there?
fn held_by(position: &Position, question: impl Fn(&Unit) -> bool) -> Vec<bool> {
    let mut held = vec![false; position.grid().hexes()];
    for unit in position.units.iter().filter(|unit| unit.on_map() && question(unit)) {
        held[usize::from(unit.hex)] = true;
    }
    held
}
