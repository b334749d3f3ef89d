//! Units by chance, and hexes that take them.

use crate::generator::chance::Chance;
use crate::rules::board::position::*;
use crate::rules::board::unit_type::{belongs_to, INFANTRY, SUPPLY_UNIT};

/// Is there ground for a unit of the force, and room for one more?
pub fn takes(position: &Position, hex: usize, force: u8) -> bool {
    let there = position.units_on(hex);
    let own = there.iter().all(|&unit| position.units[unit].force() == force);
    position.bears_units(hex) && own && there.len() < 3
}

/// A unit of a force with any type it may have, often at the limits of its numbers.
pub fn unit_of(chance: &mut Chance, force: u8, hex: Option<u16>) -> Unit {
    let nationality = if force == 3 { chance.byte(3, 4) } else { force };
    let kinds: Vec<u8> = (0..6).filter(|&kind| belongs_to(kind, nationality)).collect();
    let kind = chance.pick(&kinds);
    let strength = if chance.percent(80) { chance.byte(1, 9) } else { chance.byte_at_limits(1, 60) };
    let allowance = match kind {
        SUPPLY_UNIT => 0,
        _ if chance.percent(80) => chance.byte(2, 9),
        _ => chance.byte_at_limits(0, 30),
    };
    let mut unit = Unit::new(nationality, kind, hex.unwrap_or(NONE), strength, allowance);
    unit.marks |= marks(chance, hex.is_some());
    unit
}

/// Any marks on the map, though moved and fought are the rarer; in the box at most tried.
fn marks(chance: &mut Chance, mapped: bool) -> u8 {
    let mut marks = chance.byte(0, 3);
    for mark in [MOVED, FOUGHT] {
        if chance.percent(15) {
            marks |= mark;
        }
    }
    if mapped {
        marks
    } else {
        marks & TRIED
    }
}

/// Add a unit, if the hex takes it: a supply unit, if one is wanted and the force has any, or one of another type.
pub fn add(chance: &mut Chance, position: &mut Position, hex: usize, force: u8, supply_unit: bool) -> Option<usize> {
    if !takes(position, hex, force) {
        return None;
    }
    let mut unit = unit_of(chance, force, Some(hex as u16));
    if supply_unit && force < 3 {
        unit = Unit::new(unit.nationality, SUPPLY_UNIT, unit.hex, unit.strength, 0);
    } else if unit.kind == SUPPLY_UNIT {
        unit = Unit::new(unit.nationality, INFANTRY, unit.hex, unit.strength, chance.byte(2, 9));
    }
    position.units.push(unit);
    Some(position.units.len() - 1)
}

/// One to three units of the force, now and then with a supply unit among them.
pub fn stack(chance: &mut Chance, position: &mut Position, hex: usize, force: u8, supply_units: usize) {
    for _ in 0..chance.pick(&[1, 1, 1, 2, 3]) {
        let supply_unit = chance.percent(supply_units);
        add(chance, position, hex, force, supply_unit);
    }
}
