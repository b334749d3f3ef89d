//! The group that owes: the role 1 units of one hex, which go together.

use crate::rules::board::position::*;
use crate::rules::board::unit_type::SUPPLY_UNIT;

/// The role 1 units of a hex.
pub fn owing_group(position: &Position, hex: usize) -> Vec<usize> {
    position.units_on(hex).into_iter().filter(|&unit| position.units[unit].role == OWES).collect()
}

pub fn only_supply_units(position: &Position, group: &[usize]) -> bool {
    group.iter().all(|&unit| position.units[unit].kind == SUPPLY_UNIT)
}
