//! The losses call: the owing force names what it gives up.

use super::checks;
use super::stages;
use crate::rules::board::position::*;
use crate::rules::board::unit_type::SPECIAL_INFANTRY;
use crate::rules::refusal::*;

/// Rule on a list of 1 to 18 units given up; survivors may advance.
pub fn losses(position: &mut Position, list: &[u16]) -> Result<(), Refusal> {
    checks::length(list.len(), 1, 18)?;
    let list = checks::units(position, list)?;
    checks::stage(position, LOSSES)?;
    for (index, &unit) in list.iter().enumerate() {
        require(position.units[unit].role == OWES, NOT_THE_UNIT, index + 1)?;
        require(!list[..index].contains(&unit), NAMED_TWICE, index + 1)?;
    }
    require(is_enough(position, &list) && special_infantry_first(position, &list), LOSSES_SHORT, 0)?;
    for &unit in &list {
        stages::destroy(&mut position.units[unit]);
    }
    for survivor in position.units_with_role(OWES) {
        position.units[survivor].role = MAY_ADVANCE;
    }
    stages::follow_on(position);
    Ok(())
}

/// The printed total reaches need, or all that owe are named.
fn is_enough(position: &Position, list: &[usize]) -> bool {
    let printed: u32 = list.iter().map(|&unit| u32::from(position.units[unit].strength)).sum();
    let names_all = position.units_with_role(OWES).iter().all(|unit| list.contains(unit));
    printed >= u32::from(position.desk.need) || names_all
}

/// 16.12: the phasing force gives up other types only with every special infantry that owes.
fn special_infantry_first(position: &Position, list: &[usize]) -> bool {
    let owing = position.units_with_role(OWES);
    let is_special = |unit: &usize| position.units[*unit].kind == SPECIAL_INFANTRY;
    let phasing_owes = owing.iter().any(|&unit| position.units[unit].force() == position.desk.force);
    let names_other_type = list.iter().any(|unit| !is_special(unit));
    let names_every_special = owing.iter().filter(|unit| is_special(unit)).all(|unit| list.contains(unit));
    !phasing_owes || !names_other_type || names_every_special
}
