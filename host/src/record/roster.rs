//! The roster: each unit on the map, its hex, S or O by supply now.

use crate::rules::board::acceptance::accepted;
use crate::rules::calls::supply::units_in_supply;

/// A line for each mapped unit, by number; `refused 1` alone for a refused position.
pub fn roster(bytes: &[u8]) -> Vec<String> {
    let Ok(position) = accepted(bytes) else {
        return vec!["refused 1".to_string()];
    };
    let letter = |supplied| if supplied { "S" } else { "O" };
    let units = position.units.iter().zip(units_in_supply(&position)).enumerate();
    units
        .filter(|(_, (unit, _))| unit.on_map())
        .map(|(number, (unit, supplied))| format!("{number} {} {}", unit.hex, letter(supplied)))
        .collect()
}
