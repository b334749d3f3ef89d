//! Groups that owe a retreat.

use super::staged::{give_role, write_routes};
use super::units::add;
use crate::generator::chance::Chance;
use crate::rules::board::position::*;

/// One to three units in the hex; all owe, or some stay behind. A supply unit may be among them.
pub fn group(chance: &mut Chance, position: &mut Position, force: u8, start: usize, all_owe: bool) {
    let count = if all_owe { chance.from_to(1, 3) } else { chance.from_to(2, 3) };
    let first = add(chance, position, start, force, false);
    first.into_iter().for_each(|unit| give_role(position, unit, OWES));
    for _ in 1..count {
        let supply_unit = chance.percent(20);
        let another = add(chance, position, start, force, supply_unit);
        if let Some(unit) = another.filter(|_| all_owe || chance.percent(30)) {
            give_role(position, unit, OWES);
        }
    }
}

/// Now and then other stacks of the force owe too; some routes are there already.
pub fn others_that_owe(chance: &mut Chance, position: &mut Position, force: u8, start: usize) {
    let own = |unit: &&usize| position.units[**unit].force() == force && !position.units[**unit].stands_on(start);
    let units: Vec<usize> = (0..position.units.len()).collect();
    let others: Vec<usize> = units.iter().filter(own).copied().collect();
    for _ in 0..chance.pick(&[0, 0, 0, 1, 2]) {
        if let Some(unit) = chance.pick_any(&others) {
            give_role(position, unit, OWES);
        }
    }
    let routes = chance.pick(&[0, 0, 1, 3]);
    write_routes(chance, position, routes);
}
