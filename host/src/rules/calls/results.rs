//! The results of an attack: D and A, De and Ae, Dx and Ax.

use super::battle::{printed_total, Fighter};
use super::stages;
use crate::rules::board::position::*;

/// Carry out a result code on both sides of a battle.
pub fn carry_out(position: &mut Position, code: u8, attackers: &[Fighter], defenders: &[Fighter]) {
    match code {
        1..=3 => retreat(position, code, defenders, attackers),
        4..=6 => retreat(position, code - 3, attackers, defenders),
        7 => eliminate(position, attackers, defenders),
        8 => eliminate(position, defenders, attackers),
        9 => exchange(position, defenders, attackers),
        _ => exchange(position, attackers, defenders),
    }
}

/// D and A: the losers owe a retreat of n, the victors may advance.
fn retreat(position: &mut Position, n: u8, losers: &[Fighter], victors: &[Fighter]) {
    give_role(position, losers, OWES);
    give_role(position, victors, MAY_ADVANCE);
    position.desk.stage = RETREATS;
    position.desk.owed_retreat = n;
}

/// De and Ae: one side is destroyed, the other may advance.
fn eliminate(position: &mut Position, losers: &[Fighter], victors: &[Fighter]) {
    destroy_side(position, losers);
    give_role(position, victors, MAY_ADVANCE);
    position.desk.stage = ADVANCES;
}

/// Dx and Ax: one side is destroyed, the other owes losses of its printed total.
fn exchange(position: &mut Position, losers: &[Fighter], others: &[Fighter]) {
    destroy_side(position, losers);
    give_role(position, others, OWES);
    position.desk.stage = LOSSES;
    position.desk.need = printed_total(losers) as u16;
}

fn give_role(position: &mut Position, side: &[Fighter], role: u8) {
    for fighter in side {
        position.units[fighter.unit].role = role;
    }
}

/// Destroy a side and write each of its hexes alone as a route, once each in list order.
fn destroy_side(position: &mut Position, side: &[Fighter]) {
    let mut hexes = Vec::new();
    for fighter in side {
        let hex = position.units[fighter.unit].hex;
        if !hexes.contains(&hex) {
            hexes.push(hex);
        }
        stages::destroy(&mut position.units[fighter.unit]);
    }
    for hex in hexes {
        stages::write_route(&mut position.desk, &[hex]);
    }
}
