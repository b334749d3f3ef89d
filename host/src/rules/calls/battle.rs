//! The battle line and the odds: one record for each participant.

use super::supply::units_in_supply;
use crate::rules::board::position::{Column, Position};

#[derive(Clone, Copy, Debug, PartialEq, Eq)]
pub struct Fighter {
    pub unit: usize,
    pub printed: u32,
    pub fighting: u32,
}

/// A strength out of supply is halved, fractions up.
pub fn halved(strength: u32) -> u32 {
    strength.div_ceil(2)
}

/// The records of some units, supply judged as the position stands.
pub fn battle_line(position: &Position, units: &[usize]) -> Vec<Fighter> {
    let in_supply = units_in_supply(position);
    let record = |&unit: &usize| {
        let printed = u32::from(position.units[unit].strength);
        let fighting = if in_supply[unit] { printed } else { halved(printed) };
        Fighter { unit, printed, fighting }
    };
    units.iter().map(record).collect()
}

pub fn printed_total(line: &[Fighter]) -> u32 {
    line.iter().map(|fighter| fighter.printed).sum()
}

pub fn fighting_total(line: &[Fighter]) -> u32 {
    line.iter().map(|fighter| fighter.fighting).sum()
}

/// The terrain's multiple; or the smallest side multiple, if every attacker
/// crosses a river or major river and that is larger.
pub fn defence_multiple(position: &Position, target: usize, attackers: &[usize]) -> u32 {
    let terrain = position.terrain(target).multiple;
    let crossed: Option<Vec<u8>> = attackers.iter().map(|&unit| multiple_crossed(position, unit, target)).collect();
    let smallest = crossed.and_then(|multiples| multiples.into_iter().min()).unwrap_or(terrain);
    u32::from(terrain.max(smallest))
}

/// The multiple of the river between a unit and the target; none for a plain side.
fn multiple_crossed(position: &Position, unit: usize, target: usize) -> Option<u8> {
    let side = position.side_between(usize::from(position.units[unit].hex), target)?;
    position.river_effect(side).map(|effect| effect.multiple)
}

/// The last column with attack x d >= a x defence, else the first; counted from 0.
pub fn column(results: &[Column], attack: u32, defence: u32) -> usize {
    let reached = |column: &Column| attack * u32::from(column.d) >= u32::from(column.a) * defence;
    results.iter().rposition(reached).unwrap_or(0)
}
