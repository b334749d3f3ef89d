//! The attack call: a target, a list of 1 to 18 units, a die.

use super::battle;
use super::checks;
use super::results;
use crate::rules::board::position::*;
use crate::rules::board::unit_type;
use crate::rules::refusal::*;

/// What an accepted attack answers: the column, from 1, and the result code.
#[derive(Clone, Copy, Debug, PartialEq, Eq)]
pub struct Fought {
    pub column: usize,
    pub code: u8,
}

/// Rule on an attack; when accepted the scratch is handed back all 0.
pub fn attack(
    position: &mut Position,
    target: u16,
    die: u16,
    list: &[u16],
    scratch: &mut [u8],
) -> Result<Fought, Refusal> {
    checks::length(list.len(), 1, 18)?;
    checks::scratch(position, scratch)?;
    let target = checks::hex(position, target, 0)?;
    require((1..=6).contains(&die), OUT_OF_RANGE, 0)?;
    let attackers = checks::units(position, list)?;
    checks::stage(position, QUIET)?;
    checks::phase(position, &[COMBAT])?;
    let defenders = position.units_on(target);
    require(is_target(position, target, &defenders), BAD_TARGET, 0)?;
    for index in 0..attackers.len() {
        attacker(position, target, &attackers, index)?;
    }
    let fought = fight(position, target, usize::from(die), &attackers, &defenders);
    scratch.fill(0);
    Ok(fought)
}

/// Enemies stand there and none of them has fought.
fn is_target(position: &Position, target: usize, defenders: &[usize]) -> bool {
    position.enemy_on(target, position.desk.force) && defenders.iter().all(|&unit| !position.units[unit].has(FOUGHT))
}

/// Every question for one attacker of the list.
fn attacker(position: &Position, target: usize, attackers: &[usize], index: usize) -> Result<(), Refusal> {
    let place = index + 1;
    let number = attackers[index];
    let unit = &position.units[number];
    checks::phasing(position, unit, place)?;
    require(unit_type::may_attack(unit.kind) && !unit.has(FOUGHT), FORBIDDEN_BY_TYPE_OR_MARK, place)?;
    require(!attackers[..index].contains(&number), NAMED_TWICE, place)?;
    require(position.joined(usize::from(unit.hex), target), ATTACKER_NOT_ADJACENT, place)
}

/// Odds, column and code; then all participants turn over and the result is carried out.
fn fight(position: &mut Position, target: usize, die: usize, attackers: &[usize], defenders: &[usize]) -> Fought {
    let attack_line = battle::battle_line(position, attackers);
    let defence_line = battle::battle_line(position, defenders);
    let attack = battle::fighting_total(&attack_line);
    let defence = battle::fighting_total(&defence_line) * battle::defence_multiple(position, target, attackers);
    let column = battle::column(&position.results, attack, defence);
    let code = position.results[column].codes[die - 1];
    for fighter in attack_line.iter().chain(&defence_line) {
        position.units[fighter.unit].marks |= TRIED | FOUGHT;
    }
    results::carry_out(position, code, &attack_line, &defence_line);
    Fought { column: column + 1, code }
}
