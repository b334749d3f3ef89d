//! The end phase call.

use super::checks;
use super::clock::Clock;
use super::supply::units_in_supply;
use crate::rules::board::position::*;
use crate::rules::refusal::{require, Refusal, LAST_PHASE};

/// Rule on the end of a phase; when accepted the scratch is handed back all 0.
pub fn end_phase(position: &mut Position, scratch: &mut [u8]) -> Result<(), Refusal> {
    checks::scratch(position, scratch)?;
    checks::stage(position, QUIET)?;
    let desk = &position.desk;
    let clock = Clock { turn: desk.turn, force: desk.force, phase: desk.phase };
    let is_last = clock.ends_turn() && desk.turn == desk.last_turn;
    require(!is_last, LAST_PHASE, 0)?;
    for unit in &mut position.units {
        unit.marks &= !(MOVED | FOUGHT);
    }
    let next = clock.moved_on();
    position.desk.turn = next.turn;
    position.desk.force = next.force;
    position.desk.phase = next.phase;
    if next.phase != COMBAT {
        judge_supply(position);
    }
    scratch.fill(0);
    Ok(())
}

/// Set or clear supplied on the phasing force's mapped units.
fn judge_supply(position: &mut Position) {
    let in_supply = units_in_supply(position);
    let phasing = position.desk.force;
    for (unit, supplied) in position.units.iter_mut().zip(in_supply) {
        if unit.on_map() && unit.force() == phasing {
            unit.marks &= !SUPPLIED;
            if supplied {
                unit.marks |= SUPPLIED;
            }
        }
    }
}
