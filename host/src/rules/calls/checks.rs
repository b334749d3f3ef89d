//! Questions that several calls share: numbers in range, stage and phase, the phasing force.

use crate::rules::board::position::{Position, Unit};
use crate::rules::refusal::{require, Refusal, NOT_THE_UNIT, OUT_OF_RANGE, WRONG_STAGE_OR_PHASE};

pub fn length(length: usize, lowest: usize, highest: usize) -> Result<(), Refusal> {
    require((lowest..=highest).contains(&length), OUT_OF_RANGE, 0)
}

/// A scratch is exactly width x height bytes long.
pub fn scratch(position: &Position, scratch: &[u8]) -> Result<(), Refusal> {
    require(scratch.len() == position.grid().hexes(), OUT_OF_RANGE, 0)
}

pub fn hex(position: &Position, hex: u16, place: usize) -> Result<usize, Refusal> {
    require(usize::from(hex) < position.grid().hexes(), OUT_OF_RANGE, place)?;
    Ok(usize::from(hex))
}

pub fn unit(position: &Position, unit: u16, place: usize) -> Result<usize, Refusal> {
    require(usize::from(unit) < position.units.len(), OUT_OF_RANGE, place)?;
    Ok(usize::from(unit))
}

/// Every hex of a path, each with its place from 1.
pub fn hexes(position: &Position, path: &[u16]) -> Result<Vec<usize>, Refusal> {
    path.iter().enumerate().map(|(index, &number)| hex(position, number, index + 1)).collect()
}

/// Every unit of a list, each with its place from 1.
pub fn units(position: &Position, list: &[u16]) -> Result<Vec<usize>, Refusal> {
    list.iter().enumerate().map(|(index, &number)| unit(position, number, index + 1)).collect()
}

pub fn stage(position: &Position, stage: u8) -> Result<(), Refusal> {
    require(position.desk.stage == stage, WRONG_STAGE_OR_PHASE, 0)
}

pub fn phase(position: &Position, phases: &[u8]) -> Result<(), Refusal> {
    require(phases.contains(&position.desk.phase), WRONG_STAGE_OR_PHASE, 0)
}

/// On the map and of the phasing force.
pub fn phasing(position: &Position, unit: &Unit, place: usize) -> Result<(), Refusal> {
    require(unit.on_map() && unit.force() == position.desk.force, NOT_THE_UNIT, place)
}
