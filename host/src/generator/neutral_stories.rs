//! Stories that neutrals decide.

use super::orders;
use super::positions::breaks::{break_names, PLAYER_LINES};
use super::positions::neutrals::{add_neutrals, hold_routes};
use super::positions::scene::scene;
use super::positions::staged::enter_stage;
use super::positions::supply_lines;
use super::stories::{broken_in, is_in_stage, make_someone_phasing, some_calls};
use super::writer::{Aim, Writer};
use crate::rules::board::contents::written;
use crate::rules::board::position::*;
use crate::rules::board::unit_type::SUPPLY_UNIT;
use crate::rules::order::Call;

/// Movers with a long way to go, and neutrals in it.
pub fn in_the_way(writer: &mut Writer) {
    let chance = &mut writer.chance;
    let size = (chance.byte(4, 8), chance.byte(3, 8));
    let units = chance.from_to(3, 9);
    let mut position = scene(chance, size, units);
    position.desk.phase = LAND_MOVEMENT;
    make_someone_phasing(chance, &mut position);
    add_neutrals(chance, &mut position);
    for unit in position.units.iter_mut().filter(|unit| unit.kind != SUPPLY_UNIT) {
        unit.allowance = chance.byte(6, 30);
        unit.marks &= !MOVED;
    }
    writer.set_position(&written(&position));
    for _ in 0..writer.chance.from_to(2, 5) {
        match writer.position().filter(|_| writer.exists(Call::Move)) {
            Some(position) if writer.chance.percent(60) => {
                let order = orders::into_a_neutral(&mut writer.chance, &position);
                writer.call(&order);
            }
            Some(_) => drop(writer.order(Call::Move, Aim::Neutral)),
            None => some_calls(writer, 1),
        }
    }
}

/// Victors with routes before them that neutrals hold.
pub fn roads_held(writer: &mut Writer) {
    let chance = &mut writer.chance;
    let size = (chance.byte(3, 6), chance.byte(3, 6));
    let units = chance.from_to(3, 8);
    let mut position = scene(chance, size, units);
    enter_stage(chance, &mut position, ADVANCES);
    hold_routes(chance, &mut position);
    writer.set_position(&written(&position));
    for _ in 0..writer.chance.from_to(2, 4) {
        if writer.exists(Call::Advance) && is_in_stage(writer, ADVANCES) {
            writer.order(Call::Advance, Aim::Neutral);
        }
    }
    some_calls(writer, 1);
}

/// A supply line with neutrals about it: supply, and what hangs on it.
pub fn supply_line(writer: &mut Writer) {
    let position = supply_lines::supply_line(&mut writer.chance);
    writer.set_position(&written(&position));
    for _ in 0..writer.chance.from_to(1, 4) {
        let call = writer.chance.pick(&[Call::Supply, Call::Supply, Call::Attack, Call::Attack, Call::End, Call::End]);
        if writer.exists(call) {
            writer.order(call, Aim::Neutral);
        }
    }
    some_calls(writer, 1);
}

/// A position broken in its desk's length, in its players or by neutrals.
pub fn broken_players(writer: &mut Writer) {
    let name = PLAYER_LINES[writer.chance.weighted(&[4, 4, 2, 3, 2, 1, 1])];
    if let Some(line) = break_names().iter().position(|one| *one == name) {
        broken_in(writer, line);
    }
}
