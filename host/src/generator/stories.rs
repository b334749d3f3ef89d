//! Stories: a position and several calls on it.

use super::chance::Chance;
use super::orders::{self, targets};
use super::positions::breaks::{break_names, broken_bytes, changed_byte};
use super::positions::crowds::crowded_road;
use super::positions::dead_ends::dead_end;
use super::positions::forces::neutral_of;
use super::positions::neutrals::{add_neutrals, hold_routes};
use super::positions::scene::{add_unit, empty_scene, few_units, large_size, scene, small_size};
use super::positions::staged::{add_battle, add_rivers, enter_special_losses, enter_stage};
use super::positions::units::add;
use super::writer::{Aim, Writer};
use crate::rules::board::contents::written;
use crate::rules::board::position::*;
use crate::rules::order::{Answer, Call, CALLS};

/// A small position of any kind: any phase, any stage.
pub fn any_position(chance: &mut Chance) -> Position {
    let size = small_size(chance);
    let units = few_units(chance, size);
    let mut position = scene(chance, size, units);
    let stage = chance.byte(0, 3);
    if stage != QUIET {
        enter_stage(chance, &mut position, stage);
    }
    if chance.percent(60) {
        add_neutrals(chance, &mut position);
    }
    position
}

/// Some calls, most of them fit for the stage, most of them aimed at rare answers.
pub fn some_calls(writer: &mut Writer, count: usize) {
    for _ in 0..count {
        let call = writer.likely_call();
        let aim = [Aim::Rare, Aim::Accepted, Aim::Any, Aim::Neutral][writer.chance.weighted(&[40, 25, 10, 25])];
        writer.order(call, aim);
        noise(writer);
    }
}

/// Any small position and a few calls.
pub fn soup(writer: &mut Writer) {
    let position = any_position(&mut writer.chance);
    writer.set_position(&written(&position));
    let count = writer.chance.from_to(2, 7);
    some_calls(writer, count);
}

/// A movement phase with movers and Enemies about.
pub fn movement(writer: &mut Writer) {
    let chance = &mut writer.chance;
    let size = (chance.byte(3, 7), chance.byte(3, 7));
    let units = chance.from_to(4, 12);
    let mut position = scene(chance, size, units);
    position.desk.phase = chance.pick(&[LAND_MOVEMENT, LAND_MOVEMENT, MECHANISED]);
    if chance.percent(75) {
        add_neutrals(chance, &mut position);
    }
    make_someone_phasing(chance, &mut position);
    if chance.percent(30) {
        fill_beside_a_mover(chance, &mut position);
    }
    writer.set_position(&written(&position));
    let count = writer.chance.from_to(3, 8);
    some_calls(writer, count);
}

/// As many as can stand on a hex beside a mover.
fn fill_beside_a_mover(chance: &mut Chance, position: &mut Position) {
    let movers = orders::movers(position);
    let Some(unit) = chance.pick_any(&movers).map(|mover| position.units[mover]) else { return };
    let near: Vec<usize> = position.grid().neighbours(usize::from(unit.hex)).into_iter().flatten().collect();
    let Some(hex) = chance.pick_any(&near) else { return };
    while add(chance, position, hex, unit.force(), false).is_some() {}
}

/// The phasing force is one that has units on the map, if any has.
pub fn make_someone_phasing(chance: &mut Chance, position: &mut Position) {
    let forces: Vec<u8> = position.units.iter().filter(|unit| unit.on_map()).map(|unit| unit.force()).collect();
    position.desk.force = chance.pick_any(&forces).unwrap_or(position.desk.force);
}

/// A battle around one hex and what follows from it.
pub fn battle(writer: &mut Writer) {
    let crowded = writer.chance.percent(8);
    let chance = &mut writer.chance;
    let size = (chance.byte(3, 6), chance.byte(3, 6));
    let mut position = empty_scene(chance, size);
    position.desk.phase = COMBAT;
    add_battle(chance, &mut position, crowded);
    if chance.percent(35) {
        add_rivers(chance, &mut position);
    }
    for _ in 0..chance.below(4) {
        add_unit(chance, &mut position, &[0, 1, 2, 3]);
    }
    if chance.percent(75) {
        add_neutrals(chance, &mut position);
    }
    writer.set_position(&written(&position));
    for _ in 0..writer.chance.from_to(1, 3) {
        fight_out(writer);
    }
}

/// An attack, refused orders in between, and calls until it is quiet again.
fn fight_out(writer: &mut Writer) {
    let can_attack = writer
        .position()
        .is_some_and(|position| !targets(&position, |one, other| position.desk.enemy(one, other)).is_empty());
    if !can_attack || !writer.exists(Call::Attack) {
        return some_calls(writer, 1);
    }
    if writer.chance.percent(40) {
        writer.order(Call::Attack, Aim::Rare);
    }
    if is_quiet(writer) {
        writer.order(Call::Attack, Aim::Accepted);
    }
    for _ in 0..16 {
        if is_quiet(writer) {
            return;
        }
        let aim = [Aim::Rare, Aim::Accepted, Aim::Neutral][writer.chance.weighted(&[40, 45, 15])];
        let call = writer.likely_call();
        writer.order(call, aim);
        noise(writer);
    }
}

fn is_quiet(writer: &Writer) -> bool {
    writer.position().is_none_or(|position| position.desk.stage == QUIET)
}

/// A position in the middle of a combat.
pub fn staged(writer: &mut Writer) {
    let chance = &mut writer.chance;
    let size = (chance.byte(2, 6), chance.byte(2, 6));
    let units = chance.from_to(4, 14);
    let mut position = scene(chance, size, units);
    let stage = chance.byte(1, 3);
    enter_stage(chance, &mut position, stage);
    if chance.percent(75) {
        hold_routes(chance, &mut position);
        add_neutrals(chance, &mut position);
    }
    if chance.percent(50) {
        make_someone_phasing(chance, &mut position);
    }
    writer.set_position(&written(&position));
    let count = writer.chance.from_to(3, 7);
    some_calls(writer, count);
}

/// A group owes in a crowded road.
pub fn crowded(writer: &mut Writer) {
    let position = crowded_road(&mut writer.chance);
    writer.set_position(&written(&position));
    retreat_all(writer);
    let count = writer.chance.below(2);
    some_calls(writer, count);
}

/// A group owes in a dead end; the victors advance along its part route.
pub fn trapped(writer: &mut Writer) {
    let position = dead_end(&mut writer.chance);
    writer.set_position(&written(&position));
    retreat_all(writer);
    for _ in 0..2 {
        if writer.exists(Call::Advance) && is_in_stage(writer, ADVANCES) {
            writer.order(Call::Advance, Aim::Accepted);
        }
    }
}

/// Orders that are nearly legal first, then a right one, as long as somebody owes.
fn retreat_all(writer: &mut Writer) {
    if !writer.exists(Call::Retreat) {
        return some_calls(writer, 2);
    }
    for _ in 0..3 {
        for _ in 0..writer.chance.from_to(0, 3) {
            nearly_legal(writer);
        }
        let aim = [Aim::Accepted, Aim::Rare, Aim::Neutral][writer.chance.weighted(&[65, 10, 25])];
        writer.order(Call::Retreat, aim);
        noise(writer);
        if !is_in_stage(writer, RETREATS) {
            break;
        }
    }
}

fn nearly_legal(writer: &mut Writer) {
    if let Some(position) = writer.position().filter(|_| is_in_stage(writer, RETREATS)) {
        let order = orders::nearly_legal(&mut writer.chance, &position);
        writer.call(&order);
    }
}

pub fn is_in_stage(writer: &Writer, stage: u8) -> bool {
    writer.position().is_some_and(|position| position.desk.stage == stage)
}

/// P.A.L. losses with special infantry; P.A.L. is phasing or not, or a force neutral to it is.
pub fn special_losses(writer: &mut Writer) {
    let chance = &mut writer.chance;
    let (size, units) = ((chance.byte(2, 4), chance.byte(2, 4)), chance.from_to(1, 8));
    let mut position = scene(chance, size, units);
    enter_special_losses(chance, &mut position);
    let neutral = neutral_of(chance, &position.desk, 2).filter(|_| chance.percent(60));
    position.desk.force = neutral.unwrap_or(chance.pick(&[2, 2, 2, 0, 1, 3]));
    writer.set_position(&written(&position));
    let count = writer.chance.from_to(3, 6);
    some_calls(writer, count);
}

/// A game that runs through phases and turns, often to its end.
pub fn game(writer: &mut Writer) {
    let chance = &mut writer.chance;
    let size = (chance.byte(4, 6), chance.byte(4, 6));
    let mut position = empty_scene(chance, size);
    for _ in 0..chance.from_to(8, 16) {
        add_unit(chance, &mut position, &[0, 1, 2, 3]);
    }
    position.desk.last_turn = (position.desk.turn + chance.byte(0, 1)).min(60);
    writer.set_position(&written(&position));
    for _ in 0..60 {
        let call = writer.likely_call();
        let aim = [Aim::Accepted, Aim::Rare][writer.chance.weighted(&[85, 15])];
        let answer = writer.order(call, aim);
        if matches!(answer, Answer::Refused(refusal) if refusal.number == 16) {
            return;
        }
    }
}

/// Phase after phase, so that the clock goes round.
pub fn phases(writer: &mut Writer) {
    if !writer.exists(Call::End) {
        return soup(writer);
    }
    let chance = &mut writer.chance;
    let (size, units) = ((chance.byte(1, 4), chance.byte(1, 4)), chance.from_to(2, 6));
    let position = scene(chance, size, units);
    writer.set_position(&written(&position));
    for _ in 0..writer.chance.from_to(3, 14) {
        writer.order(Call::End, Aim::Accepted);
    }
}

/// A position broken in one line; the lines are taken in turn.
pub fn broken(writer: &mut Writer, turn: usize) {
    broken_in(writer, turn % break_names().len());
}

/// A position broken in the line of this number.
pub fn broken_in(writer: &mut Writer, line: usize) {
    for _ in 0..80 {
        let position = any_position(&mut writer.chance);
        if let Some(bytes) = broken_bytes(&mut writer.chance, &position, line) {
            writer.set_position(&bytes);
            return any_calls(writer, 1);
        }
    }
}

/// A position with one byte changed, which may or may not be accepted.
pub fn changed(writer: &mut Writer) {
    let position = any_position(&mut writer.chance);
    let bytes = changed_byte(&mut writer.chance, written(&position));
    writer.set_position(&bytes);
    any_calls(writer, 1);
}

/// Calls of any kind, the right one for the stage no likelier than others.
fn any_calls(writer: &mut Writer, count: usize) {
    for _ in 0..count {
        let calls: Vec<Call> = CALLS.into_iter().filter(|&call| writer.exists(call)).collect();
        let call = writer.chance.pick(&calls);
        writer.order(call, Aim::Any);
    }
}

/// The empty position, and others far too short.
pub fn empty(writer: &mut Writer) {
    let length = writer.chance.pick(&[0, 0, 1, 4, 19, 20, 130]);
    let fill = writer.chance.pick(&[0, 255, 20]);
    writer.set_position(&vec![fill; length]);
    any_calls(writer, 2);
}

/// A position at the limits: 400 units, or the most columns, or the last turn of all.
pub fn limits(writer: &mut Writer) {
    let chance = &mut writer.chance;
    let (size, units) = match chance.below(3) {
        0 => ((1, 1), 400),
        1 => ((12, 12), 400),
        _ => ((8, 8), 150),
    };
    let mut position = scene(chance, size, units);
    (position.desk.turn, position.desk.last_turn) = (60, 60);
    make_someone_phasing(chance, &mut position);
    let stage = chance.byte(0, 3);
    if stage != QUIET {
        enter_stage(chance, &mut position, stage);
    }
    writer.set_position(&written(&position));
    some_calls(writer, 6);
}

/// A large map and a few calls.
pub fn large(writer: &mut Writer) {
    let chance = &mut writer.chance;
    let size = large_size(chance);
    let units = chance.from_to(10, 60);
    let mut position = scene(chance, size, units);
    make_someone_phasing(chance, &mut position);
    let stage = chance.pick(&[0, 0, 1, 2, 3]);
    if stage != QUIET {
        enter_stage(chance, &mut position, stage);
    }
    writer.set_position(&written(&position));
    some_calls(writer, 6);
}

/// Now and then a line that is passed over or cannot be read.
pub fn noise(writer: &mut Writer) {
    const LINES: [&[u8]; 40] = [
        b"",
        b"#",
        b"# move 0 1",
        b"  \t",
        b"\r",
        b"move",
        b"supply",
        b"supply x",
        b"supply 1 2",
        b"attack 3",
        b"retreat",
        b"retreat /",
        b"retreat / 1",
        b"retreat 1 / 2 / 3",
        b"retreat 1 //",
        b"retreat 1 2/3",
        b"retreat 1 / 65536",
        b"move 0 1 / 2",
        b"losses /",
        b"advance 1",
        b"advance 1 2 3",
        b"end 0",
        b"close 1",
        b"position",
        b"position abc",
        b"position 0g",
        b"position - -",
        b"buffer",
        b"buffer 65536",
        b"buffer 1 1",
        b"move 0 65536",
        b"move 0 -1",
        b"move 0 1,2",
        b"Move 0 1",
        b"ends",
        b"show 1",
        b"lent 0",
        b"supply 1\0",
        b"\xff\xfe\x00",
        b"supply 99999999999999999999999999",
    ];
    if writer.chance.percent(3) {
        let line = writer.chance.pick(&LINES);
        writer.line(line);
    }
}

/// The longest position line that can be read, or the shortest that cannot.
pub fn endless(writer: &mut Writer) {
    let bytes = writer.chance.pick(&[65535, 65536]);
    writer.line(format!("position {}", "00".repeat(bytes)).as_bytes());
    any_calls(writer, 1);
}
