//! What the tests share: hand-made positions and one line of record ruled on them.
#![allow(dead_code)]

pub mod crowds;

use host::record::table::Table;
use host::rules::board::acceptance::accepted;
use host::rules::board::contents::written;
use host::rules::board::position::*;

pub const SAU: u8 = 0;
pub const ESC: u8 = 1;
pub const PAL: u8 = 2;
pub const US: u8 = 3;
pub const CANADA: u8 = 4;

pub const ARMOUR: u8 = 0;
pub const MECH: u8 = 1;
pub const INFANTRY: u8 = 2;
pub const MILITIA: u8 = 3;
pub const SPECIAL: u8 = 4;
pub const SUPPLY_UNIT: u8 = 5;

/// Stand a unit on a hex; its number is answered.
pub fn stand(position: &mut Position, nationality: u8, kind: u8, hex: u16, strength: u8) -> usize {
    let allowance = if kind == SUPPLY_UNIT { 0 } else { 6 };
    position.units.push(Unit::new(nationality, kind, hex, strength, allowance));
    position.units.len() - 1
}

/// A plain map in the combat phase of a force.
pub fn combat(width: u8, height: u8, force: u8) -> Position {
    let mut position = Position::plain(width, height);
    position.desk.phase = COMBAT;
    position.desk.force = force;
    position
}

/// Every column gives this code for every die.
pub fn all_results(position: &mut Position, code: u8) {
    for column in &mut position.results {
        column.codes = [code; 6];
    }
}

/// Give a unit a role; it is tried by that.
pub fn give_role(position: &mut Position, unit: usize, role: u8) {
    position.units[unit].role = role;
    position.units[unit].marks |= TRIED;
}

/// Write a route into its slot.
pub fn route(position: &mut Position, slot: usize, hexes: &[u16]) {
    position.desk.routes[slot][..hexes.len()].copy_from_slice(hexes);
}

/// Set the side of a hex in a direction 0 north, 1 north-east, 2 south-east.
pub fn set_side(position: &mut Position, hex: usize, direction: usize, side: u8) {
    let sides = &mut position.map.hexes[hex].sides;
    *sides = *sides & !(3 << (2 * direction)) | side << (2 * direction);
}

/// Rule on one line of record, on a position that must be accepted; answer and position after.
pub fn rule(position: &Position, line: &str) -> (String, Position) {
    let mut table = Table::with_all_calls();
    table.position = written(position);
    assert_eq!(accepted(&table.position).err(), None, "the test's own position is broken");
    let answer = table.play(line.as_bytes()).text().expect("an answer");
    let after = accepted(&table.position).expect("the position after is accepted");
    (answer, after)
}

/// The answer alone; a refusal must have left the position as it was.
pub fn answer(position: &Position, line: &str) -> String {
    let (answer, after) = rule(position, line);
    if answer.starts_with("no ") {
        assert_eq!(&after, position);
    }
    answer
}

/// The first line the position breaks.
pub fn broken(position: &Position) -> &'static str {
    accepted(&written(position)).expect_err("a broken position")
}

pub fn is_accepted(position: &Position) -> bool {
    accepted(&written(position)).is_ok()
}

/// The supply call's buffer for a nationality, as digits 0 and 1.
pub fn supply(position: &Position, nationality: u8) -> String {
    let mut table = Table::with_all_calls();
    table.position = written(position);
    assert_eq!(table.play(format!("supply {nationality}").as_bytes()).text().as_deref(), Some("ok"));
    let digits = table.play(b"lent").text().expect("digits");
    digits.as_bytes().chunks(2).map(|pair| char::from(pair[1])).collect()
}
