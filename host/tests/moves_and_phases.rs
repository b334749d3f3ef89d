//! Move and end phase.

mod common;
use common::*;
use host::rules::board::position::*;

/// US infantry 0 on hex 0 of a row of ten, supplied, allowance 6, force 3 moving.
fn row() -> Position {
    let mut position = Position::plain(10, 1);
    position.desk.force = 3;
    stand(&mut position, US, INFANTRY, 0, 1);
    position.units[0].marks = SUPPLIED;
    position
}

#[test]
fn a_move_changes_hex_and_moved_alone() {
    let position = row();
    let (answer, after) = rule(&position, "move 0 1 2 3 4 5 6");
    assert_eq!(answer, "ok");
    let mut expected = position.clone();
    expected.units[0].hex = 6;
    expected.units[0].marks = SUPPLIED | MOVED;
    assert_eq!(after, expected);
}

#[test]
fn the_first_step_over_the_allowance_is_10() {
    assert_eq!(answer(&row(), "move 0 1 2 3 4 5 6 7 8"), "no 10 7");
}

#[test]
fn allowance_is_halved_upward_without_the_mark() {
    let mut position = row();
    position.units[0].marks = 0;
    position.units[0].allowance = 5;
    assert_eq!(answer(&position, "move 0 1 2 3"), "ok");
    assert_eq!(answer(&position, "move 0 1 2 3 4"), "no 10 4");
}

#[test]
fn rivers_cost_extra_and_major_rivers_their_own() {
    let mut position = row();
    position.chart.river.cost = 2;
    position.chart.major_river.cost = 4;
    set_side(&mut position, 0, 2, RIVER);
    set_side(&mut position, 1, 1, MAJOR_RIVER);
    position.units[0].allowance = 8;
    assert_eq!(answer(&position, "move 0 1 2"), "ok");
    position.units[0].allowance = 7;
    assert_eq!(answer(&position, "move 0 1 2"), "no 10 2");
    position.units[0].allowance = 2;
    assert_eq!(answer(&position, "move 0 1"), "no 10 1");
}

#[test]
fn the_entered_hex_is_paid_and_not_the_left_one() {
    let mut position = row();
    position.chart.terrains[3].cost = 9;
    position.map.hexes[0].terrain = 3;
    assert_eq!(answer(&position, "move 0 1 2 3 4 5 6"), "ok");
    position.map.hexes[1].terrain = 3;
    assert_eq!(answer(&position, "move 0 1"), "no 10 1");
}

#[test]
fn lengths_come_before_numbers_and_these_before_the_path() {
    assert_eq!(answer(&row(), "move 0"), "no 3 0");
    assert_eq!(answer(&row(), "move 1 99"), "no 3 0");
    assert_eq!(answer(&row(), "move 0 1 10"), "no 3 2");
    assert_eq!(answer(&row(), "move 0 1 2 65535"), "no 3 3");
    let thirty_one = vec!["77"; 31].join(" ");
    assert_eq!(answer(&row(), &format!("move 0 {thirty_one}")), "no 3 0");
    let thirty = vec!["77"; 30].join(" ");
    assert_eq!(answer(&row(), &format!("move 0 {thirty}")), "no 3 1");
}

#[test]
fn thirty_steps_to_and_fro_may_be_walked() {
    let mut position = row();
    position.units[0].allowance = 30;
    let path = vec!["1 0"; 15].join(" ");
    assert_eq!(answer(&position, &format!("move 0 {path}")), "ok");
    position.units[0].allowance = 29;
    assert_eq!(answer(&position, &format!("move 0 {path}")), "no 10 30");
}

#[test]
fn refusal_3_comes_before_2() {
    let mut position = row();
    position.desk.phase = COMBAT;
    assert_eq!(answer(&position, "move 0 10"), "no 3 1");
    assert_eq!(answer(&position, "move 0 9"), "no 2 0");
}

#[test]
fn only_mapped_units_of_the_phasing_force_move() {
    let mut position = row();
    stand(&mut position, ESC, INFANTRY, 9, 1);
    stand(&mut position, US, INFANTRY, NONE, 1);
    stand(&mut position, CANADA, INFANTRY, 1, 1);
    assert_eq!(answer(&position, "move 1 8"), "no 4 0");
    assert_eq!(answer(&position, "move 2 8"), "no 4 0");
    assert_eq!(answer(&position, "move 3 2"), "ok");
}

#[test]
fn a_moved_unit_is_5_before_any_step() {
    let mut position = row();
    position.units[0].marks |= MOVED;
    assert_eq!(answer(&position, "move 0 9"), "no 5 0");
    position.units[0].marks = SUPPLIED | FOUGHT;
    assert_eq!(answer(&position, "move 0 9"), "no 7 1");
}

#[test]
fn four_comes_before_five() {
    let mut position = row();
    stand(&mut position, ESC, SUPPLY_UNIT, 9, 1);
    stand(&mut position, ESC, INFANTRY, 8, 1);
    position.units[2].marks = MOVED;
    assert_eq!(answer(&position, "move 1 8"), "no 4 0");
    assert_eq!(answer(&position, "move 2 7"), "no 4 0");
}

#[test]
fn each_question_is_asked_of_a_step_before_the_next_step() {
    let mut position = row();
    position.units[0].allowance = 1;
    assert_eq!(answer(&position, "move 0 1 2 9"), "no 10 2");
    assert_eq!(answer(&position, "move 0 1 9 2"), "no 7 2");
}

#[test]
fn phase_2_is_for_armour_and_mechanised() {
    for (kind, expected) in [(ARMOUR, "ok"), (MECH, "ok"), (INFANTRY, "no 5 0"), (MILITIA, "no 5 0")] {
        let mut position = row();
        position.desk.phase = 2;
        position.units[0].kind = kind;
        assert_eq!(answer(&position, "move 0 1"), expected);
    }
}

#[test]
fn supply_units_never_move_by_land() {
    let mut position = row();
    position.desk.force = 0;
    position.units[0] = Unit::new(SAU, SUPPLY_UNIT, 0, 1, 0);
    assert_eq!(answer(&position, "move 0 1"), "no 5 0");
}

#[test]
fn special_infantry_moves_in_phase_0() {
    let mut position = row();
    position.desk.force = 2;
    position.units[0] = Unit::new(PAL, SPECIAL, 0, 1, 6);
    assert_eq!(answer(&position, "move 0 1"), "ok");
    position.desk.phase = 2;
    assert_eq!(answer(&position, "move 0 1"), "no 5 0");
}

#[test]
fn a_step_to_the_same_hex_or_a_far_one_is_7() {
    assert_eq!(answer(&row(), "move 0 0"), "no 7 1");
    assert_eq!(answer(&row(), "move 0 1 3"), "no 7 2");
}

#[test]
fn blocked_prohibited_sea_and_lake_are_7() {
    let mut position = row();
    set_side(&mut position, 1, 1, BLOCKED);
    assert_eq!(answer(&position, "move 0 1 2"), "no 7 2");
    for surface in [ALL_SEA, LAKE] {
        let mut position = row();
        position.map.hexes[2].surface = surface;
        assert_eq!(answer(&position, "move 0 1 2"), "no 7 2");
    }
    let mut position = row();
    position.chart.terrains[5].cost = 0;
    position.map.hexes[2].terrain = 5;
    assert_eq!(answer(&position, "move 0 1 2"), "no 7 2");
}

#[test]
fn a_side_stored_with_the_neighbour_blocks_both_ways() {
    let mut position = row();
    set_side(&mut position, 0, 2, BLOCKED);
    position.units[0].hex = 1;
    assert_eq!(answer(&position, "move 0 0"), "no 7 1");
    position.units[0].hex = 0;
    assert_eq!(answer(&position, "move 0 1"), "no 7 1");
}

#[test]
fn the_last_hex_may_be_in_a_zone_and_no_step_follows() {
    let mut position = row();
    stand(&mut position, ESC, INFANTRY, 4, 1);
    assert_eq!(answer(&position, "move 0 1 2 3"), "ok");
    assert_eq!(answer(&position, "move 0 1 2 3 2"), "no 9 4");
}

#[test]
fn nine_comes_before_seven_and_eight() {
    let mut position = row();
    stand(&mut position, ESC, INFANTRY, 4, 1);
    assert_eq!(answer(&position, "move 0 1 2 3 9"), "no 9 4");
    assert_eq!(answer(&position, "move 0 1 2 3 4"), "no 9 4");
}

#[test]
fn eight_comes_before_ten() {
    let mut position = row();
    stand(&mut position, ESC, NO_ZONE, 1, 1);
    position.units[0].allowance = 0;
    assert_eq!(answer(&position, "move 0 1"), "no 8 1");
    assert_eq!(answer(&position, "move 0 2"), "no 7 1");
}

/// An Enemy that casts no zone.
const NO_ZONE: u8 = SUPPLY_UNIT;

#[test]
fn a_zone_at_the_start_is_free_but_not_when_entered_again() {
    let mut position = row();
    position.units[0].hex = 3;
    stand(&mut position, ESC, INFANTRY, 4, 1);
    assert_eq!(answer(&position, "move 0 2 1"), "ok");
    assert_eq!(answer(&position, "move 0 2 3"), "ok");
    assert_eq!(answer(&position, "move 0 2 3 2"), "no 9 3");
}

#[test]
fn a_friend_does_not_lift_a_zone_for_movement() {
    let mut position = row();
    stand(&mut position, ESC, INFANTRY, 3, 1);
    stand(&mut position, US, INFANTRY, 2, 1);
    assert_eq!(answer(&position, "move 0 1 2 1"), "no 9 3");
}

#[test]
fn eleven_has_the_last_place_and_leaves_the_mover_out() {
    let mut position = row();
    for _ in 0..3 {
        stand(&mut position, CANADA, INFANTRY, 2, 1);
    }
    assert_eq!(answer(&position, "move 0 1 2"), "no 11 2");
    assert_eq!(answer(&position, "move 0 1 2 3"), "ok");
    assert_eq!(answer(&position, "move 1 1 2"), "ok");
}

#[test]
fn end_phase_passes_through_phases_forces_and_turns() {
    let mut position = Position::plain(1, 1);
    position.desk.turn = 4;
    let mut seen = Vec::new();
    for _ in 0..12 {
        let (answer, after) = rule(&position, "end");
        assert_eq!(answer, "ok");
        seen.push((after.desk.turn, after.desk.force, after.desk.phase));
        position = after;
    }
    let mut expected: Vec<(u8, u8, u8)> =
        (0..4).flat_map(|force| (0..3).map(move |phase| (4, force, phase))).skip(1).collect();
    expected.push((5, 0, 0));
    assert_eq!(seen, expected);
}

#[test]
fn the_last_phase_of_the_last_turn_is_16() {
    let mut position = Position::plain(1, 1);
    position.desk = Desk { turn: 10, last_turn: 10, force: 3, phase: 2, ..Desk::plain() };
    assert_eq!(answer(&position, "end"), "no 16 0");
    position.desk.turn = 9;
    assert_eq!(answer(&position, "end"), "ok");
    position.desk = Desk { turn: 10, last_turn: 10, force: 3, phase: 1, ..Desk::plain() };
    assert_eq!(answer(&position, "end"), "ok");
    position.desk = Desk { turn: 10, last_turn: 10, force: 2, phase: 2, ..Desk::plain() };
    assert_eq!(answer(&position, "end"), "ok");
}

#[test]
fn end_phase_clears_moved_and_fought_of_all_forces() {
    let mut position = row();
    stand(&mut position, ESC, INFANTRY, 9, 1);
    for unit in &mut position.units {
        unit.marks = 15;
    }
    let (_, after) = rule(&position, "end");
    assert_eq!(after.desk.phase, 1);
    assert_eq!([after.units[0].marks, after.units[1].marks], [TRIED | SUPPLIED; 2]);
}

#[test]
fn supplied_is_judged_on_entering_phase_2_for_the_phasing_force_alone() {
    let mut position = row();
    position.desk.phase = 1;
    position.map.hexes[0].flags = SUPPLY;
    position.map.hexes[0].country = 1;
    position.units[0].marks = 0;
    stand(&mut position, CANADA, INFANTRY, 1, 1);
    stand(&mut position, ESC, INFANTRY, 9, 1);
    position.units[1].marks = SUPPLIED;
    position.units[2].marks = SUPPLIED;
    let (_, after) = rule(&position, "end");
    let marks: Vec<u8> = after.units.iter().map(|unit| unit.marks).collect();
    assert_eq!(marks, [SUPPLIED, 0, SUPPLIED]);
}

#[test]
fn on_entering_phase_0_the_next_force_is_judged() {
    let mut position = row();
    position.desk.force = 0;
    position.desk.phase = 2;
    stand(&mut position, ESC, SUPPLY_UNIT, 9, 1);
    stand(&mut position, SAU, INFANTRY, 5, 1);
    stand(&mut position, ESC, INFANTRY, NONE, 1);
    position.units[2].marks = SUPPLIED;
    position.map.hexes[9].surface = COASTAL;
    let (_, after) = rule(&position, "end");
    let marks: Vec<u8> = after.units.iter().map(|unit| unit.marks).collect();
    assert_eq!(marks, [SUPPLIED, TRIED | SUPPLIED, SUPPLIED, 0]);
}

#[test]
fn end_phase_waits_for_the_quiet_stage() {
    let mut position = row();
    give_role(&mut position, 0, MAY_ADVANCE);
    position.desk.phase = 1;
    position.desk.stage = ADVANCES;
    assert_eq!(answer(&position, "end"), "no 2 0");
    assert_eq!(answer(&position, "move 0 1"), "no 2 0");
    assert_eq!(answer(&position, "attack 1 1 0"), "no 2 0");
}
