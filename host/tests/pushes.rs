//! Pushing friends out of the road, sentence by sentence.

mod common;
use common::crowds::*;
use common::*;
use host::rules::board::position::*;

#[test]
fn a_chain_pushes_one_two_or_three_stacks() {
    assert_eq!(ends(&row(3, 1, &[1]), "retreat 0 1 / 2"), told("retreated 1", &[1, 2]));
    assert_eq!(ends(&row(4, 1, &[1, 2]), "retreat 0 1 / 2 3"), told("retreated 1", &[1, 2, 3]));
    assert_eq!(ends(&row(5, 1, &[1, 2, 3]), "retreat 0 1 / 2 3 4"), told("retreated 1", &[1, 2, 3, 4]));
}

#[test]
fn a_fourth_stack_is_too_many_and_the_group_is_destroyed() {
    let position = row(9, 1, &[1, 2, 3, 4]);
    for line in ["retreat 0 1 / 2 3 4 5", "retreat 0 1 / 2 3 4", "retreat 0 1", "retreat 0 7 7 7 / 8 8 8 8 8 8 8 8 8"] {
        dooms(&position, line, "retreat 0");
    }
}

#[test]
fn pushed_units_change_their_hex_and_nothing_else() {
    let mut position = row(4, 1, &[1, 2, 2, 2]);
    for (unit, marks) in [(1, 15), (2, 2), (3, 0), (4, 9)] {
        position.units[unit].marks = marks;
    }
    stand_owing(&mut position, ESC, ARMOUR, 0);
    let (answer, after) = rule(&position, "retreat 0 1 / 2 3");
    assert_eq!(answer, "retreated 1");
    let mut expected = position.clone();
    for (unit, hex) in [1, 2, 3, 3, 3, 1].into_iter().enumerate() {
        expected.units[unit].hex = hex;
        expected.units[unit].role = 0;
    }
    expected.desk = Desk { stage: QUIET, owed_retreat: 0, ..position.desk };
    assert_eq!(after, expected);
}

#[test]
fn the_route_written_is_the_groups_own() {
    let mut position = row(6, 2, &[1]);
    stand(&mut position, US, MILITIA, 5, 1);
    give_role(&mut position, 2, MAY_ADVANCE);
    route(&mut position, 0, &[3]);
    let (answer, after) = rule(&position, "retreat 0 1 2 / 2 3");
    assert_eq!(answer, "retreated 2");
    assert_eq!(after.desk.filled_routes(), [vec![3], vec![0, 1, 2]]);
    assert_eq!((after.desk.stage, after.desk.owed_retreat), (ADVANCES, 0));
}

#[test]
fn each_steps_chain_is_done_before_the_next_step() {
    assert_eq!(ends(&row(4, 2, &[1]), "retreat 0 1 2 / 2 3"), told("retreated 2", &[2, 3]));
    assert_eq!(ends(&row(5, 3, &[1]), "retreat 0 1 2 3 / 2 3 4"), told("retreated 3", &[3, 4]));
    let nine = "retreat 0 1 2 3 / 2 3 4 3 4 5 4 5 6";
    assert_eq!(ends(&row(7, 3, &[1, 2, 3]), nine), told("retreated 3", &[3, 4, 5, 6]));
    // One hex less, and the third step has no room.
    assert_eq!(ends(&row(6, 3, &[1, 2, 3]), nine), told("no 3 12", &[0, 1, 2, 3]));
    dooms(&row(6, 3, &[1, 2, 3]), "retreat 0 1 2 3 / 2 3 4 3 4 5 4 5", "retreat 0");
}

#[test]
fn a_step_into_a_vacant_hex_takes_no_push() {
    assert_eq!(ends(&row(4, 2, &[2]), "retreat 0 1 2 / 3"), told("retreated 2", &[2, 3]));
    assert_eq!(answer(&row(4, 2, &[2]), "retreat 0 1 2 / 2 3"), "no 17 0");
    assert_eq!(ends(&row(6, 3, &[2]), "retreat 0 1 2 3 / 3 4"), told("retreated 3", &[3, 4]));
    assert_eq!(ends(&row(6, 3, &[1, 4]), "retreat 0 1 2 3 / 2 3 4 5"), told("retreated 3", &[3, 4, 5]));
    assert_eq!(answer(&row(6, 3, &[1, 4]), "retreat 0 1 2 3 / 2 3 4"), "no 17 0");
    dooms(&row(5, 3, &[1, 4]), "retreat 0 1 2 3 / 2 3 4", "retreat 0");
}

#[test]
fn a_stack_with_a_supply_unit_cannot_be_pushed() {
    let mut position = row(5, 1, &[1, 1, 2]);
    assert_eq!(answer(&position, "retreat 0 1 / 2 3"), "retreated 1");
    stand(&mut position, ESC, SUPPLY_UNIT, 2, 1);
    dooms(&position, "retreat 0 1 / 2 3", "retreat 0");
    position.units[4].hex = 1;
    dooms(&position, "retreat 0 1 / 2 3", "retreat 0");
    position.units[4].hex = 4;
    assert_eq!(ends(&position, "retreat 0 1 / 2 3"), told("retreated 1", &[1, 2, 2, 3, 4]));
}

#[test]
fn a_stack_with_a_unit_that_owes_cannot_be_pushed() {
    let mut position = row(5, 1, &[1, 1, 2]);
    give_role(&mut position, 3, OWES);
    dooms(&position, "retreat 0 1 / 2 3", "retreat 0");
    give_role(&mut position, 3, 0);
    give_role(&mut position, 2, OWES);
    dooms(&position, "retreat 0 1 / 2 3", "retreat 0");
    give_role(&mut position, 2, 0);
    assert_eq!(ends(&position, "retreat 0 1 / 2 3"), told("retreated 1", &[1, 2, 2, 3]));
}

#[test]
fn a_group_that_retreated_before_may_be_pushed() {
    let mut position = row(4, 1, &[3]);
    let second = stand_owing(&mut position, ESC, ARMOUR, 2);
    assert_eq!(answer(&position, "retreat 0 1"), "retreated 1");
    let (answer, after) = rule(&position, "retreat 2 1");
    assert_eq!((answer.as_str(), after.units[second].role), ("retreated 1", 0));
    assert_eq!(ends(&after, "retreat 0 1 / 2"), told("retreated 1", &[1, 3, 2]));
}

/// Friends on 7 and 6. The stack on 7 has hex 2 to go to, that on 6 has hex 5.
fn with_a_vacant_hex() -> Position {
    land(1, &[7, 2, 6, 5], &[7, 6])
}

#[test]
fn a_pushed_stack_uses_a_vacant_hex_if_it_has_one() {
    let position = with_a_vacant_hex();
    assert_eq!(answer(&position, "retreat 12 7 / 6 5"), "no 17 0");
    assert_eq!(ends(&position, "retreat 12 7 / 2"), told("retreated 7", &[7, 2, 6]));
    assert_eq!(ends(&position, "retreat 12 6 / 5"), told("retreated 6", &[6, 7, 5]));
}

#[test]
fn of_several_vacant_hexes_the_owner_names_one() {
    let mut position = with_a_vacant_hex();
    for hex in [1, 3] {
        position.map.hexes[hex].surface = COASTAL;
    }
    for hex in [1, 2, 3] {
        let line = format!("retreat 12 7 / {hex}");
        assert_eq!(ends(&position, &line), told("retreated 7", &[7, hex, 6]));
    }
}

#[test]
fn the_second_stack_of_a_chain_uses_a_vacant_hex_too() {
    // The stack on 7 has only 6 to push; that on 6 has 5 vacant and 10 held, with 15 behind it.
    let position = land(1, &[7, 6, 5, 10, 15], &[7, 6, 10]);
    assert_eq!(answer(&position, "retreat 12 7 / 6 10 15"), "no 17 0");
    assert_eq!(ends(&position, "retreat 12 7 / 6 5"), told("retreated 7", &[7, 6, 5, 10]));
}

#[test]
fn a_vacant_hex_that_does_not_bear_does_not_count() {
    let pushes_on = told("retreated 7", &[7, 6, 5]);
    for surface in [ALL_SEA, LAKE] {
        let mut position = with_a_vacant_hex();
        position.map.hexes[2].surface = surface;
        assert_eq!(ends(&position, "retreat 12 7 / 6 5"), pushes_on);
        assert_eq!(answer(&position, "retreat 12 7 / 2"), "no 17 0");
    }
    let mut position = with_a_vacant_hex();
    position.chart.terrains[1].cost = 0;
    position.map.hexes[2].terrain = 1;
    assert_eq!(ends(&position, "retreat 12 7 / 6 5"), pushes_on);
    assert_eq!(answer(&position, "retreat 12 7 / 2"), "no 17 0");
}

#[test]
fn a_vacant_hex_behind_a_blocked_side_does_not_count() {
    let mut position = with_a_vacant_hex();
    set_side(&mut position, 7, 0, MAJOR_RIVER);
    assert_eq!(answer(&position, "retreat 12 7 / 6 5"), "no 17 0");
    assert_eq!(answer(&position, "retreat 12 7 / 2"), "retreated 7");
    set_side(&mut position, 7, 0, BLOCKED);
    assert_eq!(answer(&position, "retreat 12 7 / 2"), "no 17 0");
    assert_eq!(ends(&position, "retreat 12 7 / 6 5"), told("retreated 7", &[7, 6, 5]));
}

#[test]
fn a_vacant_hex_in_an_enemy_zone_does_not_count() {
    // Hex 8 lies in the zone of the Enemy on 14, if it casts one.
    let mut position = land(1, &[7, 6, 5, 8, 14], &[7, 6]);
    set_side(&mut position, 12, 1, BLOCKED);
    stand(&mut position, US, MILITIA, 14, 1);
    assert_eq!(answer(&position, "retreat 12 7 / 6 5"), "no 17 0");
    assert_eq!(ends(&position, "retreat 12 7 / 8"), told("retreated 7", &[7, 8, 6, 14]));
    position.units[3].kind = INFANTRY;
    assert_eq!(answer(&position, "retreat 12 7 / 8"), "no 17 0");
    assert_eq!(ends(&position, "retreat 12 7 / 6 5"), told("retreated 7", &[7, 6, 5, 14]));
}

#[test]
fn friends_lift_no_zone_for_group_or_pushed_stack() {
    // The Enemy on 14 covers hex 8, where a friend stands.
    let mut position = land(1, &[8, 3, 14], &[8]);
    stand(&mut position, US, INFANTRY, 14, 1);
    dooms(&position, "retreat 12 8 / 3", "retreat 12");
    position.units[2].kind = MILITIA;
    assert_eq!(answer(&position, "retreat 12 8 / 3"), "retreated 8");
    // The stack on 7 can go nowhere but to 8, and the one there to 3.
    let mut position = land(1, &[7, 8, 3, 14], &[7, 8]);
    set_side(&mut position, 12, 1, BLOCKED);
    set_side(&mut position, 7, 1, BLOCKED);
    stand(&mut position, US, INFANTRY, 14, 1);
    dooms(&position, "retreat 12 7 / 8 3", "retreat 12");
    position.units[3].kind = MILITIA;
    assert_eq!(answer(&position, "retreat 12 7 / 8 3"), "retreated 7");
}

#[test]
fn an_enemy_in_the_road_is_not_pushed() {
    let mut position = row(4, 1, &[1, 2]);
    assert_eq!(answer(&position, "retreat 0 1 / 2 3"), "retreated 1");
    for hex in [1, 2] {
        position = row(4, 1, &[3 - hex]);
        stand(&mut position, US, MILITIA, hex, 1);
        dooms(&position, "retreat 0 1 / 2 3", "retreat 0");
    }
}

#[test]
fn blocked_sides_bar_the_group_and_the_chain() {
    for hex in [0, 1, 2] {
        let mut position = row(4, 1, &[1, 2]);
        set_side(&mut position, hex, if hex % 2 == 0 { 2 } else { 1 }, BLOCKED);
        dooms(&position, "retreat 0 1 / 2 3", "retreat 0");
    }
}

#[test]
fn no_chain_goes_through_the_groups_own_hex() {
    dooms(&row(2, 1, &[1]), "retreat 0 1 / 0", "retreat 0");
    // Hexes 12, 7 and 8 lie all beside each other.
    let ring = land(1, &[7, 8], &[7, 8]);
    dooms(&ring, "retreat 12 7 / 8 12", "retreat 12");
    let way_out = land(1, &[7, 8, 14], &[7, 8]);
    assert_eq!(answer(&way_out, "retreat 12 7 / 12 8 14"), "no 17 0");
    assert_eq!(answer(&way_out, "retreat 12 7 / 8 12"), "no 17 0");
    assert_eq!(ends(&way_out, "retreat 12 7 / 8 14"), told("retreated 7", &[7, 8, 14]));
}

#[test]
fn no_hex_comes_twice_in_a_chain() {
    let position = row(5, 1, &[1, 2]);
    assert_eq!(answer(&position, "retreat 0 1 / 2 1 2 3"), "no 17 0");
    assert_eq!(answer(&position, "retreat 0 1 / 1 2 3"), "no 17 0");
    // Hexes 7, 8 and 3 lie all beside each other: round they could go, but out they cannot.
    let ring = land(1, &[7, 8, 3], &[7, 8, 3]);
    dooms(&ring, "retreat 12 7 / 8 3 7", "retreat 12");
}

#[test]
fn a_hex_may_come_again_in_the_chain_of_a_later_step() {
    // First 8 is emptied into 7; then the stack on 3 goes to 7, and the one there to the hex that the group has left.
    let position = land(2, &[7, 8, 3], &[8, 3]);
    assert_eq!(ends(&position, "retreat 12 8 3 / 7 7 12"), told("retreated 3", &[3, 12, 7]));
}

#[test]
fn the_hex_left_is_vacant_if_nobody_stays_behind() {
    let position = land(2, &[7, 8, 3], &[8, 3]);
    assert_eq!(ends(&position, "retreat 12 7 3 / 8 12"), told("retreated 3", &[3, 12, 8]));
    assert_eq!(answer(&position, "retreat 12 7 3 / 8"), "no 17 0");
    assert_eq!(answer(&position, "retreat 12 7 3 / 8 7"), "no 17 0");
}

#[test]
fn who_stays_behind_holds_the_hex() {
    let mut position = land(2, &[7, 8, 3], &[8, 3]);
    stand(&mut position, ESC, INFANTRY, 12, 1);
    dooms(&position, "retreat 12 7 3 / 8 12", "retreat 12 7");
}

#[test]
fn who_stays_behind_is_pushed_by_a_later_step() {
    let mut position = land(2, &[7, 8, 3, 17], &[8, 3]);
    stand(&mut position, ESC, INFANTRY, 12, 1);
    stand(&mut position, ESC, ARMOUR, 12, 1);
    let (answer, after) = rule(&position, "retreat 12 7 3 / 8 12 17");
    assert_eq!(answer, "retreated 3");
    assert_eq!(after.units.iter().map(|unit| unit.hex).collect::<Vec<_>>(), [3, 12, 8, 17, 17]);
    assert_eq!(ends(&position, "retreat 12 7 3 / 8 12").0, "no 17 0");
    // A supply unit that stays behind is not pushed.
    position.units[4] = Unit::new(ESC, SUPPLY_UNIT, 12, 1, 0);
    dooms(&position, "retreat 12 7 3 / 8 12 17", "retreat 12 7");
}

#[test]
fn supply_units_of_the_group_are_destroyed_as_it_leaves() {
    let mut position = land(2, &[7, 8, 3], &[8, 3]);
    let supply_unit = stand_owing(&mut position, ESC, SUPPLY_UNIT, 12);
    let (answer, after) = rule(&position, "retreat 12 7 3 / 8 12");
    assert_eq!(answer, "retreated 3");
    assert_eq!(after.units.iter().map(|unit| unit.hex).collect::<Vec<_>>(), [3, 12, 8, NONE]);
    assert_eq!(after.units[supply_unit], Unit { hex: NONE, role: 0, marks: TRIED, ..position.units[supply_unit] });
    assert_eq!(ends(&position, "retreat 12 8 3 / 7 7 12"), told("retreated 3", &[3, 12, 7, NONE]));
}

#[test]
fn each_hex_that_the_group_has_passed_is_vacant_again() {
    // In the third step the stack on 4 goes to 3, and that on 3 to 8, which the group has passed.
    let position = land(3, &[8, 9, 4, 3], &[4, 3]);
    assert_eq!(ends(&position, "retreat 12 8 9 4 / 3 8"), told("retreated 4", &[4, 3, 8]));
    assert_eq!(answer(&position, "retreat 12 8 9 4 / 3"), "no 17 0");
    assert_eq!(answer(&position, "retreat 12 8 9 4 / 3 9"), "no 17 0");
}

#[test]
fn a_push_can_close_the_road_to_a_later_step() {
    // Pushed to 2, the stack has nowhere to go from there; pushed to 8, it lets the group by.
    let position = land(2, &[7, 2, 8], &[7]);
    assert_eq!(ends(&position, "retreat 12 7 2 / 8"), told("retreated 2", &[2, 8]));
    for pushes in ["2", "2 8", "2 7", "2 2"] {
        assert_eq!(answer(&position, &format!("retreat 12 7 2 / {pushes}")), "no 17 0", "{pushes}");
    }
}

#[test]
fn a_push_can_free_a_later_stack_to_push_on() {
    // The stack on 3 has hex 9 to go to, until the one from 8 stands there: then it may push that on to 14.
    let mut position = land(2, &[8, 3, 9, 14], &[8, 3]);
    set_side(&mut position, 8, 2, BLOCKED);
    assert_eq!(ends(&position, "retreat 12 8 3 / 9 9 14"), told("retreated 3", &[3, 14, 9]));
    assert_eq!(answer(&position, "retreat 12 8 3 / 9 9"), "no 17 0");
    // With 4 vacant beside it, it may not.
    position.map.hexes[4].surface = LAND;
    assert_eq!(answer(&position, "retreat 12 8 3 / 9 9 14"), "no 17 0");
    assert_eq!(ends(&position, "retreat 12 8 3 / 9 4"), told("retreated 3", &[3, 9, 4]));
}

#[test]
fn the_group_need_not_prefer_a_vacant_step() {
    // Hex 8 is vacant and leads nowhere; hex 6 is vacant and leads to a friend.
    let mut position = land(2, &[7, 2, 8], &[7]);
    assert_eq!(answer(&position, "retreat 12 7 2 / 8"), "retreated 2");
    position = land(2, &[7, 2, 6, 5, 0], &[7, 5]);
    assert_eq!(ends(&position, "retreat 12 6 5 / 0"), told("retreated 5", &[5, 7, 0]));
    assert_eq!(ends(&position, "retreat 12 7 2 / 6"), told("retreated 2", &[2, 6, 5]));
}

#[test]
fn pushed_stacks_have_no_distance_to_keep() {
    // From 7 to 8, as near to the start as before; from 3, at distance 2, back to 8.
    assert_eq!(ends(&land(2, &[7, 2, 8], &[7]), "retreat 12 7 2 / 8"), told("retreated 2", &[2, 8]));
    assert_eq!(ends(&land(2, &[7, 8, 3], &[3]), "retreat 12 7 3 / 8"), told("retreated 3", &[3, 8]));
}

#[test]
fn us_and_canada_are_one_force() {
    let mut position = row(4, 1, &[1, 2]);
    for (unit, nationality) in [(0, US), (1, CANADA), (2, US)] {
        position.units[unit].nationality = nationality;
    }
    stand(&mut position, US, MILITIA, 1, 1);
    assert_eq!(ends(&position, "retreat 0 1 / 2 3"), told("retreated 1", &[1, 2, 3, 2]));
    position.units[2].nationality = PAL;
    position.units[2].kind = SUPPLY_UNIT;
    position.units[2].allowance = 0;
    position.units[2].marks = TRIED;
    dooms(&position, "retreat 0 1 / 2 3", "retreat 0");
}
