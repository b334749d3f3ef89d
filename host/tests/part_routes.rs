//! Where a trapped stack dies, sentence by sentence.

mod common;
use common::crowds::*;
use common::*;
use host::rules::board::position::*;

/// A row with so many vacant hexes beside the E.S.C. infantry 0 on hex 0, which owes n steps; behind them stands
/// US militia 1, which casts no zone and may advance.
fn dead_end(steps: u16, n: u8) -> Position {
    let mut position = row(steps as u8 + 2, n, &[]);
    stand_victor(&mut position, MILITIA, steps + 1);
    position
}

/// The same for hexes of a 5 x 5 map; the militia stands on 17, south of the group on 12.
fn pocket(n: u8, hexes: &[usize], friends: &[u16]) -> Position {
    let mut position = land(n, &[&[17], hexes].concat(), friends);
    stand_victor(&mut position, MILITIA, 17);
    position
}

/// A US unit that may advance.
fn stand_victor(position: &mut Position, kind: u8, hex: u16) -> usize {
    let unit = stand(position, US, kind, hex, 1);
    give_role(position, unit, MAY_ADVANCE);
    unit
}

/// The group is destroyed, and this is the last route then.
fn dies_along(position: &Position, line: &str, route: &[usize]) {
    let (answer, after) = rule(position, line);
    assert_eq!(answer, "destroyed", "{line}");
    assert_eq!(after.units[0].hex, NONE, "{line}");
    assert_eq!(after.desk.filled_routes().last().map(Vec::as_slice), Some(route), "{line}");
}

/// Each of these orders for the hex is refused 14, and nothing has changed.
fn refuses_14(position: &Position, hex: usize, orders: &[&str]) {
    for order in orders {
        assert_eq!(answer(position, &format!("retreat {hex} {order}")), "no 14 0", "{order}");
    }
}

#[test]
fn the_part_route_is_as_long_as_the_longest_run() {
    for n in 1..=3 {
        dies_along(&dead_end(0, n), "retreat 0", &[0]);
    }
    for n in 2..=3 {
        dies_along(&dead_end(1, n), "retreat 0 1", &[0, 1]);
    }
    dies_along(&dead_end(2, 3), "retreat 0 1 2", &[0, 1, 2]);
    // As many vacant hexes as steps are owed make a legal route.
    for n in 1..=3 {
        let route: Vec<String> = (1..=n).map(|hex| hex.to_string()).collect();
        assert_eq!(answer(&dead_end(n, n as u8), &format!("retreat 0 {}", route.join(" "))), format!("retreated {n}"));
    }
}

#[test]
fn a_part_route_that_is_too_short_is_14() {
    for n in 2..=3 {
        refuses_14(&dead_end(1, n), 0, &[""]);
    }
    refuses_14(&dead_end(2, 3), 0, &["", "1"]);
}

#[test]
fn a_part_route_that_is_too_long_is_14() {
    for n in 1..=3 {
        refuses_14(&dead_end(0, n), 0, &["1", "0", "1 0", "1 1 1"]);
    }
    for n in 2..=3 {
        refuses_14(&dead_end(1, n), 0, &["1 2", "1 1", "1 0", "1 0 1", "1 2 1"]);
    }
    refuses_14(&dead_end(2, 3), 0, &["1 2 3", "1 2 1", "1 2 2", "1 2 0"]);
}

#[test]
fn every_step_of_it_is_a_step() {
    refuses_14(&dead_end(1, 2), 0, &["0", "2"]);
    refuses_14(&dead_end(2, 3), 0, &["2", "2 1", "1 3", "0 1", "1 0", "1 1", "2 2", "3 2"]);
}

#[test]
fn a_run_that_curls_is_no_run() {
    // Hexes 7 and 8 lie beside each other, both beside the start: the second is no further off than the first.
    for n in 2..=3 {
        let position = pocket(n, &[7, 8], &[]);
        refuses_14(&position, 12, &["7 8", "8 7", "7 8 7"]);
        dies_along(&position, "retreat 12 7", &[12, 7]);
        dies_along(&position, "retreat 12 8", &[12, 8]);
    }
    // Only 7 leads on, to 2 at distance 2. From 8 it is as many steps as are owed, but 2 is not so far off.
    let position = pocket(3, &[7, 8, 2], &[]);
    refuses_14(&position, 12, &["8 7 2", "7 8", "8 7", "7 8 7", "7 2 7", "8"]);
    dies_along(&position, "retreat 12 7 2", &[12, 7, 2]);
}

#[test]
fn a_road_that_turns_aside_ends_where_it_does() {
    // Behind a blocked side 8 is reached from 7 alone; the vacant hexes 14 and 9 behind it are of no use.
    let mut position = pocket(2, &[7, 8, 14, 9], &[]);
    assert_eq!(answer(&position, "retreat 12 8 14"), "retreated 14");
    set_side(&mut position, 12, 1, BLOCKED);
    refuses_14(&position, 12, &["7 8", "8", "8 14", "7 8 14"]);
    dies_along(&position, "retreat 12 7", &[12, 7]);
    position.desk.owed_retreat = 3;
    refuses_14(&position, 12, &["7 8", "7 8 14", "7 8 9", "8 14"]);
    dies_along(&position, "retreat 12 7", &[12, 7]);
}

#[test]
fn distance_is_asked_at_each_step_and_not_at_the_end() {
    // Three steps over 7 and 8 end at distance 2, as the two over 8 do.
    let position = pocket(3, &[7, 8, 14], &[]);
    refuses_14(&position, 12, &["7 8 14", "7"]);
    dies_along(&position, "retreat 12 8 14", &[12, 8, 14]);
}

#[test]
fn of_several_longest_runs_the_owner_takes_any() {
    let around = [7, 8, 13, 11, 6];
    for hex in around {
        dies_along(&pocket(2, &around, &[]), &format!("retreat 12 {hex}"), &[12, hex]);
    }
    // The runs fork behind 7, and two of them end on 1.
    let position = pocket(3, &[7, 6, 2, 3, 1, 5], &[]);
    for (first, second) in [(7, 2), (7, 3), (7, 1), (6, 1), (6, 5)] {
        dies_along(&position, &format!("retreat 12 {first} {second}"), &[12, first, second]);
    }
    refuses_14(&position, 12, &["7", "6", "7 6", "6 2", "7 5", "7 2 1", "6 5 1"]);
}

#[test]
fn a_shorter_run_beside_the_longest_is_14() {
    let position = pocket(3, &[7, 2, 13], &[]);
    refuses_14(&position, 12, &["13", "7", "", "13 14"]);
    dies_along(&position, "retreat 12 7 2", &[12, 7, 2]);
}

#[test]
fn it_uses_vacant_hexes_alone() {
    // The friend could be pushed to 6, behind a blocked side for the group; but nobody goes the second step.
    let mut position = pocket(2, &[7, 6], &[7]);
    set_side(&mut position, 6, 2, BLOCKED);
    refuses_14(&position, 12, &["7", "7 / 6", "6", "7 6", "/ 6"]);
    dies_along(&position, "retreat 12", &[12]);
    // A vacant hex and then a friend, who could be pushed once.
    let position = row(4, 3, &[2]);
    refuses_14(&position, 0, &["1 2", "1 2 / 3", "1 2 3 / 3", "", "1 / 2"]);
    assert_eq!(ends(&position, "retreat 0 1"), told("destroyed", &[NONE, 2]));
}

#[test]
fn friends_that_cannot_be_pushed_end_the_run() {
    for kind in [SUPPLY_UNIT, INFANTRY] {
        let mut position = pocket(3, &[7, 2, 1], &[]);
        let friend = stand(&mut position, ESC, kind, 2, 1);
        give_role(&mut position, friend, if kind == INFANTRY { OWES } else { 0 });
        refuses_14(&position, 12, &["7 2", "7"]);
        dies_along(&position, "retreat 12 7 1", &[12, 7, 1]);
    }
}

#[test]
fn a_step_into_an_enemy_zone_ends_the_run() {
    let mut position = row(5, 3, &[]);
    stand_victor(&mut position, MILITIA, 4);
    assert_eq!(answer(&position, "retreat 0 1 2 3"), "retreated 3");
    position.units[1].kind = INFANTRY;
    refuses_14(&position, 0, &["1 2 3", "1", ""]);
    dies_along(&position, "retreat 0 1 2", &[0, 1, 2]);
    position.units[1].hex = 3;
    refuses_14(&position, 0, &["1 2", ""]);
    dies_along(&position, "retreat 0 1", &[0, 1]);
    position.units[1].hex = 2;
    refuses_14(&position, 0, &["1"]);
    dies_along(&position, "retreat 0", &[0]);
}

#[test]
fn a_third_force_casts_its_zone_too() {
    // The P.A.L. unit on 1 covers 2 and 6, and 7 as well.
    let mut position = pocket(2, &[7, 8, 1], &[]);
    stand(&mut position, PAL, INFANTRY, 1, 1);
    refuses_14(&position, 12, &["7", "7 8", ""]);
    dies_along(&position, "retreat 12 8", &[12, 8]);
}

#[test]
fn a_zone_at_the_start_bars_nothing() {
    // The infantry on 17 covers 12, 11 and 13, but not 7.
    let mut position = pocket(2, &[7, 13], &[]);
    dies_along(&position, "retreat 12 13", &[12, 13]);
    position.units[1].kind = INFANTRY;
    refuses_14(&position, 12, &["13", ""]);
    dies_along(&position, "retreat 12 7", &[12, 7]);
}

#[test]
fn a_blocked_side_ends_the_run_and_a_major_river_does_not() {
    let mut position = dead_end(2, 3);
    set_side(&mut position, 1, 1, MAJOR_RIVER);
    dies_along(&position, "retreat 0 1 2", &[0, 1, 2]);
    set_side(&mut position, 1, 1, BLOCKED);
    refuses_14(&position, 0, &["1 2", ""]);
    dies_along(&position, "retreat 0 1", &[0, 1]);
    set_side(&mut position, 0, 2, BLOCKED);
    refuses_14(&position, 0, &["1"]);
    dies_along(&position, "retreat 0", &[0]);
}

#[test]
fn sea_lake_and_prohibited_end_the_run_and_coast_does_not() {
    let mut position = dead_end(2, 3);
    position.map.hexes[2].surface = COASTAL;
    dies_along(&position, "retreat 0 1 2", &[0, 1, 2]);
    for surface in [ALL_SEA, LAKE] {
        position.map.hexes[2].surface = surface;
        refuses_14(&position, 0, &["1 2", ""]);
        dies_along(&position, "retreat 0 1", &[0, 1]);
    }
    position = dead_end(2, 3);
    position.chart.terrains[1].cost = 0;
    position.map.hexes[2].terrain = 1;
    refuses_14(&position, 0, &["1 2", ""]);
    dies_along(&position, "retreat 0 1", &[0, 1]);
}

#[test]
fn the_maps_edge_ends_the_run() {
    for (width, line) in [(1, "retreat 0"), (2, "retreat 0 1"), (3, "retreat 0 1 2")] {
        assert_eq!(answer(&row(width, 3, &[]), line), "destroyed");
    }
    assert_eq!(answer(&row(3, 3, &[]), "retreat 0 1"), "no 14 0");
    assert_eq!(answer(&row(3, 3, &[]), "retreat 0 1 2 1"), "no 14 0");
}

#[test]
fn pushes_sent_beside_a_right_part_route_are_14() {
    refuses_14(&dead_end(0, 1), 0, &["/ 1", "/ 0"]);
    refuses_14(&dead_end(1, 2), 0, &["1 / 1", "1 / 2", "1 / 0", "1 / 2 2", "/ 1"]);
    refuses_14(&dead_end(2, 3), 0, &["1 2 / 3", "1 / 2", "1 2 / 0 0 0 0 0 0 0 0 0"]);
    dies_along(&dead_end(2, 3), "retreat 0 1 2 /", &[0, 1, 2]);
}

/// A supply unit takes the place of the infantry that owes.
fn with_a_supply_unit(mut position: Position) -> Position {
    position.units[0] = Unit { role: OWES, ..Unit::new(ESC, SUPPLY_UNIT, position.units[0].hex, 3, 0) };
    position
}

#[test]
fn where_only_supply_units_owe_route_and_pushes_are_empty() {
    // A legal route, a run of one step, pushes and nothing at all lie open.
    let pushed = pocket(1, &[7, 2], &[7]);
    for position in [pocket(1, &[7], &[]), pocket(2, &[7], &[]), pushed, pocket(1, &[], &[])] {
        let position = with_a_supply_unit(position);
        refuses_14(&position, 12, &["7", "7 / 2", "/ 7", "/ 12", "12", "7 2"]);
        dies_along(&position, "retreat 12", &[12]);
        dies_along(&position, "retreat 12 /", &[12]);
    }
}

#[test]
fn only_supply_units_owe_where_another_stays_behind() {
    let mut position = with_a_supply_unit(pocket(2, &[7], &[12]));
    refuses_14(&position, 12, &["7"]);
    let (answer, after) = rule(&position, "retreat 12");
    assert_eq!((answer.as_str(), after.units[1].hex), ("destroyed", 12));
    assert_eq!(after.desk.filled_routes(), [vec![12]]);
    give_role(&mut position, 1, OWES);
    refuses_14(&position, 12, &[""]);
    dies_along(&position, "retreat 12 7", &[12, 7]);
}

#[test]
fn a_mixed_group_is_destroyed_at_the_end_of_the_part_route() {
    let mut position = dead_end(1, 2);
    let supply_unit = stand_owing(&mut position, ESC, SUPPLY_UNIT, 0);
    let behind = stand(&mut position, ESC, ARMOUR, 0, 1);
    refuses_14(&position, 0, &["", "1 / 2"]);
    let (answer, after) = rule(&position, "retreat 0 1");
    assert_eq!(answer, "destroyed");
    assert_eq!([0, supply_unit, behind].map(|unit| after.units[unit].hex), [NONE, NONE, 0]);
    assert_eq!(after.desk.filled_routes(), [vec![0, 1]]);
}

#[test]
fn the_group_goes_into_the_box_and_nothing_else_changes() {
    let mut position = dead_end(2, 3);
    position.units[0].marks = 15;
    stand_owing(&mut position, ESC, INFANTRY, 0);
    stand(&mut position, ESC, INFANTRY, 0, 1);
    let (answer, after) = rule(&position, "retreat 0 1 2");
    assert_eq!(answer, "destroyed");
    let mut expected = position.clone();
    for unit in [0, 2] {
        expected.units[unit] = Unit { hex: NONE, role: 0, marks: TRIED, ..position.units[unit] };
    }
    expected.desk = Desk { stage: ADVANCES, owed_retreat: 0, ..position.desk };
    expected.desk.routes[0] = [0, 1, 2, NONE];
    assert_eq!(after, expected);
}

#[test]
fn the_route_is_written_behind_the_others() {
    let mut position = dead_end(1, 2);
    route(&mut position, 0, &[2, 1]);
    route(&mut position, 1, &[2]);
    let (_, after) = rule(&position, "retreat 0 1");
    assert_eq!(after.desk.filled_routes(), [vec![2, 1], vec![2], vec![0, 1]]);
}

#[test]
fn the_stage_follows_as_after_any_retreat() {
    let mut position = dead_end(1, 2);
    let (_, after) = rule(&position, "retreat 0 1");
    assert_eq!((after.desk.stage, after.desk.owed_retreat), (ADVANCES, 0));
    position.units[1].role = 0;
    let (_, after) = rule(&position, "retreat 0 1");
    assert_eq!((after.desk.stage, after.desk.owed_retreat, after.desk.routes), (QUIET, 0, [[NONE; 4]; 6]));
}

#[test]
fn the_dead_leave_the_part_route_vacant() {
    // Two groups face each other over one vacant hex. The first to go dies; the other may go where it stood.
    let mut position = row(3, 2, &[]);
    stand_owing(&mut position, ESC, INFANTRY, 2);
    refuses_14(&position, 0, &["1 2"]);
    refuses_14(&position, 2, &["1 0"]);
    let (answer, after) = rule(&position, "retreat 0 1");
    assert_eq!((answer.as_str(), after.desk.stage, after.desk.owed_retreat), ("destroyed", RETREATS, 2));
    assert_eq!(after.desk.filled_routes(), [vec![0, 1]]);
    assert_eq!(ends(&after, "retreat 2 1 0"), told("retreated 0", &[NONE, 0]));
}

#[test]
fn victors_advance_along_it() {
    let (_, after) = rule(&pocket(3, &[7, 2], &[]), "retreat 12 7 2");
    assert_eq!(after.desk.filled_routes(), [vec![12, 7, 2]]);
    for hex in [12, 7, 2] {
        let (answer, advanced) = rule(&after, &format!("advance 1 {hex}"));
        assert_eq!((answer.as_str(), advanced.units[1].hex, advanced.desk.stage), ("ok", hex, QUIET));
    }
    assert_eq!(answer(&after, "advance 1 1"), "no 7 0");
    // A zone cut this run short: the hex in it is not on the route.
    let mut position = pocket(2, &[7, 3, 4], &[]);
    stand(&mut position, PAL, INFANTRY, 4, 1);
    let (_, after) = rule(&position, "retreat 12 7");
    assert_eq!(answer(&after, "advance 1 7"), "ok");
    assert_eq!(answer(&after, "advance 1 3"), "no 7 0");
}

#[test]
fn without_a_step_victors_advance_to_the_start_alone() {
    let (_, after) = rule(&pocket(1, &[], &[]), "retreat 12");
    assert_eq!(answer(&after, "advance 1 12"), "ok");
    assert_eq!(answer(&after, "advance 1 17"), "no 7 0");
}

#[test]
fn a_number_off_the_map_or_a_list_too_long_is_3() {
    let position = dead_end(1, 2);
    assert_eq!(answer(&position, "retreat 0 3"), "no 3 1");
    assert_eq!(answer(&position, "retreat 0 1 65535"), "no 3 2");
    assert_eq!(answer(&position, "retreat 0 1 / 3"), "no 3 2");
    assert_eq!(answer(&position, "retreat 0 1 1 1 1"), "no 3 0");
    assert_eq!(answer(&position, "retreat 0 1 / 0 0 0 0 0 0 0 0 0 0"), "no 3 0");
    let position = with_a_supply_unit(position);
    assert_eq!(answer(&position, "retreat 0 3"), "no 3 1");
    assert_eq!(answer(&position, "retreat 0 / 3"), "no 3 1");
}

#[test]
fn role_and_stage_are_asked_before() {
    let position = dead_end(1, 2);
    assert_eq!(answer(&position, "retreat 1 0"), "no 4 0");
    assert_eq!(answer(&position, "retreat 2"), "no 4 0");
    let (_, after) = rule(&position, "retreat 0 1");
    assert_eq!(answer(&after, "retreat 0 1"), "no 2 0");
}

#[test]
fn a_part_route_where_the_group_can_be_saved_is_14_or_17() {
    assert_eq!(answer(&row(4, 2, &[]), "retreat 0 1"), "no 14 0");
    assert_eq!(answer(&row(4, 2, &[]), "retreat 0"), "no 14 0");
    assert_eq!(answer(&row(4, 2, &[2]), "retreat 0 1"), "no 17 0");
    assert_eq!(answer(&row(4, 2, &[2]), "retreat 0"), "no 17 0");
    assert_eq!(answer(&row(4, 2, &[2]), "retreat 0 1 2 / 3"), "retreated 2");
}
