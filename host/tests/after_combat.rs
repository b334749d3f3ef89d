//! Retreat, losses, advance, close and how the stages follow.

mod common;
use common::*;
use host::rules::board::position::*;

/// E.S.C. infantry 0 on 12 owes n steps; US infantry 1 on 17, south of it, may advance.
fn owing(n: u8) -> Position {
    let mut position = combat(5, 5, US);
    stand(&mut position, ESC, INFANTRY, 12, 3);
    stand(&mut position, US, INFANTRY, 17, 3);
    give_role(&mut position, 0, OWES);
    give_role(&mut position, 1, MAY_ADVANCE);
    position.desk.stage = RETREATS;
    position.desk.owed_retreat = n;
    position
}

#[test]
fn a_retreat_moves_the_group_and_writes_start_and_route() {
    let mut position = owing(2);
    position.units[0].marks = 15;
    stand(&mut position, ESC, ARMOUR, 0, 1);
    give_role(&mut position, 2, OWES);
    let (answer, after) = rule(&position, "retreat 12 8 9");
    assert_eq!(answer, "retreated 9");
    let mut expected = position.clone();
    expected.units[0].hex = 9;
    expected.units[0].role = 0;
    expected.desk.routes[0] = [12, 8, 9, NONE];
    assert_eq!(after, expected);
}

#[test]
fn three_steps_fill_a_route() {
    let mut position = owing(3);
    position.units[0].hex = 7;
    position.units[1].hex = 2;
    assert_eq!(answer(&position, "retreat 7 12 17 22"), "retreated 22");
    assert_eq!(rule(&position, "retreat 7 12 17 22").1.desk.routes[0], [7, 12, 17, 22]);
    assert_eq!(answer(&position, "retreat 7 12 17 18"), "retreated 18");
    assert_eq!(answer(&position, "retreat 7 12 17 13"), "no 14 0");
}

#[test]
fn the_last_retreat_opens_the_advances() {
    let (answer, after) = rule(&owing(1), "retreat 12 7");
    assert_eq!(answer, "retreated 7");
    assert_eq!((after.desk.stage, after.desk.owed_retreat), (ADVANCES, 0));
    assert_eq!(after.desk.filled_routes(), [vec![12, 7]]);
    assert_eq!(after.units[1].role, MAY_ADVANCE);
}

#[test]
fn without_role_2_the_last_retreat_makes_it_quiet() {
    let mut position = owing(1);
    position.units[1].role = 0;
    let (_, after) = rule(&position, "retreat 12 7");
    assert_eq!((after.desk.stage, after.desk.owed_retreat), (QUIET, 0));
    assert_eq!(after.desk.routes, [[NONE; 4]; 6]);
}

#[test]
fn a_new_route_is_written_behind_the_others() {
    let mut position = owing(1);
    route(&mut position, 0, &[24]);
    route(&mut position, 1, &[20, 21]);
    let (_, after) = rule(&position, "retreat 12 7");
    assert_eq!(after.desk.filled_routes(), [vec![24], vec![20, 21], vec![12, 7]]);
}

#[test]
fn the_route_has_n_hexes() {
    assert_eq!(answer(&owing(2), "retreat 12"), "no 14 0");
    assert_eq!(answer(&owing(2), "retreat 12 7"), "no 14 0");
    assert_eq!(answer(&owing(2), "retreat 12 7 2"), "retreated 2");
    assert_eq!(answer(&owing(1), "retreat 12 7 2"), "no 14 0");
}

#[test]
fn retreat_numbers_and_lengths_are_3() {
    assert_eq!(answer(&owing(1), "retreat 25"), "no 3 0");
    assert_eq!(answer(&owing(1), "retreat 25 99"), "no 3 0");
    assert_eq!(answer(&owing(1), "retreat 12 7 25"), "no 3 2");
    assert_eq!(answer(&owing(1), "retreat 12 7 7 7 7"), "no 3 0");
    assert_eq!(answer(&owing(1), "retreat 12 99 7 7 7"), "no 3 0");
    assert_eq!(answer(&owing(1), "retreat 0 65535"), "no 3 1");
}

#[test]
fn retreat_asks_stage_and_then_the_role_of_the_hex() {
    let mut position = owing(1);
    assert_eq!(answer(&position, "retreat 17 7"), "no 4 0");
    assert_eq!(answer(&position, "retreat 0"), "no 4 0");
    position.desk.stage = ADVANCES;
    position.desk.owed_retreat = 0;
    position.units[0].role = 0;
    assert_eq!(answer(&position, "retreat 0"), "no 2 0");
    assert_eq!(answer(&position, "retreat 25"), "no 3 0");
}

#[test]
fn enemy_zones_and_units_of_any_kind_bar_the_way() {
    let mut position = owing(1);
    // Hexes 11 and 13 lie in the zone of the US unit on 17.
    assert_eq!(answer(&position, "retreat 12 13"), "no 14 0");
    stand(&mut position, ESC, INFANTRY, 7, 1);
    assert_eq!(answer(&position, "retreat 12 7"), "no 14 0");
    assert_eq!(answer(&position, "retreat 12 8"), "retreated 8");
}

#[test]
fn a_third_force_casts_its_zone_too() {
    let mut position = owing(1);
    stand(&mut position, PAL, INFANTRY, 2, 1);
    assert_eq!(answer(&position, "retreat 12 7"), "no 14 0");
    position.units[2].kind = SUPPLY_UNIT;
    position.units[2].allowance = 0;
    position.units[2].marks = TRIED;
    assert_eq!(answer(&position, "retreat 12 7"), "retreated 7");
}

#[test]
fn every_step_lies_outside_the_zones() {
    let mut position = owing(2);
    stand(&mut position, PAL, INFANTRY, 1, 1);
    // The P.A.L. zone covers 7 and 2, not 8 and 3.
    assert_eq!(answer(&position, "retreat 12 7 3"), "no 14 0");
    assert_eq!(answer(&position, "retreat 12 8 3"), "retreated 3");
    position.units[2].hex = 4;
    // Now it covers 9 and 3, not 8 and 7.
    assert_eq!(answer(&position, "retreat 12 8 9"), "no 14 0");
    assert_eq!(answer(&position, "retreat 12 8 14"), "retreated 14");
    assert_eq!(answer(&position, "retreat 12 7 2"), "retreated 2");
}

#[test]
fn blocked_sides_bar_the_way_and_major_rivers_do_not() {
    let mut position = owing(1);
    set_side(&mut position, 12, 0, BLOCKED);
    assert_eq!(answer(&position, "retreat 12 7"), "no 14 0");
    set_side(&mut position, 12, 0, MAJOR_RIVER);
    assert_eq!(answer(&position, "retreat 12 7"), "retreated 7");
}

#[test]
fn sea_lake_and_prohibited_bar_the_way() {
    for surface in [ALL_SEA, LAKE] {
        let mut position = owing(1);
        position.map.hexes[7].surface = surface;
        assert_eq!(answer(&position, "retreat 12 7"), "no 14 0");
    }
    let mut position = owing(1);
    position.chart.terrains[1].cost = 0;
    position.map.hexes[7].terrain = 1;
    assert_eq!(answer(&position, "retreat 12 7"), "no 14 0");
}

/// Nothing is left around hex 12 but the sea.
fn surrounded() -> Position {
    let mut position = owing(1);
    for hex in [7, 8, 13, 11, 6] {
        position.map.hexes[hex].surface = ALL_SEA;
    }
    position
}

#[test]
fn with_no_legal_route_the_group_is_destroyed() {
    let (answer_then, after) = rule(&surrounded(), "retreat 12");
    assert_eq!(answer_then, "destroyed");
    assert_eq!(after.units[0], Unit { hex: NONE, role: 0, marks: TRIED, ..surrounded().units[0] });
    assert_eq!(after.desk.filled_routes(), [vec![12]]);
    assert_eq!(after.desk.stage, ADVANCES);
    assert_eq!(answer(&surrounded(), "retreat 12 7"), "no 14 0");
    assert_eq!(answer(&surrounded(), "retreat 12 0 0 0"), "no 14 0");
    assert_eq!(answer(&surrounded(), "retreat 12 25"), "no 3 1");
}

#[test]
fn supply_units_alone_are_destroyed_though_a_route_exists() {
    let mut position = owing(1);
    position.units[0] = Unit { role: OWES, ..Unit::new(ESC, SUPPLY_UNIT, 12, 3, 0) };
    stand(&mut position, ESC, INFANTRY, 12, 1);
    assert_eq!(answer(&position, "retreat 12 7"), "no 14 0");
    let (answer, after) = rule(&position, "retreat 12");
    assert_eq!(answer, "destroyed");
    assert_eq!([after.units[0].hex, after.units[2].hex], [NONE, 12]);
    assert_eq!(after.desk.filled_routes(), [vec![12]]);
}

#[test]
fn supply_units_in_a_mixed_group_are_lost_on_the_way() {
    let mut position = owing(1);
    stand(&mut position, ESC, SUPPLY_UNIT, 12, 1);
    give_role(&mut position, 2, OWES);
    stand(&mut position, ESC, INFANTRY, 12, 1);
    let (answer, after) = rule(&position, "retreat 12 7");
    assert_eq!(answer, "retreated 7");
    let hexes: Vec<u16> = after.units.iter().map(|unit| unit.hex).collect();
    assert_eq!(hexes, [7, 17, NONE, 12]);
    assert_eq!(after.desk.filled_routes(), [vec![12, 7]]);
}

#[test]
fn a_second_stack_sees_the_first_one_gone() {
    let mut position = owing(1);
    stand(&mut position, ESC, INFANTRY, 7, 1);
    give_role(&mut position, 2, OWES);
    assert_eq!(answer(&position, "retreat 12 7"), "no 14 0");
    let (_, after) = rule(&position, "retreat 7 2");
    assert_eq!(answer(&after, "retreat 12 7"), "retreated 7");
}

/// US units of strength 5, 4, 2 owe losses.
fn losing(need: u16) -> Position {
    let mut position = combat(5, 5, US);
    for strength in [5, 4, 2] {
        let unit = stand(&mut position, US, INFANTRY, 12, strength);
        give_role(&mut position, unit, OWES);
    }
    stand(&mut position, US, INFANTRY, 13, 9);
    route(&mut position, 0, &[7]);
    position.desk.stage = LOSSES;
    position.desk.need = need;
    position
}

#[test]
fn survivors_may_advance() {
    let mut position = losing(6);
    position.units[0].marks = 15;
    let (answer, after) = rule(&position, "losses 2 0");
    assert_eq!(answer, "ok");
    let units: Vec<(u16, u8, u8)> = after.units.iter().map(|unit| (unit.hex, unit.role, unit.marks)).collect();
    assert_eq!(units, [(NONE, 0, TRIED), (12, MAY_ADVANCE, TRIED), (NONE, 0, TRIED), (13, 0, 0)]);
    assert_eq!((after.desk.stage, after.desk.need), (ADVANCES, 0));
    assert_eq!(after.desk.filled_routes(), [vec![7]]);
}

#[test]
fn a_supply_unit_that_survives_gets_the_role_too() {
    let mut position = losing(5);
    for unit in &mut position.units {
        unit.nationality = ESC;
    }
    position.units[2] = Unit { role: OWES, ..Unit::new(ESC, SUPPLY_UNIT, 12, 2, 0) };
    let (_, after) = rule(&position, "losses 0");
    let roles: Vec<u8> = after.units.iter().map(|unit| unit.role).collect();
    assert_eq!(roles, [0, MAY_ADVANCE, MAY_ADVANCE, 0]);
}

#[test]
fn the_total_reaches_need_or_all_are_named() {
    assert_eq!(answer(&losing(6), "losses 1 2"), "ok");
    assert_eq!(answer(&losing(7), "losses 1 2"), "no 15 0");
    assert_eq!(answer(&losing(99), "losses 2 1 0"), "ok");
}

#[test]
fn with_all_lost_it_is_quiet() {
    let (_, after) = rule(&losing(99), "losses 2 1 0");
    assert_eq!((after.desk.stage, after.desk.need), (QUIET, 0));
    assert_eq!(after.desk.routes, [[NONE; 4]; 6]);
}

#[test]
fn losses_refuse_along_the_list() {
    assert_eq!(answer(&losing(1), "losses"), "no 3 0");
    assert_eq!(answer(&losing(1), "losses 0 4"), "no 3 2");
    assert_eq!(answer(&losing(1), "losses 0 3"), "no 4 2");
    assert_eq!(answer(&losing(1), "losses 0 0 3"), "no 6 2");
    assert_eq!(answer(&losing(1), "losses 0 3 0"), "no 4 2");
    assert_eq!(answer(&losing(99), "losses 1 2 1"), "no 6 3");
    let nineteen = vec!["9"; 19].join(" ");
    assert_eq!(answer(&losing(1), &format!("losses {nineteen}")), "no 3 0");
    let mut position = losing(1);
    position.desk.stage = ADVANCES;
    position.desk.need = 0;
    for unit in &mut position.units[..3] {
        unit.role = MAY_ADVANCE;
    }
    assert_eq!(answer(&position, "losses 0"), "no 2 0");
}

/// P.A.L. special infantry 0 and 1 (strength 2 each) and infantry 2 (strength 9) owe.
fn special(need: u16) -> Position {
    let mut position = combat(5, 5, PAL);
    for (kind, strength) in [(SPECIAL, 2), (SPECIAL, 2), (INFANTRY, 9)] {
        let unit = stand(&mut position, PAL, kind, 12, strength);
        give_role(&mut position, unit, OWES);
    }
    position.desk.stage = LOSSES;
    position.desk.need = need;
    position
}

#[test]
fn other_types_go_only_with_every_special_infantry() {
    assert_eq!(answer(&special(2), "losses 2"), "no 15 0");
    assert_eq!(answer(&special(2), "losses 0 2"), "no 15 0");
    assert_eq!(answer(&special(5), "losses 0 1"), "no 15 0");
    assert_eq!(answer(&special(5), "losses 2 1 0"), "ok");
}

#[test]
fn special_infantry_alone_need_only_reach_need() {
    assert_eq!(answer(&special(2), "losses 0"), "ok");
    assert_eq!(answer(&special(4), "losses 1 0"), "ok");
    assert_eq!(answer(&special(3), "losses 1"), "no 15 0");
}

#[test]
fn special_infantry_that_does_not_owe_is_not_asked_for() {
    let mut position = special(9);
    position.units[0].role = 0;
    position.units[1].role = 0;
    assert_eq!(answer(&position, "losses 2"), "ok");
}

#[test]
fn the_defending_force_is_not_bound_by_16_12() {
    let mut position = special(2);
    position.desk.force = ESC;
    assert_eq!(answer(&position, "losses 2"), "ok");
}

/// US infantry 0 on 17 may advance along 12, 7, 2.
fn advancing() -> Position {
    let mut position = combat(5, 5, US);
    stand(&mut position, US, INFANTRY, 17, 3);
    give_role(&mut position, 0, MAY_ADVANCE);
    route(&mut position, 0, &[12, 7, 2]);
    position.desk.stage = ADVANCES;
    position
}

#[test]
fn an_advance_may_stop_anywhere_on_the_route() {
    for hex in [12, 7, 2] {
        let (answer, after) = rule(&advancing(), &format!("advance 0 {hex}"));
        assert_eq!(answer, "ok");
        assert_eq!((after.units[0].hex, after.units[0].role, after.units[0].marks), (hex, 0, TRIED));
    }
    assert_eq!(answer(&advancing(), "advance 0 8"), "no 7 0");
}

#[test]
fn the_last_advance_makes_it_quiet_and_an_earlier_one_does_not() {
    let mut position = advancing();
    let (_, after) = rule(&position, "advance 0 7");
    assert_eq!((after.desk.stage, after.desk.routes), (QUIET, [[NONE; 4]; 6]));
    stand(&mut position, US, INFANTRY, 17, 3);
    give_role(&mut position, 1, MAY_ADVANCE);
    let (_, after) = rule(&position, "advance 0 7");
    assert_eq!(after.desk.stage, ADVANCES);
    assert_eq!(after.desk.filled_routes(), [vec![12, 7, 2]]);
}

#[test]
fn an_advance_ignores_zones() {
    let mut position = advancing();
    stand(&mut position, ESC, INFANTRY, 8, 1);
    assert_eq!(answer(&position, "advance 0 2"), "ok");
}

#[test]
fn the_route_starts_beside_the_unit_over_an_unblocked_side() {
    let mut position = advancing();
    position.units[0].hex = 12;
    assert_eq!(answer(&position, "advance 0 7"), "no 7 0");
    position.units[0].hex = 2;
    assert_eq!(answer(&position, "advance 0 7"), "no 7 0");
    let mut position = advancing();
    set_side(&mut position, 17, 0, BLOCKED);
    assert_eq!(answer(&position, "advance 0 12"), "no 7 0");
    set_side(&mut position, 17, 0, MAJOR_RIVER);
    assert_eq!(answer(&position, "advance 0 12"), "ok");
}

#[test]
fn an_enemy_up_to_the_hex_bars_the_route_and_one_beyond_does_not() {
    let mut position = advancing();
    stand(&mut position, ESC, INFANTRY, 7, 1);
    assert_eq!(answer(&position, "advance 0 12"), "ok");
    assert_eq!(answer(&position, "advance 0 7"), "no 7 0");
    assert_eq!(answer(&position, "advance 0 2"), "no 7 0");
    position.units[1].nationality = CANADA;
    assert_eq!(answer(&position, "advance 0 2"), "ok");
}

#[test]
fn a_second_route_may_serve_where_the_first_is_barred() {
    let mut position = advancing();
    stand(&mut position, ESC, INFANTRY, 7, 1);
    route(&mut position, 1, &[18, 13, 8]);
    assert_eq!(answer(&position, "advance 0 8"), "ok");
    route(&mut position, 2, &[12, 8, 3, 2]);
    assert_eq!(answer(&position, "advance 0 2"), "ok");
}

#[test]
fn a_route_that_repeats_is_judged_by_the_first_time() {
    let mut position = advancing();
    position.desk.routes[0] = [12, 13, 12, 7];
    stand(&mut position, ESC, INFANTRY, 13, 1);
    assert_eq!(answer(&position, "advance 0 12"), "ok");
    assert_eq!(answer(&position, "advance 0 7"), "no 7 0");
}

#[test]
fn advance_refuses_in_order() {
    let mut position = advancing();
    stand(&mut position, ESC, INFANTRY, 24, 1);
    for _ in 0..3 {
        stand(&mut position, CANADA, INFANTRY, 12, 1);
    }
    assert_eq!(answer(&position, "advance 5 12"), "no 3 0");
    assert_eq!(answer(&position, "advance 0 25"), "no 3 0");
    assert_eq!(answer(&position, "advance 1 0"), "no 4 0");
    assert_eq!(answer(&position, "advance 0 0"), "no 7 0");
    assert_eq!(answer(&position, "advance 0 12"), "no 11 0");
    assert_eq!(answer(&position, "advance 0 7"), "ok");
}

#[test]
fn advance_asks_role_before_type_and_route_before_room() {
    let mut position = advancing();
    position.units[0].nationality = ESC;
    stand(&mut position, ESC, SUPPLY_UNIT, 24, 1);
    for _ in 0..3 {
        stand(&mut position, ESC, INFANTRY, 0, 1);
    }
    assert_eq!(answer(&position, "advance 1 0"), "no 4 0");
    assert_eq!(answer(&position, "advance 0 0"), "no 7 0");
}

#[test]
fn the_mover_itself_is_no_other_in_an_advance() {
    let mut position = advancing();
    for _ in 0..2 {
        stand(&mut position, US, INFANTRY, 17, 1);
    }
    position.desk.routes[0] = [12, 17, NONE, NONE];
    assert_eq!(answer(&position, "advance 0 17"), "ok");
    stand(&mut position, US, INFANTRY, 12, 1);
    assert_eq!(answer(&position, "advance 0 12"), "ok");
}

#[test]
fn the_role_alone_is_asked_not_the_phasing_force() {
    let mut position = advancing();
    position.desk.force = PAL;
    assert_eq!(answer(&position, "advance 0 12"), "ok");
}

#[test]
fn a_supply_unit_does_not_advance_and_keeps_the_stage_open() {
    let mut position = advancing();
    position.units[0].nationality = ESC;
    stand(&mut position, ESC, SUPPLY_UNIT, 17, 1);
    give_role(&mut position, 1, MAY_ADVANCE);
    assert_eq!(answer(&position, "advance 1 0"), "no 5 0");
    let (_, after) = rule(&position, "advance 0 12");
    assert_eq!(after.desk.stage, ADVANCES);
    let (answer, after) = rule(&after, "close");
    assert_eq!(answer, "ok");
    assert_eq!((after.desk.stage, after.units[1].role), (QUIET, 0));
}

#[test]
fn close_makes_all_roles_0_and_clears_the_routes() {
    let mut position = advancing();
    position.units[0].marks = 15;
    let (answer, after) = rule(&position, "close");
    assert_eq!(answer, "ok");
    let mut expected = position.clone();
    expected.units[0].role = 0;
    expected.desk.stage = QUIET;
    expected.desk.routes = [[NONE; 4]; 6];
    assert_eq!(after, expected);
}

#[test]
fn close_and_advance_ask_for_stage_3() {
    assert_eq!(answer(&owing(1), "close"), "no 2 0");
    assert_eq!(answer(&losing(1), "close"), "no 2 0");
    assert_eq!(answer(&Position::plain(1, 1), "close"), "no 2 0");
    assert_eq!(answer(&owing(1), "advance 1 12"), "no 2 0");
    assert_eq!(answer(&owing(1), "advance 2 12"), "no 3 0");
}
