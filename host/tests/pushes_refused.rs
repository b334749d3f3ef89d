//! Orders with pushes that are refused, and groups that no order saves.

mod common;
use common::crowds::*;
use common::*;
use host::rules::board::position::*;

#[test]
fn a_fourth_stack_is_17_where_a_shorter_chain_serves() {
    // One lane runs from 6 over 10, 15 and 20 to 21; hex 8 has only 9 behind it.
    let lanes = [6, 10, 15, 20, 21, 8, 9];
    let position = land(1, &lanes, &[6, 10, 15, 20, 8]);
    assert_eq!(answer(&position, "retreat 12 6 / 10 15 20 21"), "no 17 0");
    assert_eq!(answer(&position, "retreat 12 8 / 9"), "retreated 8");
    let position = land(1, &lanes, &[6, 10, 15, 8]);
    assert_eq!(answer(&position, "retreat 12 6 / 10 15 20"), "retreated 6");
}

#[test]
fn pushes_too_few_or_left_over_are_17() {
    let position = row(5, 1, &[1, 2]);
    for pushes in ["", "/", "/ 2", "/ 2 3 4", "/ 2 3 3", "/ 3", "/ 3 2"] {
        assert_eq!(answer(&position, &format!("retreat 0 1 {pushes}")), "no 17 0", "{pushes}");
    }
    assert_eq!(answer(&position, "retreat 0 1 / 2 3"), "retreated 1");
}

#[test]
fn the_route_is_judged_with_the_pushes() {
    let position = row(6, 2, &[1]);
    for order in ["", "1 / 2", "1 2 3 / 2 3 4", "1 0 / 2", "2 1 / 2", "1 3 / 2", "/ 2 3", "5 4"] {
        assert_eq!(answer(&position, &format!("retreat 0 {order}")), "no 17 0", "{order}");
    }
    // Two steps that curl back end at distance 1.
    let position = land(2, &[7, 8, 3, 9, 2], &[7, 8, 3]);
    assert_eq!(answer(&position, "retreat 12 7 8 / 2 9"), "no 17 0");
    assert_eq!(answer(&position, "retreat 12 8 9 / 9 9"), "no 17 0");
    assert_eq!(answer(&position, "retreat 12 7 2 / 2 1"), "no 17 0");
    assert_eq!(answer(&position, "retreat 12 7 3 / 2 9"), "retreated 3");
}

#[test]
fn some_choice_that_serves_makes_another_17() {
    // On 6 the chain ends in a supply unit; on 8 it runs to 14.
    let mut position = land(1, &[7, 6, 8, 14], &[7, 6, 8]);
    stand(&mut position, ESC, SUPPLY_UNIT, 6, 1);
    for order in ["6 / 7", "7 / 6", "7 / 6 5", "7 / 8 3", "7 / 8 12", "8", "8 / 7", "13"] {
        assert_eq!(answer(&position, &format!("retreat 12 {order}")), "no 17 0", "{order}");
    }
    assert_eq!(ends(&position, "retreat 12 7 / 8 14"), told("retreated 7", &[7, 8, 6, 14, 6]));
}

#[test]
fn pushes_beside_a_vacant_route_are_14() {
    let position = land(1, &[7, 2, 8], &[7]);
    for order in ["7 / 2", "7 / 8", "8 / 2", "8 / 7", "7", "/ 2", "8 7"] {
        assert_eq!(answer(&position, &format!("retreat 12 {order}")), "no 14 0", "{order}");
    }
    assert_eq!(ends(&position, "retreat 12 8"), told("retreated 8", &[8, 7]));
    assert_eq!(ends(&position, "retreat 12 8 /"), told("retreated 8", &[8, 7]));
    // A whole vacant route forbids it, not a vacant first step.
    assert_eq!(answer(&land(2, &[7, 2, 8], &[7]), "retreat 12 7 2 / 8"), "retreated 2");
    assert_eq!(answer(&land(2, &[7, 2, 8, 14], &[7]), "retreat 12 7 2 / 8"), "no 14 0");
}

#[test]
fn where_only_supply_units_owe_no_order_saves_them() {
    let mut position = row(3, 1, &[1]);
    position.units[0] = Unit { role: OWES, ..Unit::new(ESC, SUPPLY_UNIT, 0, 3, 0) };
    for line in ["retreat 0 1 / 2", "retreat 0 1", "retreat 0 / 0 0 0 0"] {
        dooms(&position, line, "retreat 0");
    }
    let mut quiet = land(1, &[7, 8], &[]);
    quiet.units[0] = Unit { role: OWES, ..Unit::new(ESC, SUPPLY_UNIT, 12, 3, 0) };
    dooms(&quiet, "retreat 12 7 / 8", "retreat 12");
}

#[test]
fn refusal_3_asks_lengths_then_the_hex_then_along_both_lists() {
    let position = row(3, 1, &[1]);
    assert_eq!(answer(&position, "retreat 0 1 1 1 1 / 2"), "no 3 0");
    assert_eq!(answer(&position, "retreat 0 1 / 2 2 2 2 2 2 2 2 2 2"), "no 3 0");
    assert_eq!(answer(&position, "retreat 0 1 / 2 2 2 2 2 2 2 2 2"), "no 17 0");
    assert_eq!(answer(&position, "retreat 0 3 / 2 2 2 2 2 2 2 2 2 2"), "no 3 0");
    assert_eq!(answer(&position, "retreat 3 3 / 3"), "no 3 0");
    assert_eq!(answer(&position, "retreat 0 1 3 / 3"), "no 3 2");
    assert_eq!(answer(&position, "retreat 0 1 1 / 3"), "no 3 3");
    assert_eq!(answer(&position, "retreat 0 / 65535"), "no 3 1");
    assert_eq!(answer(&position, "retreat 0 1 1 1 / 2 2 2 2 2 2 2 2 3"), "no 3 12");
    assert_eq!(answer(&position, "retreat 0 1 / 2 3"), "no 3 3");
    // Before 2, before 4, and also for a group that would be destroyed.
    assert_eq!(answer(&row(2, 1, &[1]), "retreat 0 1 / 2"), "no 3 2");
    assert_eq!(answer(&position, "retreat 1 0 / 3"), "no 3 2");
    assert_eq!(answer(&position, "retreat 1 0 / 2"), "no 4 0");
    assert_eq!(answer(&combat(3, 1, US), "retreat 0 1 / 3"), "no 3 2");
    assert_eq!(answer(&combat(3, 1, US), "retreat 0 1 / 2"), "no 2 0");
}
