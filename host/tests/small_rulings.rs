//! The table of small rulings and the roster examples.

mod common;
use common::*;
use host::rules::board::grid::Grid;
use host::rules::board::position::*;
use host::rules::calls::battle::{column, halved};
use host::rules::calls::supply::units_in_supply;

fn near(width: usize, height: usize, hex: usize) -> Vec<Option<usize>> {
    Grid { width, height }.neighbours(hex).to_vec()
}

fn some(hexes: [usize; 6]) -> Vec<Option<usize>> {
    hexes.map(Some).to_vec()
}

#[test]
fn neighbours_of_hex_12_even_column() {
    assert_eq!(near(5, 5, 12), some([7, 8, 13, 17, 11, 6]));
}

#[test]
fn neighbours_of_hex_6_odd_column() {
    assert_eq!(near(5, 5, 6), some([1, 7, 12, 11, 10, 5]));
}

#[test]
fn one_hex_has_no_neighbours() {
    assert_eq!(near(1, 1, 0), vec![None; 6]);
}

#[test]
fn in_row_0_an_odd_column_has_north_east_and_an_even_one_has_not() {
    assert_eq!(near(5, 5, 1), vec![None, Some(2), Some(7), Some(6), Some(5), Some(0)]);
    assert_eq!(near(5, 5, 2), vec![None, None, Some(3), Some(7), Some(1), None]);
}

#[test]
fn distance_goes_round_by_map_hexes_only() {
    let grid = Grid { width: 5, height: 5 };
    assert_eq!(grid.distance(12, 2), Some(2));
    assert_eq!(grid.distance(12, 8), Some(1));
    assert_eq!(grid.distance(0, 24), Some(6));
    assert_eq!(grid.distance(20, 4), Some(6));
    assert_eq!(Grid { width: 9, height: 1 }.distance(0, 8), Some(8));
}

#[test]
fn columns_one_two_three_to_one() {
    let results = Position::plain(1, 1).results;
    assert_eq!(column(&results, 26, 9), 1);
    assert_eq!(column(&results, 27, 9), 2);
    assert_eq!(column(&results, 8, 9), 0);
}

#[test]
fn halves_with_fractions_up() {
    assert_eq!([halved(5), halved(1), halved(4)], [3, 1, 2]);
}

/// Attackers of strength 6 and 6 on hexes 7 and 8 against strength 3 on hex 12, all supplied.
fn over_two_sides(first: u8, second: u8, terrain_multiple: u8) -> String {
    let mut position = combat(5, 5, PAL);
    position.chart.river.multiple = 2;
    position.chart.major_river.multiple = 3;
    position.chart.terrains[0].multiple = terrain_multiple;
    for hex in [7, 8] {
        stand(&mut position, PAL, INFANTRY, hex, 6);
        position.map.hexes[usize::from(hex)].flags = PORT;
    }
    stand(&mut position, ESC, INFANTRY, 12, 3);
    position.map.hexes[12].flags = PORT;
    position.results = [1, 2, 3, 4].map(|a| Column { a, d: 1, codes: [1; 6] }).to_vec();
    set_side(&mut position, 12, 0, first);
    set_side(&mut position, 12, 1, second);
    answer(&position, "attack 12 1 0 1")
}

#[test]
fn side_multiples_2_and_3_with_terrain_1_give_2() {
    assert_eq!(over_two_sides(RIVER, MAJOR_RIVER, 1), "fought 2 1");
}

#[test]
fn a_plain_side_with_terrain_3_gives_3() {
    assert_eq!(over_two_sides(PLAIN, MAJOR_RIVER, 3), "fought 1 1");
}

#[test]
fn one_plain_side_makes_rivers_count_nothing() {
    assert_eq!(over_two_sides(PLAIN, MAJOR_RIVER, 1), "fought 4 1");
}

#[test]
fn both_over_the_major_river_give_3() {
    assert_eq!(over_two_sides(MAJOR_RIVER, MAJOR_RIVER, 1), "fought 1 1");
}

#[test]
fn terrain_above_the_side_multiple_stands() {
    assert_eq!(over_two_sides(RIVER, RIVER, 4), "fought 1 1");
}

/// A group on hex 12 that owes two steps.
fn owing_two() -> Position {
    let mut position = combat(5, 5, US);
    let unit = stand(&mut position, ESC, INFANTRY, 12, 3);
    give_role(&mut position, unit, OWES);
    position.desk.stage = RETREATS;
    position.desk.owed_retreat = 2;
    position
}

#[test]
fn route_7_2_is_legal_by_distance() {
    assert_eq!(answer(&owing_two(), "retreat 12 7 2"), "retreated 2");
}

#[test]
fn route_7_8_curls_back() {
    assert_eq!(answer(&owing_two(), "retreat 12 7 8"), "no 14 0");
}

/// Attackers 6 and 4 owe a need of 3.
fn exchange_of_three() -> Position {
    let mut position = combat(5, 5, US);
    for strength in [6, 4] {
        let unit = stand(&mut position, US, INFANTRY, 12, strength);
        give_role(&mut position, unit, OWES);
    }
    position.desk.stage = LOSSES;
    position.desk.need = 3;
    position
}

#[test]
fn either_attacker_alone_stands_for_need_3() {
    assert_eq!(answer(&exchange_of_three(), "losses 0"), "ok");
    assert_eq!(answer(&exchange_of_three(), "losses 1"), "ok");
}

#[test]
fn infantry_alone_is_15_beside_special_infantry() {
    let mut position = exchange_of_three();
    position.desk.force = PAL;
    position.units[0] = Unit { role: OWES, ..Unit::new(PAL, SPECIAL, 12, 20, 4) };
    position.units[1] = Unit { role: OWES, marks: TRIED, ..Unit::new(PAL, INFANTRY, 12, 3, 4) };
    assert_eq!(answer(&position, "losses 1"), "no 15 0");
    assert_eq!(answer(&position, "losses 0"), "ok");
}

/// Map 3 x 1, hex 0 US supply, US infantry on 2, E.S.C. infantry on 1.
fn roster_map() -> Position {
    let mut position = Position::plain(3, 1);
    position.map.hexes[0].flags = SUPPLY;
    position.map.hexes[0].country = 1;
    stand(&mut position, US, INFANTRY, 2, 3);
    stand(&mut position, ESC, INFANTRY, 1, 3);
    position
}

#[test]
fn roster_example_both_out() {
    assert_eq!(units_in_supply(&roster_map()), [false, false]);
}

#[test]
fn roster_example_with_unit_1_destroyed() {
    let mut position = roster_map();
    position.units[1].hex = NONE;
    assert_eq!(units_in_supply(&position), [true, false]);
}
