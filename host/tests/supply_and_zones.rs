//! Zones, open hexes, chains and sources.

mod common;
use common::*;
use host::rules::board::position::*;
use host::rules::board::zones::enemy_zones;

/// A row of five hexes with US supply on hex 0.
fn row() -> Position {
    let mut position = Position::plain(5, 1);
    position.map.hexes[0].flags = SUPPLY;
    position.map.hexes[0].country = 1;
    position
}

#[test]
fn an_empty_row_is_all_supplied() {
    assert_eq!(supply(&row(), US), "11111");
    assert_eq!(supply(&row(), CANADA), "00000");
}

#[test]
fn an_enemy_zone_stops_the_chain() {
    let mut position = row();
    stand(&mut position, ESC, INFANTRY, 3, 1);
    assert_eq!(supply(&position, US), "11000");
}

#[test]
fn a_friend_lifts_the_zone_for_supply() {
    let mut position = row();
    stand(&mut position, ESC, INFANTRY, 3, 1);
    stand(&mut position, CANADA, MILITIA, 2, 1);
    assert_eq!(supply(&position, US), "11100");
}

#[test]
fn supply_units_cast_no_zone_but_hold_their_hex() {
    let mut position = row();
    stand(&mut position, ESC, SUPPLY_UNIT, 3, 1);
    assert_eq!(supply(&position, US), "11100");
}

#[test]
fn armour_mechanised_infantry_and_special_infantry_cast_zones() {
    for kind in [ARMOUR, MECH, INFANTRY, SPECIAL] {
        let mut position = row();
        stand(&mut position, PAL, kind, 3, 1);
        assert_eq!(supply(&position, US), "11000");
    }
}

#[test]
fn militia_casts_no_zone_against_others() {
    let mut position = row();
    position.map.hexes[0].flags = PORT;
    stand(&mut position, PAL, INFANTRY, 0, 1);
    stand(&mut position, US, MILITIA, 3, 1);
    assert_eq!(supply(&position, PAL), "11100");
    position.units[1].kind = INFANTRY;
    assert_eq!(supply(&position, PAL), "11000");
}

#[test]
fn a_friend_does_not_open_a_hex_where_the_enemy_stands_beyond() {
    let mut position = row();
    stand(&mut position, ESC, INFANTRY, 2, 1);
    stand(&mut position, US, INFANTRY, 3, 1);
    assert_eq!(supply(&position, US), "10000");
}

#[test]
fn major_rivers_stop_zones_and_not_chains() {
    let mut position = row();
    stand(&mut position, ESC, INFANTRY, 4, 1);
    assert_eq!(supply(&position, US), "11100");
    set_side(&mut position, 3, 1, MAJOR_RIVER);
    assert_eq!(supply(&position, US), "11110");
}

#[test]
fn blocked_sides_stop_both() {
    let mut position = row();
    set_side(&mut position, 3, 1, BLOCKED);
    assert_eq!(supply(&position, US), "11110");
    stand(&mut position, ESC, INFANTRY, 4, 1);
    assert_eq!(supply(&position, US), "11110");
}

#[test]
fn plain_rivers_stop_neither() {
    let mut position = row();
    set_side(&mut position, 3, 1, RIVER);
    assert_eq!(supply(&position, US), "11111");
    stand(&mut position, ESC, INFANTRY, 4, 1);
    assert_eq!(supply(&position, US), "11100");
}

#[test]
fn zones_reach_into_lakes_and_not_into_all_sea() {
    let mut position = row();
    position.map.hexes[1].surface = ALL_SEA;
    position.map.hexes[3].surface = LAKE;
    stand(&mut position, ESC, INFANTRY, 2, 1);
    assert_eq!(enemy_zones(&position, 3), [false, false, false, true, false]);
    assert_eq!(enemy_zones(&position, 1), [false; 5]);
}

#[test]
fn sea_and_lake_are_never_open() {
    for surface in [ALL_SEA, LAKE] {
        let mut position = row();
        position.map.hexes[2].surface = surface;
        assert_eq!(supply(&position, US), "11000");
    }
}

#[test]
fn prohibited_terrain_does_not_block() {
    let mut position = row();
    position.chart.terrains[7].cost = 0;
    position.map.hexes[2].terrain = 7;
    assert_eq!(supply(&position, US), "11111");
}

#[test]
fn a_source_must_itself_be_open() {
    let mut position = row();
    stand(&mut position, ESC, INFANTRY, 1, 1);
    assert_eq!(supply(&position, US), "00000");
}

#[test]
fn each_country_supplies_its_own_nationality() {
    let mut position = row();
    position.map.hexes[0].country = 2;
    assert_eq!(supply(&position, US), "00000");
    assert_eq!(supply(&position, CANADA), "11111");
}

#[test]
fn no_country_supplies_nobody() {
    let mut position = row();
    position.map.hexes[0].country = 0;
    assert_eq!(supply(&position, US), "00000");
    assert_eq!(supply(&position, CANADA), "00000");
}

#[test]
fn a_supply_unit_needs_a_coast() {
    let mut position = row();
    stand(&mut position, SAU, SUPPLY_UNIT, 2, 1);
    assert_eq!(supply(&position, SAU), "00000");
    position.map.hexes[2].surface = COASTAL;
    assert_eq!(supply(&position, SAU), "11111");
    assert_eq!(supply(&position, ESC), "00000");
}

#[test]
fn a_port_needs_its_holder_and_no_coast() {
    let mut position = row();
    position.map.hexes[2].flags = PORT;
    assert_eq!(supply(&position, SAU), "00000");
    stand(&mut position, SAU, INFANTRY, 2, 1);
    assert_eq!(supply(&position, SAU), "11111");
}

#[test]
fn urban_and_supply_hexes_need_holder_and_coast() {
    for flag in [URBAN, SUPPLY] {
        let mut position = row();
        position.map.hexes[2].flags = flag;
        stand(&mut position, PAL, INFANTRY, 2, 1);
        assert_eq!(supply(&position, PAL), "00000");
        position.map.hexes[2].surface = COASTAL;
        assert_eq!(supply(&position, PAL), "11111");
    }
}

#[test]
fn a_held_coast_without_flags_is_no_source() {
    let mut position = row();
    position.map.hexes[2].surface = COASTAL;
    stand(&mut position, PAL, INFANTRY, 2, 1);
    assert_eq!(supply(&position, PAL), "00000");
}

#[test]
fn supply_is_asked_in_any_phase_and_stage() {
    let mut position = row();
    let unit = stand(&mut position, US, INFANTRY, 2, 1);
    give_role(&mut position, unit, MAY_ADVANCE);
    position.desk.phase = COMBAT;
    position.desk.stage = ADVANCES;
    assert_eq!(answer(&position, "supply 3"), "ok");
}

#[test]
fn a_nationality_above_4_is_3() {
    assert_eq!(answer(&row(), "supply 4"), "ok");
    assert_eq!(answer(&row(), "supply 5"), "no 3 0");
    assert_eq!(answer(&row(), "supply 65535"), "no 3 0");
}
