//! Which positions are accepted: each line at its limits and one beyond.

mod common;
use common::*;
use host::rules::board::acceptance::accepted;
use host::rules::board::contents::{taken_apart, written};
use host::rules::board::position::*;

/// What a change to a plain 5 x 5 map with one US infantry on hex 12 breaks; "-" if nothing.
fn breaks(change: impl FnOnce(&mut Position)) -> &'static str {
    let mut position = Position::plain(5, 5);
    stand(&mut position, US, INFANTRY, 12, 3);
    change(&mut position);
    accepted(&written(&position)).err().unwrap_or("-")
}

/// The same for the bytes.
fn breaks_bytes(change: impl FnOnce(&mut Vec<u8>)) -> &'static str {
    let mut bytes = written(&Position::plain(2, 1));
    change(&mut bytes);
    accepted(&bytes).err().unwrap_or("-")
}

#[test]
fn the_layout_is_contents_then_bodies() {
    let mut position = Position::plain(2, 1);
    stand(&mut position, PAL, SPECIAL, 1, 7);
    position.desk.last_turn = 60;
    let bytes = written(&position);
    assert_eq!(bytes[..20], [20, 0, 36, 0, 56, 0, 25, 0, 81, 0, 12, 0, 93, 0, 10, 0, 103, 0, 56, 0]);
    assert_eq!(bytes[20..24], [1, 1, 1, 1]);
    assert_eq!(bytes[56..65], [3, 1, 1, 1, 1, 1, 1, 1, 1]);
    assert_eq!(bytes[81..83], [2, 1]);
    assert_eq!(bytes[93..103], [1, 0, 2, 4, 1, 0, 7, 6, 1, 0]);
    assert_eq!(bytes[103..113], [1, 60, 0, 0, 0, 0, 0, 0, 255, 255]);
    assert_eq!(bytes.len(), 159);
    assert_eq!(taken_apart(&bytes).as_ref(), Ok(&position));
}

#[test]
fn the_longest_position_is_accepted() {
    let mut position = Position::plain(64, 64);
    position.results = (1..=12).map(|a| Column { a, d: 1, codes: [10; 6] }).collect();
    for unit in 0..400 {
        stand(&mut position, US, MILITIA, 4095 - unit / 3, 60);
    }
    assert_eq!(written(&position).len(), 23893);
    assert!(is_accepted(&position));
    stand(&mut position, US, MILITIA, NONE, 60);
    assert_eq!(broken(&position), "units: count 0..400");
}

#[test]
fn lengths_and_offsets_leave_no_gap_and_no_tail() {
    assert_eq!(accepted(&[]).err(), Some("contents: five entries of offset and length"));
    assert_eq!(accepted(&[20; 19]).err(), Some("contents: five entries of offset and length"));
    assert_eq!(breaks_bytes(|bytes| bytes[0] = 21), "contents: bodies in order without gap");
    assert_eq!(breaks_bytes(|bytes| bytes[8] += 1), "contents: bodies in order without gap");
    assert_eq!(breaks_bytes(|bytes| bytes.push(0)), "contents: no tail, nothing missing");
    assert_eq!(breaks_bytes(|bytes| bytes.truncate(150)), "contents: no tail, nothing missing");
    assert_eq!(breaks_bytes(|bytes| bytes[56] = 2), "results: length by the column count");
    assert_eq!(breaks_bytes(|bytes| bytes[81] = 1), "map: length by width and height");
    assert_eq!(breaks_bytes(|bytes| bytes[93] = 1), "units: length by the count");
    let grow_desk = |bytes: &mut Vec<u8>| {
        bytes[18] = 57;
        bytes.push(0);
    };
    assert_eq!(breaks_bytes(grow_desk), "desk: 56 or 60 bytes");
}

#[test]
fn width_and_height_may_be_swapped_only_where_the_bytes_say_the_same() {
    assert_eq!(breaks_bytes(|bytes| bytes.swap(81, 82)), "-");
}

#[test]
fn chart_limits() {
    assert_eq!(breaks(|p| p.chart.terrains[15].cost = 9), "-");
    assert_eq!(breaks(|p| p.chart.terrains[15].cost = 10), "chart: terrain cost 0..9");
    assert_eq!(breaks(|p| p.chart.terrains[15].cost = 0), "-");
    assert_eq!(breaks(|p| p.chart.terrains[3].multiple = 4), "-");
    assert_eq!(breaks(|p| p.chart.terrains[3].multiple = 5), "chart: terrain multiple 1..4");
    assert_eq!(breaks(|p| p.chart.terrains[3] = Effect { cost: 0, multiple: 0 }), "chart: terrain multiple 1..4");
    assert_eq!(breaks(|p| p.chart.river = Effect { cost: 9, multiple: 4 }), "-");
    assert_eq!(breaks(|p| p.chart.river.cost = 10), "chart: side cost 0..9");
    assert_eq!(breaks(|p| p.chart.major_river.multiple = 0), "chart: side multiple 1..4");
    assert_eq!(breaks(|p| p.chart.major_river.cost = 0), "-");
}

#[test]
fn results_limits() {
    let columns = |pairs: &[(u8, u8)]| pairs.iter().map(|&(a, d)| Column { a, d, codes: [10; 6] }).collect::<Vec<_>>();
    assert_eq!(breaks(|p| p.results.clear()), "results: column count 1..12");
    assert_eq!(breaks(|p| p.results = (1..=12).map(|a| Column { a, d: 1, codes: [1; 6] }).collect()), "-");
    assert_eq!(
        breaks(|p| p.results = (1..=13).map(|a| Column { a, d: 1, codes: [1; 6] }).collect()),
        "results: column count 1..12"
    );
    assert_eq!(breaks(|p| p.results = columns(&[(1, 20), (20, 1)])), "-");
    assert_eq!(breaks(|p| p.results = columns(&[(21, 1)])), "results: a 1..20");
    assert_eq!(breaks(|p| p.results = columns(&[(0, 1)])), "results: a 1..20");
    assert_eq!(breaks(|p| p.results = columns(&[(1, 21)])), "results: d 1..20");
    assert_eq!(breaks(|p| p.results = columns(&[(1, 0)])), "results: d 1..20");
    assert_eq!(breaks(|p| p.results = columns(&[(1, 1), (2, 2)])), "results: a:d strictly rising");
    assert_eq!(breaks(|p| p.results = columns(&[(19, 20), (20, 20), (20, 19)])), "-");
    assert_eq!(breaks(|p| p.results = columns(&[(2, 1), (3, 2)])), "results: a:d strictly rising");
    assert_eq!(breaks(|p| p.results[2].codes[5] = 10), "-");
    assert_eq!(breaks(|p| p.results[2].codes[5] = 11), "results: codes 1..10");
    assert_eq!(breaks(|p| p.results[0].codes[0] = 0), "results: codes 1..10");
}

#[test]
fn map_limits() {
    assert!(is_accepted(&Position::plain(64, 1)) && is_accepted(&Position::plain(1, 64)));
    assert_eq!(broken(&Position::plain(65, 1)), "map: width 1..64");
    assert_eq!(broken(&Position::plain(0, 5)), "map: width 1..64");
    assert_eq!(broken(&Position::plain(1, 65)), "map: height 1..64");
    assert_eq!(broken(&Position::plain(5, 0)), "map: height 1..64");
    assert_eq!(breaks(|p| p.map.hexes[0].terrain = 16), "map: terrain 0..15");
    assert_eq!(breaks(|p| p.map.hexes[0] = Hex { terrain: 15, surface: 3, flags: 7, country: 2, sides: 0 }), "-");
    assert_eq!(breaks(|p| p.map.hexes[0].surface = 4), "map: surface 0..3");
    assert_eq!(breaks(|p| p.map.hexes[0].flags = 8), "map: flags port, urban, supply");
    assert_eq!(breaks(|p| p.map.hexes[0].country = 3), "map: country 0..2");
    assert_eq!(breaks(|p| p.map.hexes[12].sides = 63), "-");
    assert_eq!(breaks(|p| p.map.hexes[12].sides = 64), "map: three sides, other bits 0");
}

#[test]
fn off_map_sides_are_0() {
    let line = "map: off-map sides 0";
    assert_eq!(breaks(|p| set_side(p, 1, 0, RIVER)), line);
    assert_eq!(breaks(|p| set_side(p, 1, 1, RIVER)), "-");
    assert_eq!(breaks(|p| set_side(p, 2, 1, RIVER)), line);
    assert_eq!(breaks(|p| set_side(p, 9, 1, BLOCKED)), line);
    assert_eq!(breaks(|p| set_side(p, 9, 2, RIVER)), line);
    assert_eq!(breaks(|p| set_side(p, 21, 2, RIVER)), line);
    assert_eq!(breaks(|p| set_side(p, 22, 2, RIVER)), "-");
}

#[test]
fn unit_limits() {
    assert_eq!(breaks(|p| p.units[0].nationality = 5), "units: nationality 0..4");
    assert_eq!(breaks(|p| p.units[0].kind = 6), "units: type 0..5");
    assert_eq!(breaks(|p| p.units[0].hex = 24), "-");
    assert_eq!(breaks(|p| p.units[0].hex = 25), "units: hex on the map or 65535");
    assert_eq!(breaks(|p| p.units[0].hex = 65534), "units: hex on the map or 65535");
    assert_eq!(breaks(|p| p.units[0].hex = NONE), "-");
    assert_eq!(breaks(|p| p.units[0].strength = 60), "-");
    assert_eq!(breaks(|p| p.units[0].strength = 61), "units: strength 1..60");
    assert_eq!(breaks(|p| p.units[0].strength = 0), "units: strength 1..60");
    assert_eq!(breaks(|p| p.units[0].allowance = 30), "-");
    assert_eq!(breaks(|p| p.units[0].allowance = 31), "units: allowance 0..30");
    assert_eq!(breaks(|p| p.units[0].marks = 15), "-");
    assert_eq!(breaks(|p| p.units[0].marks = 16), "units: marks tried, supplied, moved, fought");
    assert_eq!(breaks(|p| p.units[0].role = 3), "units: role 0..2");
}

#[test]
fn types_belong_to_nationalities() {
    for nationality in 0..5 {
        let becomes = |kind| breaks(|p| p.units[0] = Unit::new(nationality, kind, 12, 1, 0));
        assert_eq!(becomes(ARMOUR), "-");
        assert_eq!(becomes(MILITIA) == "-", nationality >= 3);
        assert_eq!(becomes(SPECIAL) == "-", nationality == 2);
        assert_eq!(becomes(SUPPLY_UNIT) == "-", nationality <= 2);
    }
    assert_eq!(breaks(|p| p.units[0] = Unit::new(ESC, SUPPLY_UNIT, 12, 1, 1)), "types: supply unit allowance 0");
}

#[test]
fn types_4_and_5_are_tried_in_the_box_too() {
    let line = "types: 4 and 5 always tried";
    for hex in [12, NONE] {
        assert_eq!(breaks(|p| p.units[0] = Unit { marks: 0, ..Unit::new(PAL, SPECIAL, hex, 1, 0) }), line);
        assert_eq!(breaks(|p| p.units[0] = Unit { marks: 0, ..Unit::new(SAU, SUPPLY_UNIT, hex, 1, 0) }), line);
        assert_eq!(breaks(|p| p.units[0] = Unit { marks: 0, ..Unit::new(SAU, INFANTRY, hex, 1, 0) }), "-");
    }
}

#[test]
fn units_stand_on_unprohibited_land_or_coast() {
    assert_eq!(breaks(|p| p.map.hexes[12].surface = COASTAL), "-");
    assert_eq!(breaks(|p| p.map.hexes[12].surface = ALL_SEA), "mapped units: surface 0 or 1");
    assert_eq!(breaks(|p| p.map.hexes[12].surface = LAKE), "mapped units: surface 0 or 1");
    assert_eq!(breaks(|p| p.chart.terrains[0].cost = 0), "mapped units: unprohibited terrain");
}

#[test]
fn at_most_three_of_one_force_in_a_hex() {
    let crowd = |p: &mut Position, others: &[u8]| {
        for &nationality in others {
            stand(p, nationality, INFANTRY, 12, 1);
        }
    };
    assert_eq!(breaks(|p| crowd(p, &[CANADA, US])), "-");
    assert_eq!(breaks(|p| crowd(p, &[CANADA, US, US])), "mapped units: at most three in a hex");
    assert_eq!(breaks(|p| crowd(p, &[US, PAL])), "mapped units: one force in a hex");
}

#[test]
fn destroyed_units_have_role_0_and_no_mark_but_tried() {
    assert_eq!(breaks(|p| p.units[0] = Unit { hex: NONE, marks: TRIED, ..p.units[0] }), "-");
    for mark in [SUPPLIED, MOVED, FOUGHT] {
        assert_eq!(
            breaks(|p| p.units[0] = Unit { hex: NONE, marks: mark, ..p.units[0] }),
            "destroyed units: no mark but tried"
        );
    }
    assert_eq!(
        breaks(|p| p.units[0] = Unit { hex: NONE, role: 1, marks: TRIED, ..p.units[0] }),
        "destroyed units: role 0"
    );
}

#[test]
fn desk_limits() {
    assert_eq!(breaks(|p| (p.desk.turn, p.desk.last_turn) = (60, 60)), "-");
    assert_eq!(breaks(|p| (p.desk.turn, p.desk.last_turn) = (61, 61)), "desk: turn 1..60");
    assert_eq!(breaks(|p| p.desk.turn = 0), "desk: turn 1..60");
    assert_eq!(breaks(|p| p.desk.last_turn = 61), "desk: last turn 1..60");
    assert_eq!(breaks(|p| p.desk.last_turn = 1), "-");
    assert_eq!(breaks(|p| p.desk.turn = 11), "desk: last turn not below turn");
    assert_eq!(breaks(|p| p.desk.force = 4), "desk: force 0..3");
    assert_eq!(breaks(|p| p.desk.phase = 3), "desk: phase 0..2");
    assert_eq!(breaks(|p| (p.desk.phase, p.desk.stage) = (1, 4)), "desk: stage 0..3");
}

/// A combat phase with US infantry 0 on 12, US infantry 1 on 13 and E.S.C. infantry 2 on 17, all tried.
fn fighting(stage: u8, change: impl FnOnce(&mut Position)) -> &'static str {
    let mut position = combat(5, 5, US);
    for (nationality, hex) in [(US, 12), (US, 13), (ESC, 17)] {
        stand(&mut position, nationality, INFANTRY, hex, 3);
    }
    for unit in &mut position.units {
        unit.marks = TRIED;
    }
    position.desk.stage = stage;
    match stage {
        1 => (position.units[0].role, position.desk.owed_retreat) = (1, 2),
        2 => (position.units[0].role, position.desk.need) = (1, 3),
        3 => position.units[0].role = 2,
        _ => (),
    }
    change(&mut position);
    accepted(&written(&position)).err().unwrap_or("-")
}

#[test]
fn stages_belong_to_phase_1() {
    for stage in 1..=3 {
        assert_eq!(fighting(stage, |_| ()), "-");
        assert_eq!(fighting(stage, |p| p.desk.phase = 0), "stages: 1 to 3 only in phase 1");
        assert_eq!(fighting(stage, |p| p.desk.phase = 2), "stages: 1 to 3 only in phase 1");
        assert_eq!(fighting(stage, |p| p.desk.force = PAL), "-");
    }
}

#[test]
fn roles_are_tried_and_each_of_one_force() {
    assert_eq!(fighting(1, |p| p.units[0].marks = SUPPLIED), "roles: units with a role are tried");
    assert_eq!(fighting(3, |p| p.units[0].marks = 0), "roles: units with a role are tried");
    assert_eq!(fighting(1, |p| p.units[2].role = 1), "roles: role 1 of one force");
    assert_eq!(fighting(3, |p| p.units[2].role = 2), "roles: role 2 of one force");
    assert_eq!(fighting(1, |p| p.units[1].role = 2), "roles: not the same force");
    assert_eq!(fighting(1, |p| p.units[2].role = 2), "-");
    let canada = |p: &mut Position| p.units[1] = Unit { nationality: CANADA, role: 1, ..p.units[1] };
    assert_eq!(fighting(1, canada), "-");
}

#[test]
fn n_and_need_belong_to_their_stages() {
    let n = "stages: n 1..3 in stage 1, else 0";
    let need = "stages: need 1..1080 in stage 2, else 0";
    assert_eq!(fighting(1, |p| p.desk.owed_retreat = 3), "-");
    assert_eq!(fighting(1, |p| p.desk.owed_retreat = 4), n);
    assert_eq!(fighting(1, |p| p.desk.owed_retreat = 0), n);
    assert_eq!(fighting(2, |p| p.desk.need = 1080), "-");
    assert_eq!(fighting(2, |p| p.desk.need = 1081), need);
    assert_eq!(fighting(2, |p| p.desk.need = 0), need);
    for stage in [0, 2, 3] {
        assert_eq!(fighting(stage, |p| p.desk.owed_retreat = 1), n);
    }
    for stage in [0, 1, 3] {
        assert_eq!(fighting(stage, |p| p.desk.need = 256), need);
    }
}

#[test]
fn roles_belong_to_their_stages() {
    assert_eq!(fighting(0, |p| p.units[0].role = 1), "stage 0: no roles");
    assert_eq!(fighting(0, |p| p.units[0].role = 2), "stage 0: no roles");
    assert_eq!(fighting(1, |p| p.units[0].role = 0), "stage 1: some role 1");
    assert_eq!(fighting(1, |p| p.units[0].role = 2), "stage 1: some role 1");
    assert_eq!(fighting(2, |p| p.units[0].role = 0), "stage 2: 1 to 18 of role 1, no role 2");
    assert_eq!(fighting(2, |p| p.units[2].role = 2), "stage 2: 1 to 18 of role 1, no role 2");
    assert_eq!(fighting(3, |p| p.units[0].role = 0), "stage 3: some role 2, no role 1");
    assert_eq!(fighting(3, |p| p.units[2].role = 1), "stage 3: some role 2, no role 1");
}

#[test]
fn at_most_eighteen_owe_losses() {
    let owe = |p: &mut Position, count: u16| {
        for unit in 1..count {
            p.units.push(Unit { role: 1, marks: TRIED, ..Unit::new(US, INFANTRY, unit / 3, 1, 1) });
        }
    };
    assert_eq!(fighting(2, |p| owe(p, 18)), "-");
    assert_eq!(fighting(2, |p| owe(p, 19)), "stage 2: 1 to 18 of role 1, no role 2");
}

#[test]
fn owing_hexes_and_routes_are_at_most_six() {
    let line = "stage 1: k plus filled routes at most 6";
    let routes = |p: &mut Position, count: usize| (0..count).for_each(|slot| route(p, slot, &[24]));
    assert_eq!(fighting(1, |p| routes(p, 5)), "-");
    assert_eq!(fighting(1, |p| routes(p, 6)), line);
    let second_hex = |p: &mut Position| {
        routes(p, 5);
        p.units[1].role = 1;
    };
    assert_eq!(fighting(1, second_hex), line);
    let same_hex = |p: &mut Position| {
        routes(p, 5);
        p.units[1].role = 1;
        p.units[1].hex = 12;
    };
    assert_eq!(fighting(1, same_hex), "-");
    assert_eq!(fighting(2, |p| routes(p, 6)), "-");
    assert_eq!(fighting(3, |p| routes(p, 6)), "-");
}

#[test]
fn routes_come_first_and_fill_from_the_front() {
    assert_eq!(fighting(0, |p| route(p, 0, &[24])), "stage 0: no routes");
    assert_eq!(fighting(3, |p| route(p, 1, &[24])), "routes: filled routes come first");
    assert_eq!(fighting(3, |p| p.desk.routes[0] = [24, NONE, 23, NONE]), "routes: each fills from its front");
    assert_eq!(fighting(0, |p| p.desk.routes[0] = [NONE, NONE, NONE, 24]), "routes: each fills from its front");
    assert_eq!(fighting(3, |p| p.desk.routes[5][3] = 0), "routes: each fills from its front");
}

#[test]
fn routes_lead_over_joined_land() {
    let land = "routes: hexes of surface 0 or 1, unprohibited";
    let joined = "routes: each next to the last over an unblocked side";
    assert_eq!(fighting(3, |p| route(p, 0, &[12, 7, 12, 17])), "-");
    assert_eq!(fighting(3, |p| route(p, 0, &[12, 25])), land);
    let sea = |p: &mut Position, surface: u8| {
        route(p, 0, &[12, 7]);
        p.map.hexes[7].surface = surface;
    };
    assert_eq!(fighting(3, |p| sea(p, COASTAL)), "-");
    assert_eq!(fighting(3, |p| sea(p, ALL_SEA)), land);
    assert_eq!(fighting(3, |p| sea(p, LAKE)), land);
    let prohibited = |p: &mut Position| {
        route(p, 0, &[7]);
        p.map.hexes[7].terrain = 1;
        p.chart.terrains[1].cost = 0;
    };
    assert_eq!(fighting(3, prohibited), land);
    assert_eq!(fighting(3, |p| route(p, 0, &[12, 12])), joined);
    assert_eq!(fighting(3, |p| route(p, 0, &[12, 2])), joined);
    let blocked = |p: &mut Position, side: u8| {
        route(p, 0, &[7, 12]);
        set_side(p, 12, 0, side);
    };
    assert_eq!(fighting(3, |p| blocked(p, BLOCKED)), joined);
    assert_eq!(fighting(3, |p| blocked(p, MAJOR_RIVER)), "-");
}
