//! One player for several forces, sentence by sentence.

mod common;
use common::crowds::*;
use common::*;
use host::generator::record;
use host::record::line::{hex_digits, read, Line};
use host::record::table::Table;
use host::rules::board::acceptance::accepted;
use host::rules::board::contents::written;
use host::rules::board::position::*;
use host::rules::board::zones::enemy_zones;
use host::rules::order::CALLS;

/// The two-player game: one player for forces 0 to 2.
const TWO_PLAYERS: [u8; 4] = [0, 0, 0, 1];
const FOUR_PLAYERS: [u8; 4] = [0, 1, 2, 3];

/// Every way to name four players, 0..3 each.
fn all_players() -> Vec<[u8; 4]> {
    (0..=255).map(|number: u8| [number & 3, number >> 2 & 3, number >> 4 & 3, number >> 6]).collect()
}

fn with_players(mut position: Position, players: [u8; 4]) -> Position {
    position.desk.players = Some(players);
    position
}

/// The answers for the position with two players and with four.
fn answers(position: &Position, line: &str) -> (String, String) {
    let two = with_players(position.clone(), TWO_PLAYERS);
    let four = with_players(position.clone(), FOUR_PLAYERS);
    (answer(&two, line), answer(&four, line))
}

fn both(two: &str, four: &str) -> (String, String) {
    (two.to_string(), four.to_string())
}

// The desk

#[test]
fn the_players_are_the_last_four_bytes() {
    let mut position = Position::plain(2, 1);
    let old = written(&position);
    position.desk.players = Some([3, 0, 0, 2]);
    let new = written(&position);
    assert_eq!((old[18], new[18]), (56, 60));
    assert_eq!(new.len(), old.len() + 4);
    assert_eq!(new[20..old.len()], old[20..]);
    assert_eq!(new[old.len()..], [3, 0, 0, 2]);
    assert_eq!(accepted(&new), Ok(position));
}

#[test]
fn a_desk_has_56_or_60_bytes_and_no_other_length() {
    let old = written(&Position::plain(2, 1));
    for length in 0..=130 {
        for fill in [0, 1, 3] {
            let mut bytes = old.clone();
            bytes.resize(old.len() - 56 + usize::from(length), fill);
            bytes[18] = length;
            // Desks that are long enough name four players with these bytes at their end.
            if length >= 60 {
                let end = bytes.len();
                bytes[end - 4..].copy_from_slice(&FOUR_PLAYERS);
            }
            assert_eq!(accepted(&bytes).is_ok(), length == 56 || length == 60, "{length}");
        }
    }
}

#[test]
fn the_contents_say_which_it_is() {
    let old = written(&Position::plain(2, 1));
    let new = written(&with_players(Position::plain(2, 1), FOUR_PLAYERS));
    let says = |bytes: &[u8], length: u8| {
        let mut bytes = bytes.to_vec();
        bytes[18] = length;
        accepted(&bytes).err()
    };
    let tail = Some("contents: no tail, nothing missing");
    assert_eq!((says(&old, 56), says(&new, 60)), (None, None));
    assert_eq!((says(&old, 60), says(&new, 56)), (tail, tail));
    for length in [55, 57, 58, 59, 61, 64] {
        assert_eq!((says(&old, length), says(&new, length)), (tail, tail));
    }
}

#[test]
fn the_longest_position_has_four_bytes_more() {
    let mut position = with_players(Position::plain(64, 64), TWO_PLAYERS);
    position.results = (1..=12).map(|a| Column { a, d: 1, codes: [10; 6] }).collect();
    for unit in 0..400 {
        stand(&mut position, US, MILITIA, 4095 - unit / 3, 60);
    }
    assert_eq!(written(&position).len(), 23897);
    assert!(is_accepted(&position));
}

#[test]
fn a_player_is_0_to_3() {
    for force in 0..4 {
        for player in 4..=255 {
            let mut players = FOUR_PLAYERS;
            players[force] = player;
            assert_eq!(broken(&with_players(Position::plain(1, 1), players)), "desk: players 0..3");
        }
    }
    // Forces of one player above 3 share nothing that could be accepted.
    assert_eq!(broken(&with_players(Position::plain(1, 1), [4, 4, 4, 0])), "desk: players 0..3");
}

#[test]
fn forces_0_to_2_may_share_in_every_way_and_force_3_never() {
    for players in all_players() {
        let position = with_players(Position::plain(1, 1), players);
        if players[..3].contains(&players[3]) {
            assert_eq!(broken(&position), "desk: force 3 shares no player", "{players:?}");
        } else {
            assert!(is_accepted(&position), "{players:?}");
        }
    }
    for players in [[3, 1, 2, 3], [0, 3, 2, 3], [0, 1, 3, 3], [0, 0, 0, 0], [1, 1, 2, 1]] {
        assert!(!is_accepted(&with_players(Position::plain(1, 1), players)), "{players:?}");
    }
}

#[test]
fn a_broken_desk_is_1_for_every_call() {
    let mut table = Table::with_all_calls();
    for players in [[0, 1, 2, 0], [0, 1, 2, 4]] {
        table.position = written(&with_players(Position::plain(2, 1), players));
        let bytes = table.position.clone();
        for line in ["supply 0", "move 0 1", "end", "attack 0 1 0", "retreat 0", "losses 0", "advance 0 0", "close"] {
            assert_eq!(table.play(line.as_bytes()).text().as_deref(), Some("no 1 0"), "{line}");
        }
        assert_eq!(table.play(b"roster").text().as_deref(), Some("refused 1"));
        assert_eq!(table.position, bytes);
    }
}

// Enemy, Friendly, neutral

#[test]
fn forces_are_enemy_if_their_players_differ() {
    for players in all_players() {
        let desk = Desk { players: Some(players), ..Desk::plain() };
        for (one, other) in (0..4).flat_map(|one| (0..4).map(move |other| (one, other))) {
            let same_player = players[usize::from(one)] == players[usize::from(other)];
            assert_eq!(desk.enemy(one, other), !same_player);
            assert_eq!(desk.neutral(one, other), same_player && one != other);
        }
    }
}

#[test]
fn an_old_desk_has_four_players() {
    let desk = Desk::plain();
    for (one, other) in (0..4).flat_map(|one| (0..4).map(move |other| (one, other))) {
        assert_eq!(desk.enemy(one, other), one != other);
        assert!(!desk.neutral(one, other));
    }
}

// Zones and supply

/// Hexes 0 to 4 in a row, E.S.C. infantry on the port 0 and on 4; hex 7 lies south of 2 and beside 1, 2 and 3; the rest
/// is sea.
fn line_of_supply() -> Position {
    let mut position = Position::plain(5, 2);
    for hex in [5, 6, 8, 9] {
        position.map.hexes[hex].surface = ALL_SEA;
    }
    position.map.hexes[0].flags = PORT;
    stand(&mut position, ESC, INFANTRY, 0, 3);
    stand(&mut position, ESC, INFANTRY, 4, 3);
    position
}

/// The supply of E.S.C. with two players and with four.
fn supplies(position: &Position) -> (String, String) {
    let of = |players| supply(&with_players(position.clone(), players), ESC);
    (of(TWO_PLAYERS), of(FOUR_PLAYERS))
}

#[test]
fn neutrals_cast_no_zone_on_each_other() {
    let mut position = line_of_supply();
    stand(&mut position, PAL, INFANTRY, 7, 3);
    let two = with_players(position.clone(), TWO_PLAYERS);
    let covered = [false, true, true, true, false, false, false, false, false, false];
    assert_eq!(enemy_zones(&two, 0), [false; 10]);
    assert_eq!(enemy_zones(&two, 1), [false; 10]);
    assert_eq!(enemy_zones(&two, 3), covered);
    assert_eq!(enemy_zones(&with_players(position.clone(), FOUR_PLAYERS), 1), covered);
    assert_eq!(enemy_zones(&position, 1), covered);
    // Only forces 0 and 1 have one player: P.A.L. is Enemy to both.
    assert_eq!(enemy_zones(&with_players(position, [2, 2, 0, 1]), 1), covered);
}

#[test]
fn a_neutrals_zone_stops_no_supply_line() {
    let mut position = line_of_supply();
    stand(&mut position, PAL, INFANTRY, 7, 3);
    assert_eq!(supplies(&position), both("1111100100", "1000000000"));
    assert_eq!(supply(&position, ESC), "1000000000");
}

#[test]
fn a_neutral_blocks_no_supply() {
    for (kind, if_enemy) in [(SUPPLY_UNIT, "1100000000"), (INFANTRY, "1000000000")] {
        let mut position = line_of_supply();
        position.map.hexes[7].surface = ALL_SEA;
        stand(&mut position, PAL, kind, 2, 3);
        assert_eq!(supplies(&position), both("1111100000", if_enemy));
    }
}

#[test]
fn a_line_goes_round_an_enemy_by_a_neutrals_hex() {
    let mut position = line_of_supply();
    stand(&mut position, US, MILITIA, 2, 3);
    stand(&mut position, PAL, INFANTRY, 7, 3);
    assert_eq!(supplies(&position), both("1101100100", "1000000000"));
    position.units[3].hex = NONE;
    position.map.hexes[7].surface = LAKE;
    assert_eq!(supplies(&position), both("1100000000", "1100000000"));
}

#[test]
fn a_neutral_lifts_no_zone() {
    let mut position = line_of_supply();
    stand(&mut position, US, INFANTRY, 7, 3);
    stand(&mut position, PAL, INFANTRY, 1, 3);
    stand(&mut position, PAL, INFANTRY, 3, 3);
    assert_eq!(supplies(&position).0, "1000000000");
    // Its own force does.
    for unit in [3, 4] {
        position.units[unit].nationality = ESC;
    }
    stand(&mut position, ESC, INFANTRY, 2, 3);
    assert_eq!(supplies(&position).0, "1111100000");
}

#[test]
fn a_hex_with_a_neutral_is_open_outside_enemy_zones() {
    let mut position = line_of_supply();
    position.units[1].hex = NONE;
    stand(&mut position, PAL, INFANTRY, 2, 3);
    assert_eq!(supplies(&position).0, "1111100100");
    // The Enemy on 4 covers 3, and not 2.
    stand(&mut position, US, INFANTRY, 4, 3);
    assert_eq!(supplies(&position).0, "1110000100");
}

#[test]
fn a_neutrals_port_or_supply_unit_is_no_source() {
    let mut position = line_of_supply();
    position.units[0] = Unit::new(PAL, INFANTRY, 0, 3, 6);
    assert_eq!(supplies(&position).0, "0000000000");
    position.units[0] = Unit::new(PAL, SUPPLY_UNIT, 0, 3, 0);
    for flags in [0, PORT, URBAN, SUPPLY] {
        for surface in [LAND, COASTAL] {
            position.map.hexes[0].flags = flags;
            position.map.hexes[0].surface = surface;
            assert_eq!(supplies(&position).0, "0000000000");
        }
    }
    // It is one for its own force, and E.S.C. on the line makes no difference to it.
    assert_eq!(supply(&with_players(position, TWO_PLAYERS), PAL), "1111100100");
}

#[test]
fn the_supply_of_a_neutral_is_its_own() {
    let mut position = line_of_supply();
    position.desk.force = ESC;
    position.desk.phase = COMBAT;
    stand(&mut position, PAL, INFANTRY, 2, 3);
    let (_, after) = rule(&with_players(position.clone(), TWO_PLAYERS), "end");
    assert_eq!(after.units.iter().map(|unit| unit.has(SUPPLIED)).collect::<Vec<bool>>(), [true, true, false]);
    let (_, after) = rule(&position, "end");
    assert_eq!(after.units.iter().map(|unit| unit.has(SUPPLIED)).collect::<Vec<bool>>(), [true, false, false]);
}

// Moves

/// A row of six hexes; S.A.U. infantry 0 on hex 0 is about to move.
fn road() -> Position {
    let mut position = Position::plain(6, 1);
    stand(&mut position, SAU, INFANTRY, 0, 3);
    position.units[0].marks = SUPPLIED;
    position
}

#[test]
fn a_neutral_is_18_at_its_place() {
    for hex in 1..=5 {
        for kind in [INFANTRY, SUPPLY_UNIT] {
            let mut position = road();
            stand(&mut position, ESC, kind, hex, 3);
            let path: Vec<String> = (1..=hex).map(|hex| hex.to_string()).collect();
            let line = format!("move 0 {}", path.join(" "));
            let four = if kind == INFANTRY && hex > 1 { format!("no 9 {hex}") } else { format!("no 8 {hex}") };
            assert_eq!(answers(&position, &line), both(&format!("no 18 {hex}"), &four));
        }
    }
}

#[test]
fn a_neutral_is_neither_passed_nor_stacked_with() {
    let mut position = with_players(road(), TWO_PLAYERS);
    stand(&mut position, PAL, INFANTRY, 2, 1);
    assert_eq!(answer(&position, "move 0 1 2"), "no 18 2");
    assert_eq!(answer(&position, "move 0 1 2 3"), "no 18 2");
    assert_eq!(answer(&position, "move 0 1"), "ok");
    // Three of them are 18 and not 11.
    stand(&mut position, PAL, INFANTRY, 2, 1);
    stand(&mut position, PAL, INFANTRY, 2, 1);
    assert_eq!(answer(&position, "move 0 1 2"), "no 18 2");
}

#[test]
fn a_neutrals_zone_stops_no_move() {
    let mut position = Position::plain(5, 2);
    stand(&mut position, SAU, INFANTRY, 0, 3);
    position.units[0].marks = SUPPLIED;
    stand(&mut position, ESC, INFANTRY, 7, 3);
    assert_eq!(answers(&position, "move 0 1 2 3 4"), both("ok", "no 9 2"));
    assert_eq!(answer(&position, "move 0 1 2 3 4"), "no 9 2");
}

#[test]
fn step_by_step_9_comes_first_then_7_8_18_and_10() {
    // Out of an Enemy zone into a neutral.
    let mut position = with_players(Position::plain(5, 2), TWO_PLAYERS);
    stand(&mut position, SAU, INFANTRY, 0, 3);
    stand(&mut position, ESC, SUPPLY_UNIT, 2, 3);
    stand(&mut position, US, INFANTRY, 6, 3);
    assert_eq!(answer(&position, "move 0 1 2"), "no 9 2");
    position.units[2].hex = NONE;
    assert_eq!(answer(&position, "move 0 1 2"), "no 18 2");
    // A neutral over a blocked side, or not adjacent.
    let mut position = with_players(road(), TWO_PLAYERS);
    stand(&mut position, ESC, SUPPLY_UNIT, 1, 3);
    assert_eq!(answer(&position, "move 0 1"), "no 18 1");
    set_side(&mut position, 0, 2, BLOCKED);
    assert_eq!(answer(&position, "move 0 1"), "no 7 1");
    set_side(&mut position, 0, 2, PLAIN);
    position.units[1].hex = 2;
    assert_eq!(answer(&position, "move 0 2"), "no 7 1");
    // Over the allowance too.
    position.units[0].allowance = 0;
    position.units[1].hex = 1;
    assert_eq!(answer(&position, "move 0 1"), "no 18 1");
    position.units[0].allowance = 1;
    position.units[1].hex = 2;
    assert_eq!(answer(&position, "move 0 1 2"), "no 18 2");
    // Over it before.
    position.units[1].hex = 3;
    assert_eq!(answer(&position, "move 0 1 2 3"), "no 10 2");
}

#[test]
fn the_first_on_the_path_is_answered() {
    let mut position = with_players(road(), TWO_PLAYERS);
    stand(&mut position, ESC, SUPPLY_UNIT, 2, 3);
    stand(&mut position, US, MILITIA, 3, 3);
    assert_eq!(answer(&position, "move 0 1 2 3"), "no 18 2");
    (position.units[1].hex, position.units[2].hex) = (3, 2);
    assert_eq!(answer(&position, "move 0 1 2 3"), "no 8 2");
}

#[test]
fn phasing_goes_by_force() {
    let mut position = with_players(road(), TWO_PLAYERS);
    stand(&mut position, ESC, INFANTRY, 3, 3);
    assert_eq!(answer(&position, "move 1 2"), "no 4 0");
    position.desk.force = ESC;
    assert_eq!(answer(&position, "move 1 2"), "ok");
    // Each force has its own phases.
    (position.desk.phase, position.desk.force) = (MECHANISED, SAU);
    let (_, after) = rule(&position, "end");
    assert_eq!((after.desk.force, after.desk.phase), (ESC, LAND_MOVEMENT));
}

// Attacks

#[test]
fn a_target_without_enemy_is_12() {
    let mut position = combat(5, 1, SAU);
    stand(&mut position, SAU, INFANTRY, 1, 3);
    stand(&mut position, ESC, INFANTRY, 2, 3);
    assert_eq!(answers(&position, "attack 2 1 0"), both("no 12 0", "fought 1 1"));
    // Before anything about the list.
    assert_eq!(answers(&position, "attack 2 1 1"), both("no 12 0", "no 4 1"));
    // A target with Enemies that an attacker of another force stands beside.
    stand(&mut position, US, INFANTRY, 3, 3);
    assert_eq!(answers(&position, "attack 3 1 1"), both("no 4 1", "no 4 1"));
    position.desk.force = ESC;
    assert_eq!(answers(&position, "attack 3 1 1"), both("fought 1 1", "fought 1 1"));
    assert_eq!(answers(&position, "attack 1 1 1"), both("no 12 0", "fought 1 1"));
    position.desk.force = US;
    assert_eq!(answers(&position, "attack 2 1 2"), both("fought 1 1", "fought 1 1"));
}

#[test]
fn a_neutral_takes_no_supply_from_an_attacker() {
    // S.A.U. infantry of strength 4 on hex 2 is supplied from the port 0 by hex 1; E.S.C. stands on 1.
    let mut position = combat(4, 1, SAU);
    position.map.hexes[0].flags = PORT;
    stand(&mut position, SAU, INFANTRY, 2, 4);
    stand(&mut position, SAU, INFANTRY, 0, 4);
    stand(&mut position, ESC, SUPPLY_UNIT, 1, 1);
    stand(&mut position, US, MILITIA, 3, 4);
    assert_eq!(answers(&position, "attack 3 1 0"), both("fought 2 1", "fought 1 1"));
}

// Advances

/// Stage 3 on a 5 x 5 map: S.A.U. infantry 0 on hex 12 may advance along 7, 2, 3.
fn advancing() -> Position {
    let mut position = with_players(combat(5, 5, SAU), TWO_PLAYERS);
    position.desk.stage = ADVANCES;
    let unit = stand(&mut position, SAU, INFANTRY, 12, 3);
    give_role(&mut position, unit, MAY_ADVANCE);
    route(&mut position, 0, &[7, 2, 3]);
    position
}

#[test]
fn an_advance_over_or_onto_a_neutral_is_7() {
    let held = |hex: u16, line: &str| {
        let mut position = advancing();
        stand(&mut position, ESC, SUPPLY_UNIT, hex, 3);
        answer(&position, line)
    };
    for line in ["advance 0 7", "advance 0 2", "advance 0 3"] {
        assert_eq!(answer(&advancing(), line), "ok");
        assert_eq!(held(7, line), "no 7 0", "{line}");
    }
    assert_eq!(held(2, "advance 0 7"), "ok");
    assert_eq!(held(2, "advance 0 2"), "no 7 0");
    assert_eq!(held(2, "advance 0 3"), "no 7 0");
    assert_eq!(held(3, "advance 0 7"), "ok");
    assert_eq!(held(3, "advance 0 2"), "ok");
    assert_eq!(held(3, "advance 0 3"), "no 7 0");
    // Beside the road it does nothing.
    assert_eq!(held(8, "advance 0 3"), "ok");
}

#[test]
fn three_neutrals_on_the_hex_are_7_and_not_11() {
    let mut position = advancing();
    for _ in 0..3 {
        stand(&mut position, PAL, INFANTRY, 7, 3);
    }
    assert_eq!(answer(&position, "advance 0 7"), "no 7 0");
    for unit in 1..4 {
        position.units[unit].nationality = SAU;
    }
    assert_eq!(answer(&position, "advance 0 7"), "no 11 0");
}

#[test]
fn another_route_round_the_neutral_serves() {
    let mut position = advancing();
    stand(&mut position, ESC, INFANTRY, 7, 3);
    route(&mut position, 1, &[8, 3]);
    assert_eq!(answer(&position, "advance 0 3"), "ok");
    assert_eq!(answer(&position, "advance 0 2"), "no 7 0");
}

#[test]
fn neutral_is_asked_of_the_unit_and_not_of_the_phasing_force() {
    let mut position = advancing();
    position.desk.force = US;
    stand(&mut position, ESC, INFANTRY, 7, 3);
    assert_eq!(answer(&position, "advance 0 7"), "no 7 0");
    position.units[1].nationality = SAU;
    assert_eq!(answer(&position, "advance 0 7"), "ok");
}

// Retreats and pushes. E.S.C. owes.

#[test]
fn a_neutrals_zone_bars_no_retreat() {
    let mut position = land(1, &[7, 2], &[]);
    stand(&mut position, PAL, INFANTRY, 2, 3);
    assert_eq!(answers(&position, "retreat 12 7"), both("retreated 7", "no 14 0"));
    assert_eq!(answers(&position, "retreat 12"), both("no 14 0", "destroyed"));
}

#[test]
fn a_retreat_needs_a_vacant_hex() {
    let mut position = land(1, &[7, 2], &[]);
    stand(&mut position, PAL, SUPPLY_UNIT, 7, 3);
    assert_eq!(answers(&position, "retreat 12 7"), both("no 14 0", "no 14 0"));
    assert_eq!(answers(&position, "retreat 12"), both("destroyed", "destroyed"));
}

#[test]
fn a_neutral_stack_is_not_pushed() {
    let mut position = with_players(land(1, &[7, 2], &[]), TWO_PLAYERS);
    stand(&mut position, PAL, INFANTRY, 7, 3);
    dooms(&position, "retreat 12 7 / 2", "retreat 12");
    // A stack of its own force is.
    position.units[1].nationality = ESC;
    assert_eq!(ends(&position, "retreat 12 7 / 2"), told("retreated 7", &[7, 2]));
}

#[test]
fn a_pushed_stack_neither_enters_nor_pushes_a_neutral() {
    let mut position = with_players(land(1, &[7, 2, 1], &[7]), TWO_PLAYERS);
    stand(&mut position, PAL, INFANTRY, 2, 3);
    assert_eq!(answer(&position, "retreat 12 7 / 2"), "no 17 0");
    assert_eq!(answer(&position, "retreat 12 7 / 2 1"), "no 17 0");
    assert_eq!(ends(&position, "retreat 12 7 / 1"), told("retreated 7", &[7, 1, 2]));
    // With a neutral on 1 too nothing is left.
    stand(&mut position, SAU, INFANTRY, 1, 3);
    dooms(&position, "retreat 12 7 / 1", "retreat 12");
}

#[test]
fn a_vacant_hex_in_a_neutrals_zone_is_used_by_a_pushed_stack() {
    // 7 has 2 and 6 beside it; P.A.L. on 1 covers both of them, and 7. Own units stand on 7 and 6.
    let mut position = land(1, &[7, 2, 6, 1], &[7, 6]);
    stand(&mut position, PAL, INFANTRY, 1, 3);
    let two = with_players(position.clone(), TWO_PLAYERS);
    assert_eq!(ends(&two, "retreat 12 7 / 2"), told("retreated 7", &[7, 2, 6, 1]));
    assert_eq!(answer(&two, "retreat 12 7 / 6 2"), "no 17 0");
    assert_eq!(answer(&with_players(position, FOUR_PLAYERS), "retreat 12"), "destroyed");
}

#[test]
fn a_part_route_goes_through_a_neutrals_zone_and_ends_before_a_neutral() {
    let mut position = row(4, 3, &[]);
    stand(&mut position, PAL, INFANTRY, 3, 3);
    assert_eq!(answers(&position, "retreat 0 1 2"), both("destroyed", "no 14 0"));
    assert_eq!(answers(&position, "retreat 0 1"), both("no 14 0", "destroyed"));
    assert_eq!(answers(&position, "retreat 0 1 2 3"), both("no 14 0", "no 14 0"));
    let (_, after) = rule(&with_players(position, TWO_PLAYERS), "retreat 0 1 2");
    assert_eq!((after.desk.stage, after.units[0].hex, after.units[1].hex), (QUIET, NONE, 3));
}

// Acceptance

#[test]
fn one_force_in_a_hex_still() {
    for (one, other) in [(SAU, ESC), (ESC, PAL), (SAU, PAL)] {
        let mut position = with_players(Position::plain(2, 1), TWO_PLAYERS);
        stand(&mut position, one, INFANTRY, 0, 3);
        stand(&mut position, other, INFANTRY, 0, 3);
        assert_eq!(broken(&position), "mapped units: one force in a hex");
        position.units[1].hex = 1;
        assert!(is_accepted(&position));
    }
}

#[test]
fn roles_of_forces_neutral_to_each_other_are_accepted() {
    let mut position = with_players(row(4, 1, &[]), TWO_PLAYERS);
    let victor = stand(&mut position, PAL, INFANTRY, 2, 3);
    give_role(&mut position, victor, MAY_ADVANCE);
    assert!(is_accepted(&position));
    assert_eq!(answer(&position, "retreat 0 1"), "retreated 1");
    position.units[victor].nationality = ESC;
    assert_eq!(broken(&position), "roles: not the same force");
}

#[test]
fn each_role_is_of_one_force_still() {
    for (role, line) in [(OWES, "roles: role 1 of one force"), (MAY_ADVANCE, "roles: role 2 of one force")] {
        let mut position = with_players(row(4, 1, &[]), TWO_PLAYERS);
        for (nationality, hex) in [(SAU, 2), (PAL, 3)] {
            let unit = stand(&mut position, nationality, INFANTRY, hex, 3);
            give_role(&mut position, unit, role);
        }
        assert_eq!(broken(&position), line);
    }
}

// Losses

#[test]
fn special_infantry_goes_by_the_phasing_force_and_not_by_its_player() {
    let mut position = with_players(combat(3, 1, PAL), TWO_PLAYERS);
    position.desk.stage = LOSSES;
    position.desk.need = 3;
    for (kind, strength) in [(SPECIAL, 20), (INFANTRY, 3)] {
        let unit = stand(&mut position, PAL, kind, 0, strength);
        give_role(&mut position, unit, OWES);
    }
    assert_eq!(answer(&position, "losses 1"), "no 15 0");
    for force in [SAU, ESC, US] {
        position.desk.force = force;
        assert_eq!(answer(&position, "losses 1"), "ok");
    }
}

// Bytes

/// Every call line of a record, with the table as it is before the call, where its position is accepted.
fn each_call(seed: u64, count: u64, mut question: impl FnMut(&Table, &Position, &[u8])) {
    let mut table = Table::with_all_calls();
    for line in record(seed, count, &CALLS).split(|&byte| byte == b'\n') {
        if let (Line::Call(_), Ok(position)) = (read(line), accepted(&table.position)) {
            question(&table, &position, line);
        }
        table.play(line);
    }
}

/// The bytes of an old position with four players appended: they and the contents' length alone are new.
fn with_four_appended(old: &[u8]) -> Vec<u8> {
    let mut bytes = [old, &FOUR_PLAYERS].concat();
    bytes[18] = 60;
    bytes
}

#[test]
fn old_desks_are_ruled_as_desks_with_four_players() {
    let (mut compared, mut refused) = (0, 0);
    each_call(31, 4000, |table, position, line| {
        let (mut old, mut new) = (table.clone(), table.clone());
        old.position = written(&Position { desk: Desk { players: None, ..position.desk.clone() }, ..position.clone() });
        new.position = with_four_appended(&old.position);
        let (before, answer) = (old.position.clone(), old.play(line));
        assert_eq!(answer, new.play(line));
        assert_eq!(with_four_appended(&old.position), new.position, "{}", hex_digits(&before));
        assert_eq!(old.lent(), new.lent());
        assert_eq!(old.play(b"roster"), new.play(b"roster"));
        compared += 1;
        refused += usize::from(answer.text().is_some_and(|text| text.starts_with("no ")));
    });
    assert!(compared > 3000 && refused > 1000 && compared - refused > 1000, "{compared} {refused}");
}

#[test]
fn only_who_shares_with_whom_counts_and_not_the_numbers() {
    let others = [([0, 1, 2, 3], [2, 3, 1, 0]), ([0, 0, 0, 1], [3, 3, 3, 2]), ([0, 1, 1, 3], [2, 0, 0, 1])];
    each_call(32, 600, |table, position, line| {
        for (one, other) in others {
            let [mut one, mut other] = [one, other].map(|players| {
                let mut table = table.clone();
                table.position = written(&with_players(position.clone(), players));
                table
            });
            assert_eq!(one.play(line), other.play(line));
            let end = one.position.len() - 4;
            assert_eq!(one.position[..end], other.position[..end]);
            assert_eq!(one.lent(), other.lent());
        }
    });
}

#[test]
fn positions_keep_their_length_and_their_players() {
    let mut kept = 0;
    each_call(33, 3000, |table, position, line| {
        let mut after = table.clone();
        after.play(line);
        assert_eq!(after.position.len(), table.position.len());
        assert_eq!(after.position[..20], table.position[..20]);
        assert_eq!(accepted(&after.position).map(|after| after.desk.players), Ok(position.desk.players));
        kept += usize::from(after.position != table.position && position.desk.players.is_some());
    });
    assert!(kept > 500, "{kept}");
}

#[test]
fn neutrals_make_no_difference_to_supply() {
    let mut compared = 0;
    each_call(34, 1500, |_, position, _| {
        let position =
            Position { desk: Desk { players: Some(TWO_PLAYERS), ..position.desk.clone() }, ..position.clone() };
        for nationality in 0..3 {
            let mut alone = position.clone();
            alone.units.retain(|unit| !position.desk.neutral(unit.force(), nationality));
            compared += usize::from(alone.units.len() < position.units.len());
            let supplied = |position: &Position| host::rules::calls::supply::supplied_hexes(position, nationality);
            assert_eq!(supplied(&position), supplied(&alone));
        }
    });
    assert!(compared > 1000, "{compared}");
}

// Wrong referees: each has a case here whose right answer is another.

#[test]
fn a_referee_that_lets_a_neutrals_zone_stop_a_line_is_wrong() {
    // It would say O for unit 1, as for an Enemy.
    let mut position = line_of_supply();
    stand(&mut position, PAL, INFANTRY, 7, 3);
    let roster = |position: &Position| host::record::roster::roster(&written(position));
    assert_eq!(roster(&with_players(position.clone(), TWO_PLAYERS)), ["0 0 S", "1 4 S", "2 7 O"]);
    assert_eq!(roster(&with_players(position, FOUR_PLAYERS)), ["0 0 S", "1 4 O", "2 7 O"]);
}

#[test]
fn a_referee_that_says_8_for_18_is_wrong() {
    let mut position = road();
    stand(&mut position, ESC, INFANTRY, 1, 3);
    assert_eq!(answers(&position, "move 0 1"), both("no 18 1", "no 8 1"));
}

#[test]
fn a_referee_that_lets_force_3_share_is_wrong() {
    for (force, players) in [(0, [0, 1, 2, 0]), (1, [0, 1, 2, 1]), (2, [0, 1, 2, 2])] {
        let mut table = Table::with_all_calls();
        table.position = written(&with_players(Position::plain(3, 1), players));
        assert_eq!(table.play(b"end").text().as_deref(), Some("no 1 0"), "force {force}");
    }
}

#[test]
fn a_referee_that_reads_an_old_desk_with_one_player_is_wrong() {
    // It would answer 18 for 8, 12 for a fight, and accept a move past a zone.
    let mut position = road();
    stand(&mut position, ESC, INFANTRY, 1, 3);
    assert_eq!(answer(&position, "move 0 1"), "no 8 1");
    position.desk.phase = COMBAT;
    assert_eq!(answer(&position, "attack 1 1 0"), "fought 1 1");
    position.desk.phase = LAND_MOVEMENT;
    position.units[1].hex = 3;
    assert_eq!(answer(&position, "move 0 1 2 1"), "no 9 3");
}
