//! The positions of the stored runs, made from their parts: the rosters and the sample games.

use crate::record::line::hex_digits;
use crate::rules::board::contents::written;
use crate::rules::board::position::*;
use crate::rules::board::unit_type::{ARMOUR, INFANTRY, MECHANISED, MILITIA, SPECIAL_INFANTRY, SUPPLY_UNIT};

const ESC: u8 = 1;
const PAL: u8 = 2;
const US: u8 = 3;
const CANADA: u8 = 4;

const IN_US: u8 = 1;
const IN_CANADA: u8 = 2;

/// Terrains of the first game besides the plain one.
const HILLS: u8 = 1;
const MOUNTAINS: u8 = 2;

/// Document 01's: "Map 3 x 1, plain, terrain cost 1; hex 0 US supply; US infantry 0 on 2, E.S.C. infantry 1 on 1".
pub fn roster() -> Position {
    let mut position = Position::plain(3, 1);
    position.chart.river = Effect { cost: 1, multiple: 2 };
    position.chart.major_river = Effect { cost: 2, multiple: 3 };
    position.results = vec![Column { a: 1, d: 1, codes: [1, 2, 3, 4, 7, 9] }];
    position.map.hexes[0].flags = SUPPLY;
    position.map.hexes[0].country = IN_US;
    position.units = vec![Unit::new(US, INFANTRY, 2, 5, 6), Unit::new(ESC, INFANTRY, 1, 4, 6)];
    position.desk.last_turn = 60;
    position
}

/// "With unit 1 destroyed".
fn roster_less() -> Position {
    let mut position = roster();
    position.units[1].hex = NONE;
    position
}

/// A strength above 60.
fn roster_broken() -> Position {
    let mut position = roster();
    position.units[0].strength = 61;
    position
}

/// A map of 8 x 5: sea in the west and a coast beside it, hills, mountains, a lake, a river, cliffs.
fn land() -> Position {
    let mut position = Position::plain(8, 5);
    for (number, hex) in position.map.hexes.iter_mut().enumerate() {
        match number % 8 {
            0 => hex.surface = ALL_SEA,
            1 => hex.surface = COASTAL,
            _ => hex.country = IN_US,
        }
    }
    let hexes = &mut position.map.hexes;
    hexes[2].terrain = HILLS;
    hexes[10].terrain = HILLS;
    hexes[37].terrain = MOUNTAINS;
    hexes[38].surface = LAKE;
    hexes[17].flags = PORT;
    hexes[33].flags = URBAN;
    [7, 15, 31].into_iter().for_each(|hex: usize| hexes[hex].flags = SUPPLY);
    hexes[7].country = IN_CANADA;
    hexes[1].sides = side(BLOCKED, NORTH_EAST);
    hexes[19].sides = side(RIVER, SOUTH_EAST);
    hexes[27].sides = side(RIVER, NORTH_EAST);
    position
}

const NORTH_EAST: u8 = 1;
const SOUTH_EAST: u8 = 2;

/// A side as it is stored with its hex.
fn side(number: u8, direction: u8) -> u8 {
    number << (2 * direction)
}

/// The position of `examples/game.record`, where all units are supplied.
pub fn first_game() -> Position {
    let mut position = land();
    position.chart.terrains[usize::from(HILLS)] = Effect { cost: 3, multiple: 2 };
    position.chart.terrains[usize::from(MOUNTAINS)].cost = 0;
    position.chart.river = Effect { cost: 1, multiple: 2 };
    position.chart.major_river = Effect { cost: 3, multiple: 3 };
    position.results = vec![
        Column { a: 1, d: 2, codes: [1, 4, 4, 5, 10, 7] },
        Column { a: 1, d: 1, codes: [2, 1, 9, 4, 5, 7] },
        Column { a: 2, d: 1, codes: [8, 2, 1, 9, 4, 10] },
        Column { a: 3, d: 1, codes: [8, 8, 2, 2, 9, 4] },
    ];
    position.units = vec![
        Unit::new(ESC, ARMOUR, 17, 8, 10),
        Unit::new(ESC, MECHANISED, 17, 6, 8),
        Unit::new(ESC, INFANTRY, 17, 2, 6),
        Unit::new(ESC, INFANTRY, 25, 5, 6),
        Unit::new(ESC, SUPPLY_UNIT, 25, 1, 0),
        Unit::new(ESC, INFANTRY, 9, 4, 6),
        Unit::new(PAL, SPECIAL_INFANTRY, 33, 3, 4),
        Unit::new(PAL, INFANTRY, 33, 4, 6),
        Unit::new(US, INFANTRY, 20, 5, 6),
        Unit::new(US, MILITIA, 28, 3, 4),
        Unit::new(US, ARMOUR, 31, 6, 10),
        Unit::new(US, MILITIA, 4, 2, 4),
        Unit::new(CANADA, INFANTRY, 7, 4, 6),
        Unit::new(CANADA, MILITIA, 4, 2, 4),
    ];
    position.units.iter_mut().for_each(|unit| unit.marks |= SUPPLIED);
    position.desk = Desk { last_turn: 1, force: ESC, ..Desk::plain() };
    position
}

/// The same with the players of the four forces.
fn played_by(players: [u8; 4]) -> Position {
    let mut position = first_game();
    position.desk.players = Some(players);
    position
}

/// A record with these positions in its lines `position`, in their order.
fn with_positions(record: &str, positions: &[Position]) -> String {
    let mut positions = positions.iter();
    let anew = |line: &str| match line.starts_with("position ") {
        true => format!("position {}\n", hex_digits(&written(positions.next().expect("a position for each line")))),
        false => format!("{line}\n"),
    };
    record.lines().map(anew).collect()
}

/// The stored files that hold positions, each with its path in the project and what it holds. `read` gives what a record
/// holds now: its other lines stay.
pub fn stored(read: impl Fn(&str) -> String) -> Vec<(&'static str, Vec<u8>)> {
    let game = with_positions(&read("examples/game.record"), &[first_game()]);
    let two = [played_by([0, 0, 0, 1]), played_by([0; 4]), first_game()];
    let two = with_positions(&read("examples/two_players.record"), &two);
    vec![
        ("crates/roster/stdin", written(&roster())),
        ("crates/roster_less/stdin", written(&roster_less())),
        ("crates/roster_broken/stdin", written(&roster_broken())),
        ("crates/first_game/stdin", (game.clone() + &two).into_bytes()),
        ("examples/game.record", game.into_bytes()),
        ("examples/two_players.record", two.into_bytes()),
    ]
}
