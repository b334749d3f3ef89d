//! Hand-made crowds: a group that owes, and friends in its road.

use super::*;

/// A row of hexes. E.S.C. infantry 0 on hex 0 owes n steps; friends 1, 2 .. stand on these hexes.
pub fn row(width: u8, n: u8, friends: &[u16]) -> Position {
    crowd(combat(width, 1, US), 0, n, friends)
}

/// Hexes of a 5 x 5 map, the sea around them. E.S.C. infantry 0 on hex 12 owes n steps; friends 1, 2 .. stand on these
/// hexes. Hex 12 has 7, 8, 13, 17, 11, 6 beside it; 7 has 2, 3, 8, 12, 6, 1; 8 has 3, 9, 14, 13, 12, 7.
pub fn land(n: u8, hexes: &[usize], friends: &[u16]) -> Position {
    let mut position = combat(5, 5, US);
    for hex in (0..25).filter(|hex| *hex != 12 && !hexes.contains(hex)) {
        position.map.hexes[hex].surface = ALL_SEA;
    }
    crowd(position, 12, n, friends)
}

fn crowd(mut position: Position, start: u16, n: u8, friends: &[u16]) -> Position {
    position.desk.stage = RETREATS;
    position.desk.owed_retreat = n;
    stand(&mut position, ESC, INFANTRY, start, 3);
    give_role(&mut position, 0, OWES);
    for &hex in friends {
        stand(&mut position, ESC, INFANTRY, hex, 1);
    }
    position
}

/// A unit more that owes.
pub fn stand_owing(position: &mut Position, nationality: u8, kind: u8, hex: u16) -> usize {
    let unit = stand(position, nationality, kind, hex, 1);
    give_role(position, unit, OWES);
    unit
}

/// The answer, and where all units stand then.
pub fn ends(position: &Position, line: &str) -> (String, Vec<u16>) {
    let (answer, after) = rule(position, line);
    (answer, after.units.iter().map(|unit| unit.hex).collect())
}

/// The answer where the units end on these hexes.
pub fn told(answer: &str, hexes: &[u16]) -> (String, Vec<u16>) {
    (answer.to_string(), hexes.to_vec())
}

/// Nothing serves the group of unit 0: the order is 14; by the part route it is destroyed, and nobody else goes anywhere.
pub fn dooms(position: &Position, order: &str, part_route: &str) {
    assert_eq!(answer(position, order), "no 14 0", "{order}");
    let mut hexes: Vec<u16> = position.units.iter().map(|unit| unit.hex).collect();
    hexes[0] = NONE;
    assert_eq!(ends(position, part_route), told("destroyed", &hexes), "{part_route}");
}
