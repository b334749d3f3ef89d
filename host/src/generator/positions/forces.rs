//! Players and forces by chance: who shares a player, and who is Enemy or neutral to whom.

use crate::coverage::player_cases::neutral_pairs;
use crate::generator::chance::Chance;
use crate::rules::board::position::*;

/// The players of a desk: none named, four of them, or fewer because two or three of the forces 0 to 2 share one.
pub fn players(chance: &mut Chance) -> Option<[u8; 4]> {
    match chance.weighted(&[20, 12, 68]) {
        0 => None,
        1 => Some(four_players(chance)),
        _ => Some(shared_players(chance)),
    }
}

/// Four players; often each force's number is its own.
fn four_players(chance: &mut Chance) -> [u8; 4] {
    let mut numbers = [0, 1, 2, 3];
    if chance.percent(75) {
        chance.shuffle(&mut numbers);
    }
    numbers
}

/// Two or three of the forces 0 to 2 share a player.
pub fn shared_players(chance: &mut Chance) -> [u8; 4] {
    let [a, b, c, _] = four_players(chance);
    let ways = [[a, a, a, b], [a, a, b, c], [a, b, a, c], [a, b, b, c]];
    ways[chance.weighted(&[34, 22, 22, 22])]
}

/// Two forces neutral to each other, if there are any.
pub fn any_pair(chance: &mut Chance, desk: &Desk) -> Option<(u8, u8)> {
    let (one, other) = chance.pick_any(&neutral_pairs(desk))?;
    Some(if chance.percent(50) { (one, other) } else { (other, one) })
}

/// A force neutral to this one, if there is any.
pub fn neutral_of(chance: &mut Chance, desk: &Desk, force: u8) -> Option<u8> {
    chance.pick_any(&desk.neutrals_of(force))
}

/// An Enemy of a force; there is always one, for force 3 shares no player.
pub fn enemy_of(chance: &mut Chance, desk: &Desk, force: u8) -> u8 {
    let enemies: Vec<u8> = (0..4).filter(|&other| desk.enemy(force, other)).collect();
    chance.pick(&enemies)
}

/// Another force than this one, an Enemy as a rule.
pub fn other_force(chance: &mut Chance, desk: &Desk, force: u8) -> u8 {
    let enemy = enemy_of(chance, desk, force);
    neutral_of(chance, desk, force).filter(|_| chance.percent(12)).unwrap_or(enemy)
}

/// Any force; where players are shared most often one that has neutrals.
pub fn any_force(chance: &mut Chance, desk: &Desk) -> u8 {
    let any = chance.byte(0, 3);
    any_pair(chance, desk).filter(|_| chance.percent(75)).map_or(any, |(one, _)| one)
}
