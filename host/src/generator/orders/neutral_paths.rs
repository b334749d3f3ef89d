//! Paths into neutrals.

use crate::generator::chance::Chance;
use crate::rules::board::position::*;
use crate::rules::board::zones::enemy_zones;
use crate::rules::calls::movement::is_way;

/// A road to a neutral, and now and then a step on; none where no neutral can be reached.
pub fn road_to_a_neutral(chance: &mut Chance, position: &Position, mover: &Unit) -> Option<Vec<u16>> {
    let roads = roads_to_neutrals(chance, position, mover);
    let road = roads.get(chance.below(roads.len()))?;
    let here = *road.last().unwrap_or(&usize::from(mover.hex));
    let into = neutral_beside(chance, position, here, mover.force());
    Some(road.iter().map(|&hex| hex as u16).chain(into).take(30).collect())
}

/// Roads to hexes beside a neutral, each the shortest that keeps out of zones, after a few steps by chance.
fn roads_to_neutrals(chance: &mut Chance, position: &Position, mover: &Unit) -> Vec<Vec<usize>> {
    let zones = enemy_zones(position, mover.force());
    let taken = |hex: usize| position.enemy_on(hex, mover.force()) || position.neutral_on(hex, mover.force());
    let ways = |hex: usize| {
        let near = position.grid().neighbours(hex).into_iter().flatten();
        near.filter(|&next| is_way(position, hex, next) && !zones[next] && !taken(next)).collect::<Vec<usize>>()
    };
    let mut here = usize::from(mover.hex);
    let mut first = Vec::new();
    for _ in 0..chance.below(4) {
        let Some(next) = chance.pick_any(&ways(here)) else { break };
        first.push(next);
        here = next;
    }
    let mut reached = vec![here];
    let mut roads = vec![first];
    let mut at = 0;
    while at < reached.len() {
        for next in ways(reached[at]) {
            if !reached.contains(&next) {
                reached.push(next);
                roads.push([roads[at].as_slice(), &[next]].concat());
            }
        }
        at += 1;
    }
    let beside = |hex: usize| position.grid().neighbours(hex).into_iter().flatten();
    let is_beside = |hex: usize| beside(hex).any(|near| position.neutral_on(near, mover.force()));
    reached.into_iter().zip(roads).filter(|(hex, _)| is_beside(*hex)).map(|(_, road)| road).collect()
}

/// A step into a neutral beside the hex, if there is one, and now and then a step on, into an Enemy if one is there. A
/// few times the neutral is anywhere.
pub fn neutral_beside(chance: &mut Chance, position: &Position, here: usize, force: u8) -> Vec<u16> {
    let near = |hex: usize| position.grid().neighbours(hex).into_iter().flatten().collect::<Vec<usize>>();
    let hexes = if chance.percent(8) { (0..position.map.hexes.len()).collect() } else { near(here) };
    let neutrals: Vec<usize> = hexes.into_iter().filter(|&hex| position.neutral_on(hex, force)).collect();
    let Some(neutral) = chance.pick_any(&neutrals) else { return Vec::new() };
    let enemies: Vec<usize> = near(neutral).into_iter().filter(|&hex| position.enemy_on(hex, force)).collect();
    let beyond = chance.pick_any(&enemies).or(chance.pick_any(&near(neutral))).filter(|_| chance.percent(40));
    [neutral].into_iter().chain(beyond).map(|hex| hex as u16).collect()
}
