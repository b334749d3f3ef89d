//! Orders for a retreat: vacant routes, series of pushes, part routes, and some that are nearly legal.

use super::lists::{lists_of, order, Lists};
use super::part_routes::{right_part_route, something_sent, wrong_part_route};
use crate::generator::chance::Chance;
use crate::generator::ways::{any_series, beside};
use crate::rules::board::position::*;
use crate::rules::calls::owing::{only_supply_units, owing_group};
use crate::rules::calls::pushes::{Step, Way};
use crate::rules::calls::vacant_routes::legal_routes;
use crate::rules::order::Order;

/// An owing hex and what most often is right for the group there; none if nobody owes.
pub fn plausible_retreat(chance: &mut Chance, position: &Position) -> Option<Order> {
    let (start, way) = any_group(chance, position)?;
    let lists =
        if chance.percent(15) { loose_series(chance, &way, start) } else { right_lists(chance, position, start, &way) };
    Some(order(start, lists))
}

/// A vacant route, else a series of pushes, else a part route.
fn right_lists(chance: &mut Chance, position: &Position, start: usize, way: &Way) -> Lists {
    let group = owing_group(position, start);
    let legal = legal_routes(position, start, &group);
    match any_series(chance, way) {
        Some(_) if only_supply_units(position, &group) => right_part_route(chance, position, start),
        Some(_) if !legal.is_empty() => (legal[chance.below(legal.len())].clone(), Vec::new()),
        Some(series) => lists_of(&series),
        None => right_part_route(chance, position, start),
    }
}

/// An owing hex and an order that goes wrong in one thing; none if nobody owes a step.
pub fn nearly_legal_retreat(chance: &mut Chance, position: &Position) -> Option<Order> {
    let (start, way) = any_group(chance, position).filter(|(_, way)| !way.is_done())?;
    let loose = loose_series(chance, &way, start);
    let lists = match any_series(chance, &way) {
        _ if only_supply_units(position, &owing_group(position, start)) => something_sent(chance, position, start),
        Some(series) if chance.percent(70) => wrong_in_one_thing(chance, position, &series, &loose),
        None if chance.percent(90) => wrong_part_route(chance, position, start),
        _ => loose,
    };
    Some(order(start, lists))
}

/// A group that owes, before its first step.
fn any_group(chance: &mut Chance, position: &Position) -> Option<(usize, Way)> {
    let owing: Vec<u16> = position.units_with_role(OWES).iter().map(|&unit| position.units[unit].hex).collect();
    let start = usize::from(chance.pick_any(&owing)?);
    Some((start, Way::from(position, start, &owing_group(position, start))))
}

/// Steps about as many as are owed, with pushes that mind hardly more than what is adjacent.
fn loose_series(chance: &mut Chance, way: &Way, start: usize) -> Lists {
    let owed = usize::from(way.board().desk.owed_retreat);
    let count = if chance.percent(85) { owed } else { chance.below(4) };
    let distances = way.board().grid().distances(start);
    let mut way = way.clone();
    let mut here = start;
    let mut series = Vec::new();
    for made in 0..count {
        let near = beside(way.board(), here);
        let further: Vec<usize> = near.iter().copied().filter(|&hex| distances[hex] == Some(made + 1)).collect();
        let choices = if further.is_empty() || chance.percent(10) { near } else { further };
        let Some(to) = chance.pick_any(&choices) else { break };
        let step = Step { to, pushes: loose_pushes(chance, way.board(), here, to) };
        way = way.after(&step);
        series.push(step);
        here = to;
    }
    lists_of(&series)
}

/// Where stacks might go, one after the other, up to a vacant hex.
fn loose_pushes(chance: &mut Chance, board: &Position, here: usize, to: usize) -> Vec<usize> {
    let mut chain = vec![here, to];
    while !board.is_vacant(chain[chain.len() - 1]) && chain.len() < 6 {
        let near = beside(board, chain[chain.len() - 1]);
        let unused: Vec<usize> = near.iter().copied().filter(|hex| !chain.contains(hex)).collect();
        let vacant: Vec<usize> = unused.iter().copied().filter(|&hex| board.is_vacant(hex)).collect();
        let choices = match chance.below(10) {
            0 => near,
            1..=4 if !vacant.is_empty() => vacant,
            _ => unused,
        };
        let Some(next) = chance.pick_any(&choices) else { break };
        chain.push(next);
    }
    chain.split_off(2)
}

/// A series changed in one thing.
fn wrong_in_one_thing(chance: &mut Chance, position: &Position, series: &[Step], loose: &Lists) -> Lists {
    let (mut route, mut pushes) = lists_of(series);
    let at = chance.below(pushes.len());
    match chance.below(12) {
        0 | 1 if !pushes.is_empty() => pushes[at] = other_hex(chance, position, pushes[at]),
        2 => {
            pushes.pop();
        }
        3 => pushes.push(other_hex(chance, position, *pushes.last().unwrap_or(&route[0]))),
        4 if !pushes.is_empty() => pushes.insert(at, pushes[at]),
        5 => pushes.extend(pushes.clone()),
        6 => pushes.reverse(),
        7 => pushes.clear(),
        8 => {
            route.pop();
        }
        9 => {
            let place = chance.below(route.len());
            route[place] = other_hex(chance, position, route[place]);
        }
        10 => pushes = loose.1.clone(),
        _ => return another_chain(chance, position, series),
    }
    (route, pushes)
}

/// A hex next to one, or the one itself.
fn other_hex(chance: &mut Chance, position: &Position, hex: usize) -> usize {
    chance.pick_any(&beside(position, hex)).unwrap_or(hex)
}

/// The series with the chain of one step exchanged for one that goes round by two hexes, the first of which comes twice.
fn another_chain(chance: &mut Chance, position: &Position, series: &[Step]) -> Lists {
    let mut series = series.to_vec();
    let at = chance.below(series.len());
    let step = &mut series[at];
    if let Some(&first) = step.pushes.first() {
        let round = other_hex(chance, position, first);
        let again = chance.pick(&[step.to, round, first]);
        step.pushes.splice(0..0, [first, again]);
    }
    lists_of(&series)
}
