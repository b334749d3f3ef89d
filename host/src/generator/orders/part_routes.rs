//! Orders for a group that is to be destroyed: a part route, and what is wrong in one thing.

use super::lists::Lists;
use crate::generator::chance::Chance;
use crate::generator::ways::{any_beside, curls};
use crate::rules::board::position::*;
use crate::rules::calls::owing::owing_group;
use crate::rules::calls::part_routes::{part_routes, runs};

/// One of the part routes.
pub fn right_part_route(chance: &mut Chance, position: &Position, start: usize) -> Lists {
    let routes = part_routes(position, start, &owing_group(position, start));
    (any_of(chance, &routes), Vec::new())
}

/// A part route changed in one thing, or another walk in its place.
pub fn wrong_part_route(chance: &mut Chance, position: &Position, start: usize) -> Lists {
    let (mut route, mut pushes) = right_part_route(chance, position, start);
    let curls = likely_curls(chance, position, start, route.len());
    let end = *route.last().unwrap_or(&start);
    match chance.below(14) {
        0 | 1 if !route.is_empty() => {
            route.pop();
        }
        2 | 3 if !route.is_empty() => route.clear(),
        4..=8 if !curls.is_empty() => route = any_of(chance, &curls),
        9 => pushes = some_pushes(chance, position, end),
        10 | 11 => route.push(any_beside(chance, position, end)),
        _ => route = heedless(chance, position, start),
    }
    (route, pushes)
}

/// Something for supply units, which are to be sent nothing: a run or another walk, or pushes.
pub fn something_sent(chance: &mut Chance, position: &Position, start: usize) -> Lists {
    let mut runs = runs(position, start, &owing_group(position, start));
    runs.retain(|run| !run.is_empty());
    match chance.below(4) {
        0 => (Vec::new(), some_pushes(chance, position, start)),
        1 | 2 if !runs.is_empty() => (any_of(chance, &runs), Vec::new()),
        _ => (heedless(chance, position, start), Vec::new()),
    }
}

/// The walks that curl; most often those alone that are no longer than the longest run, if there are any.
fn likely_curls(chance: &mut Chance, position: &Position, start: usize, longest: usize) -> Vec<Vec<usize>> {
    let curls = curls(position, start);
    let short: Vec<Vec<usize>> = curls.iter().filter(|walk| walk.len() <= longest).cloned().collect();
    if short.is_empty() || chance.percent(25) {
        curls
    } else {
        short
    }
}

/// Up to as many steps as are owed, each further off, whatever side is crossed and whoever stands there.
fn heedless(chance: &mut Chance, position: &Position, start: usize) -> Vec<usize> {
    let distances = position.grid().distances(start);
    let mut walk = Vec::new();
    for steps in 1..=chance.from_to(1, usize::from(position.desk.owed_retreat)) {
        let here = *walk.last().unwrap_or(&start);
        let near = position.grid().neighbours(here).into_iter().flatten();
        let further: Vec<usize> = near.filter(|&hex| distances[hex] == Some(steps)).collect();
        walk.extend(chance.pick_any(&further));
    }
    walk
}

fn some_pushes(chance: &mut Chance, position: &Position, end: usize) -> Vec<usize> {
    let count = chance.pick(&[1, 1, 1, 2, 3, 9]);
    (0..count).map(|_| any_beside(chance, position, end)).collect()
}

fn any_of(chance: &mut Chance, routes: &[Vec<usize>]) -> Vec<usize> {
    routes[chance.below(routes.len())].clone()
}
