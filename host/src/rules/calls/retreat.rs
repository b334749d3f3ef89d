//! The retreat call: the owing units of one hex go together.

use super::checks;
use super::owing::{only_supply_units, owing_group};
use super::part_routes::part_routes;
use super::pushes::Way;
use super::stages;
use super::vacant_routes::legal_routes;
use crate::rules::board::position::*;
use crate::rules::board::unit_type::SUPPLY_UNIT;
use crate::rules::refusal::*;

/// What an accepted retreat answers.
#[derive(Clone, Copy, Debug, PartialEq, Eq)]
pub enum Retreated {
    To(usize),
    Destroyed,
}

/// Rule on a retreat from a hex by a route of 0 to 3 hexes with 0 to 9 pushes.
pub fn retreat(position: &mut Position, hex: u16, route: &[u16], pushes: &[u16]) -> Result<Retreated, Refusal> {
    checks::length(route.len(), 0, 3)?;
    checks::length(pushes.len(), 0, 9)?;
    let start = checks::hex(position, hex, 0)?;
    let both = checks::hexes(position, &[route, pushes].concat())?;
    let (route, pushes) = both.split_at(route.len());
    checks::stage(position, RETREATS)?;
    let group = owing_group(position, start);
    require(!group.is_empty(), NOT_THE_UNIT, 0)?;
    let answer = go(position, start, &group, route, pushes)?;
    stages::follow_on(position);
    Ok(answer)
}

/// The group retreats by a vacant route, else by pushes, or goes its part route and is destroyed.
fn go(
    position: &mut Position,
    start: usize,
    group: &[usize],
    route: &[usize],
    pushes: &[usize],
) -> Result<Retreated, Refusal> {
    if is_doomed(position, start, group) {
        require(pushes.is_empty() && names_one(route, &part_routes(position, start, group)), ROUTE_NOT_LEGAL, 0)?;
        destroy_group(position, start, group, route);
        return Ok(Retreated::Destroyed);
    }
    let legal = legal_routes(position, start, group);
    if legal.is_empty() {
        let way = Way::from(position, start, group);
        let steps = way.named(route, pushes).ok_or(Refusal { number: PUSHES_NOT_LEGAL, place: 0 })?;
        *position = way.carried_out(&steps);
    } else {
        require(pushes.is_empty() && names_one(route, &legal), ROUTE_NOT_LEGAL, 0)?;
    }
    Ok(Retreated::To(lead_away(position, start, group, route)))
}

/// Is the group to be destroyed? Only supply units owe, or neither a vacant route nor a series of pushes exists.
pub fn is_doomed(position: &Position, start: usize, group: &[usize]) -> bool {
    only_supply_units(position, group)
        || legal_routes(position, start, group).is_empty() && !Way::from(position, start, group).some_series()
}

fn names_one(route: &[usize], routes: &[Vec<usize>]) -> bool {
    routes.iter().any(|one| one == route)
}

/// The whole group is destroyed; start and part route are written.
fn destroy_group(position: &mut Position, start: usize, group: &[usize], part_route: &[usize]) {
    for &unit in group {
        stages::destroy(&mut position.units[unit]);
    }
    write_from(&mut position.desk, start, part_route);
}

/// The group goes to the route's end, its supply units are destroyed; start and route are written.
fn lead_away(position: &mut Position, start: usize, group: &[usize], route: &[usize]) -> usize {
    let end = route[route.len() - 1];
    for &number in group {
        let unit = &mut position.units[number];
        if unit.kind == SUPPLY_UNIT {
            stages::destroy(unit);
        } else {
            unit.hex = end as u16;
            unit.role = 0;
        }
    }
    write_from(&mut position.desk, start, route);
    end
}

/// Write start and route behind the filled routes.
fn write_from(desk: &mut Desk, start: usize, route: &[usize]) {
    let hexes: Vec<u16> = [&[start], route].concat().into_iter().map(|hex| hex as u16).collect();
    stages::write_route(desk, &hexes);
}
