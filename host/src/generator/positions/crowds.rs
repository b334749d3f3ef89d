//! Crowded roads: a group owes among its own force, so that pushes decide.

use super::forces::{any_force, other_force};
use super::ground::{close, lane_hexes, open, set_side};
use super::groups::{group, others_that_owe};
use super::neutrals::add_neutrals;
use super::scene::retreat_scene;
use super::staged::give_role;
use super::units::{add, stack};
use crate::generator::chance::Chance;
use crate::generator::ways::{any_series, beside};
use crate::rules::board::position::*;
use crate::rules::board::unit_type::INFANTRY;
use crate::rules::calls::owing::owing_group;
use crate::rules::calls::pushes::{Step, Way};
use crate::rules::calls::vacant_routes::legal_routes;

/// What a crowded road is to offer.
#[derive(Clone, Copy, PartialEq, Eq)]
enum Wanted {
    /// Only pushes serve, by a chain of so many at the longest.
    Chain(usize),
    /// Only pushes serve, and a later chain goes into the hex where the group stood.
    Back,
    /// Only pushes serve, and a later chain pushes those who stayed behind.
    Behind,
    /// Only pushes serve, and where a pushed stack goes decides whether the group gets through.
    Choice,
    /// Only pushes serve, and a stack pushes on though a vacant hex in an Enemy zone lies beside it.
    Zone,
    /// Neither a vacant route nor pushes serve.
    Trapped,
    /// The same, and a chain of four stacks would serve.
    TrappedByAFourth,
    /// The same, and without supply units some pushes would serve.
    TrappedBySupplyUnits,
    Anything,
}

/// A position in which a group owes in a crowded road; most often only pushes serve it.
pub fn crowded_road(chance: &mut Chance) -> Position {
    const KINDS: [Wanted; 11] = [
        Wanted::Chain(1),
        Wanted::Chain(2),
        Wanted::Chain(3),
        Wanted::Back,
        Wanted::Behind,
        Wanted::Choice,
        Wanted::Zone,
        Wanted::Trapped,
        Wanted::TrappedByAFourth,
        Wanted::TrappedBySupplyUnits,
        Wanted::Anything,
    ];
    let wanted = KINDS[chance.weighted(&[15, 20, 22, 10, 10, 10, 10, 5, 20, 6, 10])];
    let owed = match wanted {
        Wanted::Behind | Wanted::Choice => chance.pick(&[2, 2, 2, 3]),
        Wanted::Back => chance.byte(2, 3),
        _ => chance.byte(1, 3),
    };
    let mut found = attempt(chance, owed, wanted);
    for _ in 0..150 {
        if suits(chance, &found.0, found.1, wanted) {
            break;
        }
        found = attempt(chance, owed, wanted);
    }
    found.0
}

fn suits(chance: &mut Chance, position: &Position, start: usize, wanted: Wanted) -> bool {
    let group = owing_group(position, start);
    let vacant = !legal_routes(position, start, &group).is_empty();
    if wanted == Wanted::Anything || vacant {
        return wanted == Wanted::Anything;
    }
    let way = Way::from(position, start, &group);
    let Some(series) = any_series(chance, &way) else {
        return match wanted {
            Wanted::Trapped => true,
            Wanted::TrappedByAFourth => way.with_chains_of(4).some_series(),
            Wanted::TrappedBySupplyUnits => supply_units_bar(position, start),
            _ => false,
        };
    };
    let through = |from: usize| series.iter().any(|step| step.pushes.iter().rev().skip(from).any(|&hex| hex == start));
    match wanted {
        Wanted::Chain(longest) => {
            series.iter().all(|step| step.pushes.len() <= longest)
                && series.iter().any(|step| step.pushes.len() == longest)
        }
        Wanted::Back => through(0),
        Wanted::Behind => through(1),
        Wanted::Choice => choice_decides(&way),
        Wanted::Zone => zone_decides(way, &series),
        _ => false,
    }
}

/// Would the group get through if all others of its force were infantry?
fn supply_units_bar(position: &Position, start: usize) -> bool {
    let group = owing_group(position, start);
    let force = position.units[group[0]].force();
    let mut other = position.clone();
    for unit in other.units.iter_mut().filter(|unit| unit.force() == force && unit.role != OWES) {
        unit.kind = INFANTRY;
    }
    Way::from(&other, start, &group).some_series()
}

/// Are there two chains for the same first step of which only one lets the group through?
fn choice_decides(way: &Way) -> bool {
    let steps: Vec<(usize, bool)> = way.steps().iter().map(|step| (step.to, way.after(step).some_series())).collect();
    steps.iter().any(|(to, serves)| steps.contains(&(*to, !serves)))
}

/// Does a stack of the series push on though a vacant hex lies beside it?
fn zone_decides(mut way: Way, series: &[Step]) -> bool {
    for step in series {
        let chain = [&[step.to], step.pushes.as_slice()].concat();
        let vacant_beside = |hex: &usize| beside(way.board(), *hex).iter().any(|&near| way.board().is_vacant(near));
        if chain[..chain.len().saturating_sub(2)].iter().any(vacant_beside) {
            return true;
        }
        way = way.after(step);
    }
    false
}

/// A position and the hex where the group owes.
fn attempt(chance: &mut Chance, owed: u8, wanted: Wanted) -> (Position, usize) {
    let mut position = retreat_scene(chance, (3, 10), owed);
    let (force, start) = (any_force(chance, &position.desk), chance.below(position.map.hexes.len()));
    open(chance, &mut position, start);
    let weights = if wanted == Wanted::Behind { [1, 2, 6, 1] } else { [3, 2, 1, 3] };
    let held = match chance.weighted(&weights) {
        0 => lane(chance, &mut position, start),
        1 => island(chance, &mut position, start),
        2 => ring(chance, &mut position, start),
        _ => throng(chance, &mut position, start),
    };
    let supply_units = if wanted == Wanted::TrappedBySupplyUnits { 25 } else { 4 };
    for hex in held {
        stack(chance, &mut position, hex, force, supply_units);
    }
    let all_owe = wanted != Wanted::Behind && chance.percent(55);
    group(chance, &mut position, force, start, all_owe);
    enemies(chance, &mut position, force, start);
    if chance.percent(75) {
        add_neutrals(chance, &mut position);
    }
    others_that_owe(chance, &mut position, force, start);
    (position, start)
}

/// Close most of the map but for these hexes, which are opened.
fn leave_open(chance: &mut Chance, position: &mut Position, hexes: &[usize], closed: usize) {
    for hex in 0..position.map.hexes.len() {
        if hexes.contains(&hex) {
            open(chance, position, hex);
        } else if chance.percent(closed) {
            close(chance, position, hex);
        }
    }
}

/// A lane leads away from the group, own stacks one behind the other in it. The hexes to be held are answered.
fn lane(chance: &mut Chance, position: &mut Position, start: usize) -> Vec<usize> {
    let length = chance.from_to(3, 9);
    let lane = lane_hexes(chance, position, start, length);
    let closed = chance.pick(&[60, 80, 90, 100]);
    leave_open(chance, position, &lane, closed);
    for pair in lane.windows(2) {
        if let Some(direction) = position.grid().direction_to(pair[0], pair[1]) {
            set_side(position, pair[0], direction, chance.pick(&[PLAIN, PLAIN, PLAIN, RIVER, MAJOR_RIVER]));
        }
    }
    let (count, gap) = (chance.from_to(1, 5), chance.below(8));
    let in_lane = lane[1..].iter().take(count).enumerate().filter(|(place, _)| *place != gap);
    let mut held: Vec<usize> = in_lane.map(|(_, &hex)| hex).collect();
    let beside = chance.pick(&[0, 20, 50]);
    held.extend((0..position.map.hexes.len()).filter(|hex| !lane.contains(hex) && chance.percent(beside)));
    held
}

/// A few hexes around the group and nothing else, one or two of them vacant. The others are answered.
fn island(chance: &mut Chance, position: &mut Position, start: usize) -> Vec<usize> {
    let size = chance.from_to(3, 8);
    let mut island = vec![start];
    for _ in 0..4 * size {
        let near = position.grid().neighbours(chance.pick(&island));
        let next = chance.pick(&near).filter(|hex| island.len() < size && !island.contains(hex));
        island.extend(next);
    }
    leave_open(chance, position, &island, 100);
    island.retain(|&hex| hex != start);
    chance.shuffle(&mut island);
    island.truncate(island.len().saturating_sub(chance.from_to(1, 2)));
    island
}

/// Two hexes beside the group and one behind both, so that a chain can run round into the hex where the group stood;
/// a third beside it for those who stay behind. The hexes to be held are answered.
fn ring(chance: &mut Chance, position: &mut Position, start: usize) -> Vec<usize> {
    let near = position.grid().neighbours(start);
    let (at, turn) = (chance.below(6), chance.pick(&[1, 5]));
    let around = |places: usize| near[(at + places * turn) % 6];
    let (Some(first), Some(second)) = (around(0), around(1)) else { return island(chance, position, start) };
    let behind: Vec<usize> = (0..position.map.hexes.len())
        .filter(|&hex| hex != start && position.joined(first, hex) && position.joined(hex, second))
        .collect();
    let pocket = around(chance.from_to(3, 5)).filter(|_| chance.percent(75));
    let hexes: Vec<usize> = [start, first, second].into_iter().chain(behind.clone()).chain(pocket).collect();
    let closed = chance.pick(&[90, 100]);
    leave_open(chance, position, &hexes, closed);
    let mut held = [vec![second], behind].concat();
    held.extend(Some(first).filter(|_| chance.percent(20)));
    held
}

/// Own stacks nearly everywhere, most of all around the group. The hexes to be held are answered.
fn throng(chance: &mut Chance, position: &mut Position, start: usize) -> Vec<usize> {
    let distances = position.grid().distances(start);
    let (near, far) = (chance.pick(&[70, 90, 100]), chance.pick(&[45, 60, 75, 90]));
    let often = |hex: usize| if distances[hex] <= Some(1) { near } else { far };
    (0..position.map.hexes.len()).filter(|&hex| hex != start && chance.percent(often(hex))).collect()
}

/// Some Enemies, about half of them beside the group; some may advance. Now and then they are neutral to it.
fn enemies(chance: &mut Chance, position: &mut Position, force: u8, start: usize) {
    let enemy = other_force(chance, &position.desk, force);
    let hexes: Vec<usize> = (0..position.map.hexes.len()).collect();
    let near: Vec<usize> = position.grid().neighbours(start).into_iter().flatten().collect();
    for _ in 0..chance.pick(&[0, 1, 1, 2, 3]) {
        let choices = if chance.percent(50) && !near.is_empty() { &near } else { &hexes };
        let hex = chance.pick(choices);
        let supply_unit = chance.percent(15);
        let added = add(chance, position, hex, enemy, supply_unit);
        if let Some(unit) = added.filter(|_| chance.percent(60)) {
            give_role(position, unit, MAY_ADVANCE);
        }
    }
}
