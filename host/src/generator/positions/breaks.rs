//! Positions broken in one fact: for each line of acceptance a way to break it.

use super::forces::neutral_of;
use super::staged::write_routes;
use super::units::unit_of;
use crate::generator::chance::Chance;
use crate::rules::board::contents::written;
use crate::rules::board::position::*;
use crate::rules::board::unit_type::{always_tried, MILITIA, SPECIAL_INFANTRY, SUPPLY_UNIT};

/// Break a position in place; none where this position does not offer the fact.
type Break = fn(&mut Chance, &mut Position) -> Option<()>;
/// Break the bytes of a position in place.
type ByteBreak = fn(&mut Chance, &mut Vec<u8>);

/// The ways to break lengths and offsets, by the names of the lines.
const BYTE_BREAKS: [(&str, ByteBreak); 8] = [
    ("contents: five entries of offset and length", |c, b| b.truncate(c.below(20))),
    ("contents: bodies in order without gap", |c, b| shift_a_body(c, b)),
    ("contents: no tail, nothing missing", lengthen_or_shorten),
    ("chart: 36 bytes", |c, b| resize_body(c, b, 0)),
    ("results: length by the column count", |c, b| resize_body(c, b, 1)),
    ("map: length by width and height", |c, b| resize_body(c, b, 2)),
    ("units: length by the count", |c, b| resize_body(c, b, 3)),
    ("desk: 56 or 60 bytes", wrong_desk),
];

/// The ways to break the numbers, by the names of the lines.
#[rustfmt::skip]
const BREAKS: [(&str, Break); 61] = [
    ("chart: terrain cost 0..9", |c, p| set(&mut p.chart.terrains[c.below(16)].cost, above(c, 9))),
    ("chart: terrain multiple 1..4", |c, p| set(&mut p.chart.terrains[c.below(16)].multiple, outside(c, 4))),
    ("chart: side cost 0..9", |c, p| set(&mut side_effect(c, p).cost, above(c, 9))),
    ("chart: side multiple 1..4", |c, p| set(&mut side_effect(c, p).multiple, outside(c, 4))),
    ("results: column count 1..12", wrong_column_count),
    ("results: a 1..20", wrong_a),
    ("results: d 1..20", wrong_d),
    ("results: a:d strictly rising", odds_that_do_not_rise),
    ("results: codes 1..10", wrong_code),
    ("map: width 1..64", wrong_width),
    ("map: height 1..64", wrong_height),
    ("map: terrain 0..15", |c, p| set(&mut any_hex(c, p).terrain, above(c, 15))),
    ("map: surface 0..3", |c, p| set(&mut any_hex(c, p).surface, above(c, 3))),
    ("map: flags port, urban, supply", |c, p| set(&mut any_hex(c, p).flags, above(c, 7))),
    ("map: country 0..2", |c, p| set(&mut any_hex(c, p).country, above(c, 2))),
    ("map: three sides, other bits 0", |c, p| add_bit(&mut any_hex(c, p).sides, c.byte(6, 7))),
    ("map: off-map sides 0", off_map_side),
    ("units: count 0..400", too_many_units),
    ("units: nationality 0..4", |c, p| set(&mut any_unit(c, p)?.nationality, above(c, 4))),
    ("units: type 0..5", |c, p| set(&mut any_unit(c, p)?.kind, above(c, 5))),
    ("units: hex on the map or 65535", unit_off_the_map),
    ("units: strength 1..60", |c, p| set(&mut any_unit(c, p)?.strength, outside(c, 60))),
    ("units: allowance 0..30", |c, p| set(&mut any_unit(c, p)?.allowance, above(c, 30))),
    ("units: marks tried, supplied, moved, fought", |c, p| add_bit(&mut any_unit(c, p)?.marks, c.byte(4, 7))),
    ("units: role 0..2", |c, p| set(&mut any_unit(c, p)?.role, above(c, 2))),
    ("types: militia in force 3 only", |c, p| set(&mut unit_where(c, p, |u| u.kind < 3 && u.nationality < 3)?.kind, MILITIA)),
    ("types: special infantry P.A.L. only", special_infantry_elsewhere),
    ("types: supply unit nationality 0..2", supply_unit_of_force_3),
    ("types: supply unit allowance 0", |c, p| set(&mut unit_where(c, p, |u| u.kind == SUPPLY_UNIT)?.allowance, c.byte_at_limits(1, 30))),
    ("types: 4 and 5 always tried", |c, p| clear_tried(unit_where(c, p, |u| u.role == 0 && always_tried(u.kind))?)),
    ("mapped units: surface 0 or 1", |c, p| set(&mut hex_under_unit(c, p)?.surface, c.byte(2, 3))),
    ("mapped units: unprohibited terrain", prohibit_under_unit),
    ("mapped units: at most three in a hex", fourth_in_a_hex),
    ("mapped units: one force in a hex", second_force_in_a_hex),
    ("destroyed units: role 0", role_in_the_box),
    ("destroyed units: no mark but tried", |c, p| add_bit(&mut unit_where(c, p, |u| !u.on_map())?.marks, c.byte(1, 3))),
    ("desk: turn 1..60", |c, p| set(&mut p.desk.turn, outside(c, 60))),
    ("desk: last turn 1..60", |c, p| set(&mut p.desk.last_turn, outside(c, 60))),
    ("desk: last turn not below turn", last_turn_below),
    ("desk: force 0..3", |c, p| set(&mut p.desk.force, above(c, 3))),
    ("desk: phase 0..2", |c, p| set(&mut p.desk.phase, above(c, 2))),
    ("desk: stage 0..3", |c, p| set(&mut p.desk.stage, above(c, 3))),
    ("desk: players 0..3", player_above_3),
    ("desk: force 3 shares no player", force_3_shares),
    ("stages: 1 to 3 only in phase 1", |c, p| in_stages(p, &[1, 2, 3]).and(set(&mut p.desk.phase, c.pick(&[0, 2])))),
    ("roles: units with a role are tried", |c, p| clear_tried(unit_where(c, p, |u| u.role > 0 && !always_tried(u.kind))?)),
    ("roles: role 1 of one force", |c, p| in_stages(p, &[1, 2]).and_then(|_| role_in_other_force(c, p, OWES))),
    ("roles: role 2 of one force", |c, p| role_in_other_force(c, p, MAY_ADVANCE)),
    ("roles: not the same force", both_roles_in_one_force),
    ("stages: n 1..3 in stage 1, else 0", wrong_owed_retreat),
    ("stages: need 1..1080 in stage 2, else 0", wrong_need),
    ("stage 0: no roles", role_in_quiet),
    ("stage 0: no routes", |c, p| in_stages(p, &[0]).and_then(|_| routes_so_many(c, p, 1))),
    ("stage 1: some role 1", |_, p| in_stages(p, &[1]).and_then(|_| take_role(p, OWES))),
    ("stage 1: k plus filled routes at most 6", one_route_too_many),
    ("stage 2: 1 to 18 of role 1, no role 2", wrong_roles_for_losses),
    ("stage 3: some role 2, no role 1", wrong_roles_for_advances),
    ("routes: filled routes come first", empty_route_between),
    ("routes: each fills from its front", empty_place_in_route),
    ("routes: hexes of surface 0 or 1, unprohibited", route_off_land),
    ("routes: each next to the last over an unblocked side", route_apart),
];

/// The lines about the desk's length and its players, and those that neutrals break as Enemies do.
pub const PLAYER_LINES: [&str; 7] = [
    "contents: no tail, nothing missing",
    "desk: 56 or 60 bytes",
    "desk: players 0..3",
    "desk: force 3 shares no player",
    "mapped units: one force in a hex",
    "roles: role 1 of one force",
    "roles: role 2 of one force",
];

pub fn break_names() -> Vec<&'static str> {
    BYTE_BREAKS.iter().map(|(name, _)| *name).chain(BREAKS.iter().map(|(name, _)| *name)).collect()
}

/// The bytes of a position broken in the line of this number; none where it offers no way.
pub fn broken_bytes(chance: &mut Chance, position: &Position, line: usize) -> Option<Vec<u8>> {
    if line < BYTE_BREAKS.len() {
        let mut bytes = written(position);
        BYTE_BREAKS[line].1(chance, &mut bytes);
        return Some(bytes);
    }
    let mut position = position.clone();
    BREAKS[line - BYTE_BREAKS.len()].1(chance, &mut position)?;
    Some(written(&position))
}

/// One byte of a position changed to something else, most often near its end or its beginning.
pub fn changed_byte(chance: &mut Chance, mut bytes: Vec<u8>) -> Vec<u8> {
    let length = bytes.len();
    let desk = usize::from(number(&bytes, 16));
    let at = match chance.below(7) {
        0 => chance.below(20),
        1 => chance.below(length),
        2 => desk + chance.below(8),
        3 => desk + 8 + chance.below(48),
        4 => length - chance.from_to(1, 4),
        _ => desk - 1 - chance.below((length - 104).min(160)),
    };
    let change = match chance.below(3) {
        0 => 1 << chance.below(8),
        1 => bytes[at] ^ bytes[at].wrapping_add(1),
        _ => chance.byte(1, 255),
    };
    bytes[at] ^= change;
    bytes
}

fn set<T>(place: &mut T, value: T) -> Option<()> {
    *place = value;
    Some(())
}

fn add_bit(place: &mut u8, bit: u8) -> Option<()> {
    *place |= 1 << bit;
    Some(())
}

/// One above a limit, or far above.
fn above(chance: &mut Chance, limit: u8) -> u8 {
    match chance.below(8) {
        0 => 255,
        1 => chance.byte(limit + 1, 255),
        _ => limit + 1,
    }
}

/// 0 or above the limit, for numbers from 1.
fn outside(chance: &mut Chance, limit: u8) -> u8 {
    if chance.percent(40) {
        0
    } else {
        above(chance, limit)
    }
}

fn side_effect<'a>(chance: &mut Chance, position: &'a mut Position) -> &'a mut Effect {
    if chance.percent(50) {
        &mut position.chart.river
    } else {
        &mut position.chart.major_river
    }
}

fn any_hex<'a>(chance: &mut Chance, position: &'a mut Position) -> &'a mut Hex {
    let hex = chance.below(position.map.hexes.len());
    &mut position.map.hexes[hex]
}

fn any_unit<'a>(chance: &mut Chance, position: &'a mut Position) -> Option<&'a mut Unit> {
    unit_where(chance, position, |_| true)
}

/// Some unit that answers the question.
fn unit_where<'a>(
    chance: &mut Chance,
    position: &'a mut Position,
    question: impl Fn(&Unit) -> bool,
) -> Option<&'a mut Unit> {
    let fitting: Vec<usize> = (0..position.units.len()).filter(|&unit| question(&position.units[unit])).collect();
    chance.pick_any(&fitting).map(|unit| &mut position.units[unit])
}

fn clear_tried(unit: &mut Unit) -> Option<()> {
    unit.marks &= !TRIED;
    Some(())
}

fn in_stages(position: &Position, stages: &[u8]) -> Option<()> {
    stages.contains(&position.desk.stage).then_some(())
}

fn take_role(position: &mut Position, role: u8) -> Option<()> {
    for unit in position.units_with_role(role) {
        position.units[unit].role = 0;
    }
    Some(())
}

fn route_count(position: &Position) -> usize {
    position.desk.filled_routes().len()
}

/// Make the filled routes so many; none if the ground does not allow it.
fn routes_so_many(chance: &mut Chance, position: &mut Position, count: usize) -> Option<()> {
    write_routes(chance, position, count);
    (route_count(position) == count).then_some(())
}

fn number(bytes: &[u8], at: usize) -> u16 {
    u16::from_le_bytes([bytes[at], bytes[at + 1]])
}

fn set_number(bytes: &mut [u8], at: usize, number: u16) {
    bytes[at..at + 2].copy_from_slice(&number.to_le_bytes());
}

/// One offset or length that no longer fits its neighbour.
fn shift_a_body(chance: &mut Chance, bytes: &mut [u8]) {
    let at = 2 * chance.below(9);
    let moved = number(bytes, at).wrapping_add(chance.pick(&[1, 65535, 256, 8]));
    set_number(bytes, at, moved);
}

/// Lengths near those that a desk may have.
const NEAR_LENGTHS: [u16; 6] = [55, 57, 58, 59, 61, 64];

/// A tail, or something missing; half the time at the desk, of which the contents say another length than it has.
fn lengthen_or_shorten(chance: &mut Chance, bytes: &mut Vec<u8>) {
    let right = chance.pick(&[56, 60]);
    let other = if chance.percent(50) { 116 - right } else { chance.pick(&NEAR_LENGTHS) };
    match chance.below(4) {
        0 => {
            let tail = chance.from_to(1, 9);
            bytes.extend(vec![0; tail]);
        }
        1 => {
            let lost = chance.from_to(1, 56);
            bytes.truncate(bytes.len() - lost);
        }
        2 => resize_desk(bytes, right, other),
        _ => resize_desk(bytes, other, right),
    }
}

/// A desk of a wrong length, most often near a right one, with the contents telling the truth.
fn wrong_desk(chance: &mut Chance, bytes: &mut Vec<u8>) {
    let far = chance.pick(&[0, 28, 52, 54, 62, 112, 116, 120]);
    let length = if chance.percent(15) { far } else { chance.pick(&NEAR_LENGTHS) };
    resize_desk(bytes, length, length);
}

/// Cut or lengthen the desk, and let the contents say this; any four bytes on end of those added are four players.
fn resize_desk(bytes: &mut Vec<u8>, length: u16, said: u16) {
    let end = usize::from(number(bytes, 16) + length);
    bytes.truncate(end);
    let missing = end - bytes.len();
    bytes.extend([0, 1, 2, 3].into_iter().cycle().take(missing));
    set_number(bytes, 18, said);
}

/// A body longer or shorter than its counts say, with the contents telling the truth.
fn resize_body(chance: &mut Chance, bytes: &mut Vec<u8>, body: usize) {
    let (offset, length) = (number(bytes, 4 * body), number(bytes, 4 * body + 2));
    let end = usize::from(offset) + usize::from(length);
    let grow = chance.percent(50);
    let by = chance.pick(&[1, 1, 2]);
    if grow {
        bytes.splice(end..end, vec![0; usize::from(by)]);
    } else {
        bytes.drain(end - usize::from(by)..end);
    }
    let changed = |number: u16| if grow { number.wrapping_add(by) } else { number.wrapping_sub(by) };
    set_number(bytes, 4 * body + 2, changed(length));
    for later in body + 1..5 {
        let offset = number(bytes, 4 * later);
        set_number(bytes, 4 * later, changed(offset));
    }
}

fn wrong_column_count(chance: &mut Chance, position: &mut Position) -> Option<()> {
    let count = chance.pick(&[0, 13]);
    let codes = position.results[0].codes;
    set(&mut position.results, (1..=count).map(|a| Column { a, d: 1, codes }).collect())
}

/// The first a too small or the last too large, so that the odds still rise.
fn wrong_a(chance: &mut Chance, position: &mut Position) -> Option<()> {
    if chance.percent(50) {
        set(&mut position.results.first_mut()?.a, 0)
    } else {
        set(&mut position.results.last_mut()?.a, above(chance, 20))
    }
}

/// The last d too small or the first too large, so that the odds still rise.
fn wrong_d(chance: &mut Chance, position: &mut Position) -> Option<()> {
    if chance.percent(50) {
        set(&mut position.results.last_mut()?.d, 0)
    } else {
        set(&mut position.results.first_mut()?.d, above(chance, 20))
    }
}

/// Two columns exchanged, or one of the same odds as its neighbour.
fn odds_that_do_not_rise(chance: &mut Chance, position: &mut Position) -> Option<()> {
    let columns = &mut position.results;
    let at = chance.below(columns.len());
    if at + 1 < columns.len() && chance.percent(50) {
        columns.swap(at, at + 1);
    } else if columns.len() < 12 {
        let mut same = columns[at];
        if same.a <= 10 && same.d <= 10 {
            (same.a, same.d) = (2 * same.a, 2 * same.d);
        }
        columns.insert(at + chance.below(2), same);
    } else {
        let last = columns[10];
        columns[11] = last;
    }
    Some(())
}

fn wrong_code(chance: &mut Chance, position: &mut Position) -> Option<()> {
    let column = chance.below(position.results.len());
    set(&mut position.results[column].codes[chance.below(6)], outside(chance, 10))
}

fn wrong_width(chance: &mut Chance, position: &mut Position) -> Option<()> {
    let (width, height) = (chance.pick(&[0, 65, 66]), chance.byte(1, 3));
    become_plain(position, width, height)
}

fn wrong_height(chance: &mut Chance, position: &mut Position) -> Option<()> {
    let (width, height) = (chance.byte(1, 3), chance.pick(&[0, 65, 66]));
    become_plain(position, width, height)
}

/// An empty plain map of this size under the same chart and results.
fn become_plain(position: &mut Position, width: u8, height: u8) -> Option<()> {
    let plain = Position::plain(width, height);
    (position.map, position.units, position.desk) = (plain.map, plain.units, plain.desk);
    Some(())
}

fn off_map_side(chance: &mut Chance, position: &mut Position) -> Option<()> {
    let grid = position.grid();
    let sides = (0..grid.hexes()).flat_map(|hex| (0..3).map(move |direction| (hex, direction)));
    let off_map: Vec<(usize, usize)> =
        sides.filter(|&(hex, direction)| grid.neighbour(hex, direction).is_none()).collect();
    let (hex, direction) = chance.pick(&off_map);
    position.map.hexes[hex].sides |= chance.byte(1, 3) << (2 * direction);
    Some(())
}

fn too_many_units(chance: &mut Chance, position: &mut Position) -> Option<()> {
    let count = chance.pick(&[401, 401, 402]);
    while position.units.len() < count {
        let force = chance.byte(0, 3);
        position.units.push(unit_of(chance, force, None));
    }
    Some(())
}

fn unit_off_the_map(chance: &mut Chance, position: &mut Position) -> Option<()> {
    let hexes = position.map.hexes.len() as u16;
    let hex = chance.pick(&[hexes, hexes, hexes + 1, 65534, 256 + hexes]);
    set(&mut any_unit(chance, position)?.hex, hex)
}

fn special_infantry_elsewhere(chance: &mut Chance, position: &mut Position) -> Option<()> {
    let unit = unit_where(chance, position, |unit| unit.nationality != 2)?;
    unit.marks |= TRIED;
    set(&mut unit.kind, SPECIAL_INFANTRY)
}

fn supply_unit_of_force_3(chance: &mut Chance, position: &mut Position) -> Option<()> {
    let unit = unit_where(chance, position, |unit| unit.force() == 3)?;
    unit.marks |= TRIED;
    unit.allowance = 0;
    set(&mut unit.kind, SUPPLY_UNIT)
}

fn hex_under_unit<'a>(chance: &mut Chance, position: &'a mut Position) -> Option<&'a mut Hex> {
    let hex = unit_where(chance, position, |unit| unit.on_map())?.hex;
    Some(&mut position.map.hexes[usize::from(hex)])
}

fn prohibit_under_unit(chance: &mut Chance, position: &mut Position) -> Option<()> {
    let terrain = hex_under_unit(chance, position)?.terrain;
    set(&mut position.chart.terrains[usize::from(terrain)].cost, 0)
}

/// Fill a unit's hex with others of its force until four stand there.
fn fourth_in_a_hex(chance: &mut Chance, position: &mut Position) -> Option<()> {
    let unit = *unit_where(chance, position, |unit| unit.on_map())?;
    while position.units_on(usize::from(unit.hex)).len() < 4 {
        let another = unit_of(chance, unit.force(), Some(unit.hex));
        position.units.push(another);
    }
    Some(())
}

/// Another force beside a unit, where fewer than three stand; a neutral one, if there is any.
fn second_force_in_a_hex(chance: &mut Chance, position: &mut Position) -> Option<()> {
    let unit = *unit_where(chance, position, |unit| unit.on_map())?;
    let any = (unit.force() + chance.byte(1, 3)) % 4;
    let force = neutral_of(chance, &position.desk, unit.force()).unwrap_or(any);
    let other = unit_of(chance, force, Some(unit.hex));
    (position.units_on(usize::from(unit.hex)).len() < 3).then(|| position.units.push(other))
}

fn role_in_the_box(chance: &mut Chance, position: &mut Position) -> Option<()> {
    let unit = unit_where(chance, position, |unit| !unit.on_map())?;
    unit.marks |= TRIED;
    set(&mut unit.role, chance.byte(1, 2))
}

fn last_turn_below(_: &mut Chance, position: &mut Position) -> Option<()> {
    let desk = &mut position.desk;
    if desk.turn == 1 {
        desk.turn = 2;
    }
    set(&mut desk.last_turn, desk.turn - 1)
}

/// The players on the desk; it becomes one of 60 bytes.
fn players(position: &mut Position) -> &mut [u8; 4] {
    position.desk.players.get_or_insert([0, 1, 2, 3])
}

fn player_above_3(chance: &mut Chance, position: &mut Position) -> Option<()> {
    let player = chance.pick(&[4, 4, 5, 128, 255, 255]);
    set(&mut players(position)[chance.below(4)], player)
}

/// Force 3 gets the player of another force, or all four forces have one player.
fn force_3_shares(chance: &mut Chance, position: &mut Position) -> Option<()> {
    let players = players(position);
    match chance.below(8) {
        0 => *players = [chance.byte(0, 3); 4],
        1..=3 => players[chance.below(3)] = players[3],
        _ => players[3] = players[chance.below(3)],
    }
    Some(())
}

/// A unit of one more force gets a role that another force has; of a neutral one, if there is any.
fn role_in_other_force(chance: &mut Chance, position: &mut Position, role: u8) -> Option<()> {
    let holder = position.units[*position.units_with_role(role).first()?].force();
    let neutrals = position.desk.neutrals_of(holder);
    let free = |unit: &Unit| unit.on_map() && unit.role == 0 && unit.force() != holder;
    let any_neutral = position.units.iter().any(|unit| free(unit) && neutrals.contains(&unit.force()));
    let unit = unit_where(chance, position, |unit| free(unit) && (!any_neutral || neutrals.contains(&unit.force())))?;
    unit.marks |= TRIED;
    set(&mut unit.role, role)
}

fn both_roles_in_one_force(chance: &mut Chance, position: &mut Position) -> Option<()> {
    in_stages(position, &[RETREATS])?;
    let owing = position.units[*position.units_with_role(OWES).first()?].force();
    take_role(position, MAY_ADVANCE)?;
    let unit = unit_where(chance, position, |unit| unit.on_map() && unit.role == 0 && unit.force() == owing)?;
    unit.marks |= TRIED;
    set(&mut unit.role, MAY_ADVANCE)
}

/// Mostly only the stage that has the number will do.
fn owing_stage_or_any(chance: &mut Chance, position: &Position, stage: u8) -> Option<()> {
    (position.desk.stage == stage || chance.percent(20)).then_some(())
}

fn wrong_owed_retreat(chance: &mut Chance, position: &mut Position) -> Option<()> {
    owing_stage_or_any(chance, position, RETREATS)?;
    let wrong = if position.desk.stage == RETREATS { outside(chance, 3) } else { above(chance, 0) };
    set(&mut position.desk.owed_retreat, wrong)
}

fn wrong_need(chance: &mut Chance, position: &mut Position) -> Option<()> {
    owing_stage_or_any(chance, position, LOSSES)?;
    let wrong = if position.desk.stage == LOSSES { [0, 1081, 1081, 65535] } else { [1, 256, 1080, 65535] };
    set(&mut position.desk.need, chance.pick(&wrong))
}

fn role_in_quiet(chance: &mut Chance, position: &mut Position) -> Option<()> {
    in_stages(position, &[QUIET])?;
    let unit = unit_where(chance, position, |unit| unit.on_map())?;
    unit.marks |= TRIED;
    set(&mut unit.role, chance.byte(1, 2))
}

/// k and the routes make seven.
fn one_route_too_many(chance: &mut Chance, position: &mut Position) -> Option<()> {
    in_stages(position, &[RETREATS])?;
    let mut hexes: Vec<u16> = position.units_with_role(OWES).iter().map(|&unit| position.units[unit].hex).collect();
    hexes.sort();
    hexes.dedup();
    routes_so_many(chance, position, 7 - hexes.len())
}

fn wrong_roles_for_losses(chance: &mut Chance, position: &mut Position) -> Option<()> {
    in_stages(position, &[LOSSES])?;
    match chance.below(3) {
        0 => take_role(position, OWES),
        1 => give_role_beside(chance, position, OWES, MAY_ADVANCE),
        _ => nineteen_owe(position),
    }
}

/// A unit of another force than the holders of one role gets the other role.
fn give_role_beside(chance: &mut Chance, position: &mut Position, held: u8, given: u8) -> Option<()> {
    let holder = position.units[*position.units_with_role(held).first()?].force();
    let unit = unit_where(chance, position, |unit| unit.on_map() && unit.force() != holder)?;
    unit.marks |= TRIED;
    set(&mut unit.role, given)
}

/// Nineteen units of one force on seven hexes of a plain map, all owing.
fn nineteen_owe(position: &mut Position) -> Option<()> {
    let desk = Desk { routes: [[NONE; 4]; 6], ..position.desk.clone() };
    become_plain(position, 3, 3);
    position.desk = desk;
    position.chart.terrains[0].cost = 1;
    for unit in 0..19 {
        position.units.push(Unit { role: OWES, marks: TRIED, ..Unit::new(1, 2, unit / 3, 5, 5) });
    }
    Some(())
}

fn wrong_roles_for_advances(chance: &mut Chance, position: &mut Position) -> Option<()> {
    in_stages(position, &[ADVANCES])?;
    if chance.percent(50) {
        take_role(position, MAY_ADVANCE)
    } else {
        give_role_beside(chance, position, MAY_ADVANCE, OWES)
    }
}

/// The last route moves one slot down and leaves a gap.
fn empty_route_between(_: &mut Chance, position: &mut Position) -> Option<()> {
    let count = route_count(position);
    if !(1..=5).contains(&count) {
        return None;
    }
    position.desk.routes.swap(count - 1, count);
    Some(())
}

/// A hex behind an empty place, in any route; or an empty place in a long one.
fn empty_place_in_route(chance: &mut Chance, position: &mut Position) -> Option<()> {
    let hexes = position.map.hexes.len();
    let route = &mut position.desk.routes[chance.below(6)];
    match route_hexes(route).len() {
        4 => route[chance.from_to(1, 2)] = NONE,
        3 => return None,
        filled => route[chance.from_to(filled + 1, 3)] = chance.below(hexes) as u16,
    }
    Some(())
}

/// A route's last hex off the map, or on ground that bears no units.
fn route_off_land(chance: &mut Chance, position: &mut Position) -> Option<()> {
    let slot = chance.below(route_count(position));
    let length = route_hexes(&position.desk.routes[slot]).len();
    let last = length.checked_sub(1)?;
    let hex = position.desk.routes[slot][last];
    if chance.percent(30) {
        let off = position.map.hexes.len() as u16;
        return set(&mut position.desk.routes[slot][last], chance.pick(&[off, off + 1, 65534]));
    }
    if !position.is_vacant(usize::from(hex)) {
        return None;
    }
    if chance.percent(50) {
        return set(&mut position.map.hexes[usize::from(hex)].surface, chance.byte(2, 3));
    }
    let prohibited: Vec<u8> =
        (0..16).filter(|&terrain| position.chart.terrains[usize::from(terrain)].cost == 0).collect();
    set(&mut position.map.hexes[usize::from(hex)].terrain, chance.pick_any(&prohibited)?)
}

/// A second hex that is not next to the first, or a blocked side between them.
fn route_apart(chance: &mut Chance, position: &mut Position) -> Option<()> {
    let slot = chance.below(route_count(position));
    let route = route_hexes(&position.desk.routes[slot]);
    let (&first, &second) = (route.first()?, route.get(1)?);
    if chance.percent(50) {
        let ground: Vec<usize> = (0..position.map.hexes.len()).filter(|&hex| position.bears_units(hex)).collect();
        let apart: Vec<usize> = ground.into_iter().filter(|&hex| !position.joined(first, hex)).collect();
        position.desk.routes[slot] = [first as u16, chance.pick_any(&apart)? as u16, NONE, NONE];
        return Some(());
    }
    let direction = position.grid().direction_to(first, second)?;
    let (keeper, bit) = if direction < 3 { (first, direction) } else { (second, direction - 3) };
    position.map.hexes[keeper].sides |= 3 << (2 * bit);
    Some(())
}
