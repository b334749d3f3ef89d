//! Is the bytes' position one the referee accepts? A table of lines, asked in order;
//! a line may count on all lines before it.

use super::contents;
use super::position::*;
use super::unit_type;

/// One line of the document: its name and the question whether a position keeps it.
pub struct Line {
    pub name: &'static str,
    pub kept: fn(&Position) -> bool,
}

/// The position if it keeps every line, else the name of the first line broken.
pub fn accepted(bytes: &[u8]) -> Result<Position, &'static str> {
    let position = contents::taken_apart(bytes)?;
    match LINES.iter().find(|line| !(line.kept)(&position)) {
        Some(line) => Err(line.name),
        None => Ok(position),
    }
}

/// The names of all lines, those about lengths first.
pub fn line_names() -> Vec<&'static str> {
    contents::LINES.into_iter().chain(LINES.iter().map(|line| line.name)).collect()
}

/// The lines about the numbers, in the order they are asked.
#[rustfmt::skip]
pub const LINES: [Line; 61] = [
    Line { name: "chart: terrain cost 0..9", kept: |p| p.chart.terrains.iter().all(|e| e.cost <= 9) },
    Line { name: "chart: terrain multiple 1..4", kept: |p| p.chart.terrains.iter().all(|e| in_range(e.multiple, 1, 4)) },
    Line { name: "chart: side cost 0..9", kept: |p| side_effects(p).iter().all(|e| e.cost <= 9) },
    Line { name: "chart: side multiple 1..4", kept: |p| side_effects(p).iter().all(|e| in_range(e.multiple, 1, 4)) },
    Line { name: "results: column count 1..12", kept: |p| (1..=12).contains(&p.results.len()) },
    Line { name: "results: a 1..20", kept: |p| p.results.iter().all(|c| in_range(c.a, 1, 20)) },
    Line { name: "results: d 1..20", kept: |p| p.results.iter().all(|c| in_range(c.d, 1, 20)) },
    Line { name: "results: a:d strictly rising", kept: |p| p.results.windows(2).all(|w| rises(&w[0], &w[1])) },
    Line { name: "results: codes 1..10", kept: |p| p.results.iter().all(|c| c.codes.iter().all(|&x| in_range(x, 1, 10))) },
    Line { name: "map: width 1..64", kept: |p| in_range(p.map.width, 1, 64) },
    Line { name: "map: height 1..64", kept: |p| in_range(p.map.height, 1, 64) },
    Line { name: "map: terrain 0..15", kept: |p| each_hex(p, |h| h.terrain <= 15) },
    Line { name: "map: surface 0..3", kept: |p| each_hex(p, |h| h.surface <= 3) },
    Line { name: "map: flags port, urban, supply", kept: |p| each_hex(p, |h| h.flags <= 7) },
    Line { name: "map: country 0..2", kept: |p| each_hex(p, |h| h.country <= 2) },
    Line { name: "map: three sides, other bits 0", kept: |p| each_hex(p, |h| h.sides <= 63) },
    Line { name: "map: off-map sides 0", kept: off_map_sides_are_plain },
    Line { name: "units: count 0..400", kept: |p| p.units.len() <= 400 },
    Line { name: "units: nationality 0..4", kept: |p| each_unit(p, |u| u.nationality <= 4) },
    Line { name: "units: type 0..5", kept: |p| each_unit(p, |u| u.kind <= 5) },
    Line { name: "units: hex on the map or 65535", kept: |p| each_unit(p, |u| !u.on_map() || usize::from(u.hex) < p.map.hexes.len()) },
    Line { name: "units: strength 1..60", kept: |p| each_unit(p, |u| in_range(u.strength, 1, 60)) },
    Line { name: "units: allowance 0..30", kept: |p| each_unit(p, |u| u.allowance <= 30) },
    Line { name: "units: marks tried, supplied, moved, fought", kept: |p| each_unit(p, |u| u.marks <= 15) },
    Line { name: "units: role 0..2", kept: |p| each_unit(p, |u| u.role <= 2) },
    Line { name: "types: militia in force 3 only", kept: |p| kind_belongs(p, unit_type::MILITIA) },
    Line { name: "types: special infantry P.A.L. only", kept: |p| kind_belongs(p, unit_type::SPECIAL_INFANTRY) },
    Line { name: "types: supply unit nationality 0..2", kept: |p| kind_belongs(p, unit_type::SUPPLY_UNIT) },
    Line { name: "types: supply unit allowance 0", kept: |p| each_unit(p, |u| u.kind != unit_type::SUPPLY_UNIT || u.allowance == 0) },
    Line { name: "types: 4 and 5 always tried", kept: |p| each_unit(p, |u| !unit_type::always_tried(u.kind) || u.has(TRIED)) },
    Line { name: "mapped units: surface 0 or 1", kept: |p| each_mapped(p, |u| p.is_land_or_coast(usize::from(u.hex))) },
    Line { name: "mapped units: unprohibited terrain", kept: |p| each_mapped(p, |u| !p.is_prohibited(usize::from(u.hex))) },
    Line { name: "mapped units: at most three in a hex", kept: at_most_three_in_a_hex },
    Line { name: "mapped units: one force in a hex", kept: one_force_in_a_hex },
    Line { name: "destroyed units: role 0", kept: |p| each_unit(p, |u| u.on_map() || u.role == 0) },
    Line { name: "destroyed units: no mark but tried", kept: |p| each_unit(p, |u| u.on_map() || u.marks & !TRIED == 0) },
    Line { name: "desk: turn 1..60", kept: |p| in_range(p.desk.turn, 1, 60) },
    Line { name: "desk: last turn 1..60", kept: |p| in_range(p.desk.last_turn, 1, 60) },
    Line { name: "desk: last turn not below turn", kept: |p| p.desk.last_turn >= p.desk.turn },
    Line { name: "desk: force 0..3", kept: |p| p.desk.force <= 3 },
    Line { name: "desk: phase 0..2", kept: |p| p.desk.phase <= 2 },
    Line { name: "desk: stage 0..3", kept: |p| p.desk.stage <= 3 },
    Line { name: "desk: players 0..3", kept: |p| p.desk.players.iter().flatten().all(|&player| player <= 3) },
    Line { name: "desk: force 3 shares no player", kept: |p| p.desk.neutrals_of(3).is_empty() },
    Line { name: "stages: 1 to 3 only in phase 1", kept: |p| p.desk.stage == QUIET || p.desk.phase == COMBAT },
    Line { name: "roles: units with a role are tried", kept: |p| each_unit(p, |u| u.role == 0 || u.has(TRIED)) },
    Line { name: "roles: role 1 of one force", kept: |p| forces_of_role(p, OWES).len() <= 1 },
    Line { name: "roles: role 2 of one force", kept: |p| forces_of_role(p, MAY_ADVANCE).len() <= 1 },
    Line { name: "roles: not the same force", kept: roles_of_different_forces },
    Line { name: "stages: n 1..3 in stage 1, else 0", kept: owed_retreat_fits_stage },
    Line { name: "stages: need 1..1080 in stage 2, else 0", kept: need_fits_stage },
    Line { name: "stage 0: no roles", kept: |p| p.desk.stage != QUIET || each_unit(p, |u| u.role == 0) },
    Line { name: "stage 0: no routes", kept: |p| p.desk.stage != QUIET || p.desk.filled_routes().is_empty() },
    Line { name: "stage 1: some role 1", kept: |p| p.desk.stage != RETREATS || p.any_role(OWES) },
    Line { name: "stage 1: k plus filled routes at most 6", kept: owing_hexes_and_routes_fit },
    Line { name: "stage 2: 1 to 18 of role 1, no role 2", kept: roles_fit_losses },
    Line { name: "stage 3: some role 2, no role 1", kept: roles_fit_advances },
    Line { name: "routes: filled routes come first", kept: filled_routes_come_first },
    Line { name: "routes: each fills from its front", kept: routes_fill_from_the_front },
    Line { name: "routes: hexes of surface 0 or 1, unprohibited", kept: routes_lie_on_land },
    Line { name: "routes: each next to the last over an unblocked side", kept: routes_are_joined },
];

fn in_range(number: u8, lowest: u8, highest: u8) -> bool {
    (lowest..=highest).contains(&number)
}

fn side_effects(position: &Position) -> [Effect; 2] {
    [position.chart.river, position.chart.major_river]
}

/// a:d rises if the cross product does.
fn rises(before: &Column, after: &Column) -> bool {
    u16::from(after.a) * u16::from(before.d) > u16::from(before.a) * u16::from(after.d)
}

fn each_hex(position: &Position, question: impl Fn(&Hex) -> bool) -> bool {
    position.map.hexes.iter().all(question)
}

fn each_unit(position: &Position, question: impl Fn(&Unit) -> bool) -> bool {
    position.units.iter().all(question)
}

fn each_mapped(position: &Position, question: impl Fn(&Unit) -> bool) -> bool {
    position.units.iter().filter(|unit| unit.on_map()).all(question)
}

/// Do all units of one type have a nationality that has this type?
fn kind_belongs(position: &Position, kind: u8) -> bool {
    each_unit(position, |unit| unit.kind != kind || unit_type::belongs_to(kind, unit.nationality))
}

fn off_map_sides_are_plain(position: &Position) -> bool {
    let grid = position.grid();
    (0..grid.hexes()).all(|hex| {
        (0..3).all(|direction| {
            grid.neighbour(hex, direction).is_some() || stored_side(position.map.hexes[hex].sides, direction) == PLAIN
        })
    })
}

fn at_most_three_in_a_hex(position: &Position) -> bool {
    let mut standing = vec![0; position.map.hexes.len()];
    for unit in position.units.iter().filter(|unit| unit.on_map()) {
        standing[usize::from(unit.hex)] += 1;
    }
    standing.iter().all(|&count| count <= 3)
}

fn one_force_in_a_hex(position: &Position) -> bool {
    let mut holder = vec![None; position.map.hexes.len()];
    position.units.iter().filter(|unit| unit.on_map()).all(|unit| {
        let first = *holder[usize::from(unit.hex)].get_or_insert(unit.force());
        first == unit.force()
    })
}

/// The forces that have units of a role, each once.
fn forces_of_role(position: &Position, role: u8) -> Vec<u8> {
    (0..4).filter(|&force| position.units.iter().any(|unit| unit.role == role && unit.force() == force)).collect()
}

fn roles_of_different_forces(position: &Position) -> bool {
    let may_advance = forces_of_role(position, MAY_ADVANCE);
    forces_of_role(position, OWES).iter().all(|force| !may_advance.contains(force))
}

fn owed_retreat_fits_stage(position: &Position) -> bool {
    let desk = &position.desk;
    if desk.stage == RETREATS {
        in_range(desk.owed_retreat, 1, 3)
    } else {
        desk.owed_retreat == 0
    }
}

fn need_fits_stage(position: &Position) -> bool {
    let desk = &position.desk;
    if desk.stage == LOSSES {
        (1..=1080).contains(&desk.need)
    } else {
        desk.need == 0
    }
}

/// The number of hexes with at least one role 1 unit.
fn owing_hexes(position: &Position) -> usize {
    let mut hexes: Vec<u16> = position.units.iter().filter(|unit| unit.role == OWES).map(|unit| unit.hex).collect();
    hexes.sort();
    hexes.dedup();
    hexes.len()
}

fn owing_hexes_and_routes_fit(position: &Position) -> bool {
    position.desk.stage != RETREATS || owing_hexes(position) + position.desk.filled_routes().len() <= 6
}

fn roles_fit_losses(position: &Position) -> bool {
    let owing = position.units_with_role(OWES).len();
    position.desk.stage != LOSSES || ((1..=18).contains(&owing) && !position.any_role(MAY_ADVANCE))
}

fn roles_fit_advances(position: &Position) -> bool {
    position.desk.stage != ADVANCES || (position.any_role(MAY_ADVANCE) && !position.any_role(OWES))
}

fn filled_routes_come_first(position: &Position) -> bool {
    position.desk.routes.windows(2).all(|pair| pair[0][0] != NONE || pair[1][0] == NONE)
}

fn routes_fill_from_the_front(position: &Position) -> bool {
    position.desk.routes.iter().all(|route| route.windows(2).all(|pair| pair[0] != NONE || pair[1] == NONE))
}

fn routes_lie_on_land(position: &Position) -> bool {
    let hexes = position.map.hexes.len();
    position.desk.filled_routes().iter().flatten().all(|&hex| hex < hexes && position.bears_units(hex))
}

fn routes_are_joined(position: &Position) -> bool {
    position.desk.filled_routes().iter().all(|route| route.windows(2).all(|pair| position.joined(pair[0], pair[1])))
}
