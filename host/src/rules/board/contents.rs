//! The position as bytes: contents first, then the five bodies without gap or tail.

use super::position::{Chart, Column, Desk, Effect, Hex, Map, Position, Unit};

/// The lines about lengths and offsets, in the order they are asked.
pub const LINES: [&str; 8] = [
    "contents: five entries of offset and length",
    "contents: bodies in order without gap",
    "contents: no tail, nothing missing",
    "chart: 36 bytes",
    "results: length by the column count",
    "map: length by width and height",
    "units: length by the count",
    "desk: 56 or 60 bytes",
];

const ENTRIES: usize = 20;
/// The desk without its players.
const OLD_DESK: usize = 56;

fn number(bytes: &[u8], at: usize) -> u16 {
    u16::from_le_bytes([bytes[at], bytes[at + 1]])
}

/// Offset and length of each body as the contents state them.
fn entries(bytes: &[u8]) -> [(usize, usize); 5] {
    [0, 1, 2, 3, 4].map(|entry| (usize::from(number(bytes, 4 * entry)), usize::from(number(bytes, 4 * entry + 2))))
}

/// Each offset is the end of what stands before it.
fn without_gap(entries: &[(usize, usize); 5]) -> bool {
    let mut end = ENTRIES;
    entries.iter().all(|&(offset, length)| {
        let follows = offset == end;
        end = offset + length;
        follows
    })
}

/// Is a body as long as its own counts say?
fn length_fits(body: usize, bytes: &[u8]) -> bool {
    match body {
        0 => bytes.len() == 36,
        1 => !bytes.is_empty() && bytes.len() == 1 + 8 * usize::from(bytes[0]),
        2 => bytes.len() >= 2 && bytes.len() == 2 + 5 * usize::from(bytes[0]) * usize::from(bytes[1]),
        3 => bytes.len() >= 2 && bytes.len() == 2 + 8 * usize::from(number(bytes, 0)),
        _ => bytes.len() == OLD_DESK || bytes.len() == OLD_DESK + 4,
    }
}

/// Take the bytes apart into numbers, or name the line about lengths that they break.
/// Nothing is asked here of the numbers themselves.
pub fn taken_apart(bytes: &[u8]) -> Result<Position, &'static str> {
    if bytes.len() < ENTRIES {
        return Err(LINES[0]);
    }
    let entries = entries(bytes);
    if !without_gap(&entries) {
        return Err(LINES[1]);
    }
    let (last_offset, last_length) = entries[4];
    if last_offset + last_length != bytes.len() {
        return Err(LINES[2]);
    }
    let bodies = entries.map(|(offset, length)| &bytes[offset..offset + length]);
    for (body, bytes) in bodies.iter().enumerate() {
        if !length_fits(body, bytes) {
            return Err(LINES[3 + body]);
        }
    }
    Ok(Position {
        chart: chart(bodies[0]),
        results: bodies[1][1..].chunks(8).map(column).collect(),
        map: map(bodies[2]),
        units: bodies[3][2..].chunks(8).map(unit).collect(),
        desk: desk(bodies[4]),
    })
}

fn chart(body: &[u8]) -> Chart {
    let effect = |at: usize| Effect { cost: body[2 * at], multiple: body[2 * at + 1] };
    Chart { terrains: std::array::from_fn(effect), river: effect(16), major_river: effect(17) }
}

fn column(body: &[u8]) -> Column {
    Column { a: body[0], d: body[1], codes: std::array::from_fn(|die| body[2 + die]) }
}

fn map(body: &[u8]) -> Map {
    Map { width: body[0], height: body[1], hexes: body[2..].chunks(5).map(hex).collect() }
}

fn hex(body: &[u8]) -> Hex {
    Hex { terrain: body[0], surface: body[1], flags: body[2], country: body[3], sides: body[4] }
}

fn unit(body: &[u8]) -> Unit {
    Unit {
        nationality: body[0],
        kind: body[1],
        hex: number(body, 2),
        strength: body[4],
        allowance: body[5],
        marks: body[6],
        role: body[7],
    }
}

fn desk(body: &[u8]) -> Desk {
    let route = |route: usize| std::array::from_fn(|place| number(body, 8 + 8 * route + 2 * place));
    Desk {
        turn: body[0],
        last_turn: body[1],
        force: body[2],
        phase: body[3],
        stage: body[4],
        owed_retreat: body[5],
        need: number(body, 6),
        routes: std::array::from_fn(route),
        players: body[OLD_DESK..].try_into().ok(),
    }
}

/// Write a position as bytes.
pub fn written(position: &Position) -> Vec<u8> {
    let bodies = [
        chart_bytes(&position.chart),
        results_bytes(&position.results),
        map_bytes(&position.map),
        units_bytes(&position.units),
        desk_bytes(&position.desk),
    ];
    let mut bytes = Vec::new();
    let mut offset = ENTRIES;
    for body in &bodies {
        bytes.extend((offset as u16).to_le_bytes());
        bytes.extend((body.len() as u16).to_le_bytes());
        offset += body.len();
    }
    bytes.extend(bodies.concat());
    bytes
}

fn chart_bytes(chart: &Chart) -> Vec<u8> {
    let sides = [chart.river, chart.major_river];
    chart.terrains.iter().chain(&sides).flat_map(|effect| [effect.cost, effect.multiple]).collect()
}

fn results_bytes(results: &[Column]) -> Vec<u8> {
    let mut bytes = vec![results.len() as u8];
    for column in results {
        bytes.extend([column.a, column.d]);
        bytes.extend(column.codes);
    }
    bytes
}

fn map_bytes(map: &Map) -> Vec<u8> {
    let mut bytes = vec![map.width, map.height];
    for hex in &map.hexes {
        bytes.extend([hex.terrain, hex.surface, hex.flags, hex.country, hex.sides]);
    }
    bytes
}

fn units_bytes(units: &[Unit]) -> Vec<u8> {
    let mut bytes = (units.len() as u16).to_le_bytes().to_vec();
    for unit in units {
        bytes.extend([unit.nationality, unit.kind]);
        bytes.extend(unit.hex.to_le_bytes());
        bytes.extend([unit.strength, unit.allowance, unit.marks, unit.role]);
    }
    bytes
}

fn desk_bytes(desk: &Desk) -> Vec<u8> {
    let mut bytes = vec![desk.turn, desk.last_turn, desk.force, desk.phase, desk.stage, desk.owed_retreat];
    bytes.extend(desk.need.to_le_bytes());
    bytes.extend(desk.routes.iter().flatten().flat_map(|hex| hex.to_le_bytes()));
    bytes.extend(desk.players.iter().flatten());
    bytes
}
