//! The position, taken apart into numbers, and the plain questions asked of it.

use super::grid::Grid;
use super::unit_type;

/// A hex number that is none: the box of destroyed units, an empty place in a route.
pub const NONE: u16 = 65535;

pub const TRIED: u8 = 1;
pub const SUPPLIED: u8 = 2;
pub const MOVED: u8 = 4;
pub const FOUGHT: u8 = 8;

pub const LAND: u8 = 0;
pub const COASTAL: u8 = 1;
pub const ALL_SEA: u8 = 2;
pub const LAKE: u8 = 3;

pub const PORT: u8 = 1;
pub const URBAN: u8 = 2;
pub const SUPPLY: u8 = 4;

pub const PLAIN: u8 = 0;
pub const RIVER: u8 = 1;
pub const MAJOR_RIVER: u8 = 2;
pub const BLOCKED: u8 = 3;

pub const LAND_MOVEMENT: u8 = 0;
pub const COMBAT: u8 = 1;
pub const MECHANISED: u8 = 2;

pub const QUIET: u8 = 0;
pub const RETREATS: u8 = 1;
pub const LOSSES: u8 = 2;
pub const ADVANCES: u8 = 3;

/// Role 1: the unit owes a retreat or losses.
pub const OWES: u8 = 1;
/// Role 2: the unit may advance.
pub const MAY_ADVANCE: u8 = 2;

/// Cost and defence multiple, of a terrain or of a river side.
#[derive(Clone, Copy, Debug, PartialEq, Eq)]
pub struct Effect {
    pub cost: u8,
    pub multiple: u8,
}

#[derive(Clone, Debug, PartialEq, Eq)]
pub struct Chart {
    pub terrains: [Effect; 16],
    pub river: Effect,
    pub major_river: Effect,
}

/// One column of the results: odds a:d and a result for each die.
#[derive(Clone, Copy, Debug, PartialEq, Eq)]
pub struct Column {
    pub a: u8,
    pub d: u8,
    pub codes: [u8; 6],
}

#[derive(Clone, Copy, Debug, PartialEq, Eq)]
pub struct Hex {
    pub terrain: u8,
    pub surface: u8,
    pub flags: u8,
    pub country: u8,
    pub sides: u8,
}

#[derive(Clone, Debug, PartialEq, Eq)]
pub struct Map {
    pub width: u8,
    pub height: u8,
    pub hexes: Vec<Hex>,
}

#[derive(Clone, Copy, Debug, PartialEq, Eq)]
pub struct Unit {
    pub nationality: u8,
    pub kind: u8,
    pub hex: u16,
    pub strength: u8,
    pub allowance: u8,
    pub marks: u8,
    pub role: u8,
}

pub type Route = [u16; 4];

#[derive(Clone, Debug, PartialEq, Eq)]
pub struct Desk {
    pub turn: u8,
    pub last_turn: u8,
    pub force: u8,
    pub phase: u8,
    pub stage: u8,
    pub owed_retreat: u8,
    pub need: u16,
    pub routes: [Route; 6],
    /// The player of each force; none on a desk of the old length, which has four players.
    pub players: Option<[u8; 4]>,
}

#[derive(Clone, Debug, PartialEq, Eq)]
pub struct Position {
    pub chart: Chart,
    pub results: Vec<Column>,
    pub map: Map,
    pub units: Vec<Unit>,
    pub desk: Desk,
}

/// Nationalities 3 and 4 form force 3; each other nationality is its own force.
pub fn force_of(nationality: u8) -> u8 {
    nationality.min(3)
}

impl Unit {
    /// A unit with no marks but tried where its type is always tried.
    pub fn new(nationality: u8, kind: u8, hex: u16, strength: u8, allowance: u8) -> Unit {
        let marks = if unit_type::always_tried(kind) { TRIED } else { 0 };
        Unit { nationality, kind, hex, strength, allowance, marks, role: 0 }
    }

    pub fn force(&self) -> u8 {
        force_of(self.nationality)
    }

    pub fn on_map(&self) -> bool {
        self.hex != NONE
    }

    pub fn stands_on(&self, hex: usize) -> bool {
        self.on_map() && usize::from(self.hex) == hex
    }

    pub fn has(&self, mark: u8) -> bool {
        self.marks & mark != 0
    }
}

impl Desk {
    /// Turn 1 of 10, force 0, land movement, quiet, of the old length.
    pub fn plain() -> Desk {
        Desk {
            turn: 1,
            last_turn: 10,
            force: 0,
            phase: 0,
            stage: 0,
            owed_retreat: 0,
            need: 0,
            routes: [[NONE; 4]; 6],
            players: None,
        }
    }

    /// The filled routes, each as the hexes it holds.
    pub fn filled_routes(&self) -> Vec<Vec<usize>> {
        self.routes.iter().filter(|route| route[0] != NONE).map(route_hexes).collect()
    }
}

/// The hexes of a route up to its first empty place.
pub fn route_hexes(route: &Route) -> Vec<usize> {
    route.iter().take_while(|&&hex| hex != NONE).map(|&hex| usize::from(hex)).collect()
}

/// The stored number of a side: `direction` 0 north, 1 north-east, 2 south-east.
pub fn stored_side(sides: u8, direction: usize) -> u8 {
    (sides >> (2 * direction)) & 3
}

impl Position {
    /// An empty plain map: all land, terrain 0 of cost 1, columns 1:1, 2:1, 3:1, every result D1.
    pub fn plain(width: u8, height: u8) -> Position {
        let effect = Effect { cost: 1, multiple: 1 };
        let hex = Hex { terrain: 0, surface: LAND, flags: 0, country: 0, sides: 0 };
        let hexes = vec![hex; usize::from(width) * usize::from(height)];
        Position {
            chart: Chart { terrains: [effect; 16], river: effect, major_river: effect },
            results: [1, 2, 3].map(|a| Column { a, d: 1, codes: [1; 6] }).to_vec(),
            map: Map { width, height, hexes },
            units: Vec::new(),
            desk: Desk::plain(),
        }
    }

    pub fn grid(&self) -> Grid {
        Grid { width: usize::from(self.map.width), height: usize::from(self.map.height) }
    }

    /// Surface 0 or 1.
    pub fn is_land_or_coast(&self, hex: usize) -> bool {
        matches!(self.map.hexes[hex].surface, LAND | COASTAL)
    }

    pub fn terrain(&self, hex: usize) -> Effect {
        self.chart.terrains[usize::from(self.map.hexes[hex].terrain)]
    }

    pub fn is_prohibited(&self, hex: usize) -> bool {
        self.terrain(hex).cost == 0
    }

    /// May a land unit stand there, Enemies and numbers apart?
    pub fn bears_units(&self, hex: usize) -> bool {
        self.is_land_or_coast(hex) && !self.is_prohibited(hex)
    }

    /// The side crossed from a hex in a direction. Three sides are stored with the hex,
    /// the other three with the neighbour; a side at the map's edge counts as blocked.
    pub fn side(&self, hex: usize, direction: usize) -> u8 {
        match self.grid().neighbour(hex, direction) {
            None => BLOCKED,
            Some(_) if direction < 3 => stored_side(self.map.hexes[hex].sides, direction),
            Some(neighbour) => stored_side(self.map.hexes[neighbour].sides, direction - 3),
        }
    }

    /// The side between two hexes; none if they are not adjacent.
    pub fn side_between(&self, from: usize, to: usize) -> Option<u8> {
        self.grid().direction_to(from, to).map(|direction| self.side(from, direction))
    }

    /// Are the hexes next to each other over an unblocked side?
    pub fn joined(&self, from: usize, to: usize) -> bool {
        self.side_between(from, to).is_some_and(|side| side != BLOCKED)
    }

    /// The effect of a river side; none for a plain or blocked side.
    pub fn river_effect(&self, side: u8) -> Option<Effect> {
        match side {
            RIVER => Some(self.chart.river),
            MAJOR_RIVER => Some(self.chart.major_river),
            _ => None,
        }
    }

    /// The numbers of all units on a hex.
    pub fn units_on(&self, hex: usize) -> Vec<usize> {
        (0..self.units.len()).filter(|&unit| self.units[unit].stands_on(hex)).collect()
    }

    pub fn is_vacant(&self, hex: usize) -> bool {
        self.units_on(hex).is_empty()
    }

    /// Do three or more units other than `unit` stand on the hex?
    pub fn three_others_on(&self, hex: usize, unit: usize) -> bool {
        self.units_on(hex).into_iter().filter(|&other| other != unit).count() >= 3
    }

    /// The numbers of all units with a role.
    pub fn units_with_role(&self, role: u8) -> Vec<usize> {
        (0..self.units.len()).filter(|&unit| self.units[unit].role == role).collect()
    }

    pub fn any_role(&self, role: u8) -> bool {
        !self.units_with_role(role).is_empty()
    }
}
