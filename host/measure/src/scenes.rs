//! The grounds to measure on: an open map, a front, a maze of one lane, a tiny map.

use host::rules::board::position::{Position, Unit, BLOCKED, PLAIN, SUPPLY};

pub const ESC: u8 = 1;
pub const PAL: u8 = 2;
pub const US: u8 = 3;
pub const CANADA: u8 = 4;
const INFANTRY: u8 = 2;
const UNITED_STATES: u8 = 1;
const CANADIAN: u8 = 2;

/// The tiny map's side and units: its middle hex has six neighbours, and one stands against one.
pub const TINY: (u8, usize) = (3, 2);

#[derive(Clone, Copy, Debug, PartialEq, Eq)]
pub enum Ground {
    Open,
    Front,
    Maze,
    Tiny,
}

impl Ground {
    pub fn name(self) -> &'static str {
        match self {
            Ground::Open => "open map",
            Ground::Front => "front",
            Ground::Maze => "maze of one lane",
            Ground::Tiny => "tiny map",
        }
    }

    /// The ground on a square map of this side, to hold this many units.
    pub fn scene(self, side: u8, count: usize) -> Scene {
        Scene { ground: self, land: self.land(side), count }
    }

    /// A square map of land, a supply hex of the US at the beginning of the first row and one of Canada at its end.
    fn land(self, side: u8) -> Position {
        let mut position = Position::plain(side, side);
        for (hex, country) in [(0, UNITED_STATES), (usize::from(side) - 1, CANADIAN)] {
            position.map.hexes[hex].flags = SUPPLY;
            position.map.hexes[hex].country = country;
        }
        if self == Ground::Maze {
            wind(&mut position);
        }
        position.desk.force = US;
        position
    }

    /// The ground's own units, this many, on the free hexes; the tiny map has one in each of two corners.
    fn own(self, free: &[usize], many: usize) -> Vec<Unit> {
        match self {
            Ground::Open | Ground::Maze => evenly(US, free, many),
            Ground::Front => {
                let (upper, lower) = free.split_at(free.len() / 2);
                [evenly(US, upper, many / 2), evenly(ESC, lower, many - many / 2)].concat()
            }
            Ground::Tiny => {
                let corners = [(US, 0), (ESC, 6)].into_iter().filter(|(_, hex)| free.contains(hex));
                corners.map(|(nationality, hex)| infantry(nationality, hex)).collect()
            }
        }
    }
}

pub fn infantry(nationality: u8, hex: usize) -> Unit {
    Unit::new(nationality, INFANTRY, hex as u16, 5, 6)
}

/// This many units of one nationality evenly over the hexes.
fn evenly(nationality: u8, hexes: &[usize], many: usize) -> Vec<Unit> {
    (0..many).map(|i| infantry(nationality, hexes[i * hexes.len() / many])).collect()
}

/// One lane that winds through all hexes: the sides between two rows are blocked but for one, at the lane's end.
fn wind(position: &mut Position) {
    let wide = usize::from(position.map.width);
    for hex in 0..position.map.hexes.len() {
        let (column, row) = (hex % wide, hex / wide);
        let gap = if row % 2 == 1 { wide - 1 } else { 0 };
        let north = row > 0 && column != gap;
        let north_east = column % 2 == 0 && column + 1 < wide && row > 0;
        let south_east = column % 2 == 1 && column + 1 < wide && row + 1 < wide;
        position.map.hexes[hex].sides = [(north, 1), (north_east, 4), (south_east, 16)]
            .into_iter()
            .map(|(blocked, unit)| if blocked { unit * BLOCKED } else { PLAIN })
            .sum();
    }
}

/// A ground, its land without units, and how many units it is to hold.
pub struct Scene {
    pub ground: Ground,
    pub land: Position,
    count: usize,
}

impl Scene {
    /// The hex in the middle of the map.
    pub fn middle(&self) -> usize {
        let grid = self.land.grid();
        grid.height / 2 * grid.width + grid.width / 2
    }

    /// The hexes whose distance from the middle is as wanted.
    pub fn hexes(&self, wanted: impl Fn(usize) -> bool) -> Vec<usize> {
        let distances = self.land.grid().distances(self.middle());
        (0..distances.len()).filter(|&hex| distances[hex].is_some_and(&wanted)).collect()
    }

    /// The ground with its own units all over.
    pub fn whole(&self) -> Position {
        self.filled(Vec::new(), &self.hexes(|_| true))
    }

    /// The ground with these units, and its own further than three hexes from the middle.
    pub fn staged(&self, units: Vec<Unit>) -> Position {
        self.filled(units, &self.hexes(|far| far > 3))
    }

    /// These units, then the ground's own on the free hexes, until there are as many as it is to hold.
    fn filled(&self, first: Vec<Unit>, free: &[usize]) -> Position {
        let many = self.count.saturating_sub(first.len());
        Position { units: [first, self.ground.own(free, many)].concat(), ..self.land.clone() }
    }
}

#[cfg(test)]
mod tests {
    use super::*;

    /// Every hex of the maze has two open sides, its two ends one: the lane goes through all of them.
    #[test]
    fn the_maze_is_one_lane() {
        let position = Ground::Maze.scene(8, 4).whole();
        let open = |hex: usize| (0..6).filter(|&direction| position.side(hex, direction) != BLOCKED).count();
        let ends = (0..64).filter(|&hex| open(hex) == 1).count();
        let passages = (0..64).filter(|&hex| open(hex) == 2).count();
        assert_eq!((ends, passages), (2, 62));
    }

    #[test]
    fn units_of_the_ground_keep_out_of_the_middle() {
        for ground in [Ground::Open, Ground::Front, Ground::Maze] {
            let scene = ground.scene(16, 25);
            let near = scene.hexes(|far| far <= 3);
            assert!(scene.staged(Vec::new()).units.iter().all(|unit| !near.contains(&usize::from(unit.hex))));
        }
    }
}
