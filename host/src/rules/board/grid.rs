//! The hex grid, by itself: neighbours and distance.

/// The six directions, clockwise from north.
pub const DIRECTIONS: [usize; 6] = [0, 1, 2, 3, 4, 5];

/// (column change, row change) for an even column, clockwise from north.
const EVEN: [(i32, i32); 6] = [(0, -1), (1, -1), (1, 0), (0, 1), (-1, 0), (-1, -1)];
/// The same for an odd column.
const ODD: [(i32, i32); 6] = [(0, -1), (1, 0), (1, 1), (0, 1), (-1, 1), (-1, 0)];

#[derive(Clone, Copy, Debug, PartialEq, Eq)]
pub struct Grid {
    pub width: usize,
    pub height: usize,
}

impl Grid {
    pub fn hexes(&self) -> usize {
        self.width * self.height
    }

    /// The hex next to `hex` in `direction`; none off the map.
    pub fn neighbour(&self, hex: usize, direction: usize) -> Option<usize> {
        let (column, row) = (hex % self.width, hex / self.width);
        let steps = if column % 2 == 0 { EVEN } else { ODD };
        let (columns, rows) = steps[direction];
        let column = column as i32 + columns;
        let row = row as i32 + rows;
        let on_map = (0..self.width as i32).contains(&column) && (0..self.height as i32).contains(&row);
        on_map.then(|| row as usize * self.width + column as usize)
    }

    /// All six neighbours, clockwise from north.
    pub fn neighbours(&self, hex: usize) -> [Option<usize>; 6] {
        DIRECTIONS.map(|direction| self.neighbour(hex, direction))
    }

    /// The direction that leads from one hex to the next; none if they are not adjacent.
    pub fn direction_to(&self, from: usize, to: usize) -> Option<usize> {
        DIRECTIONS.into_iter().find(|&direction| self.neighbour(from, direction) == Some(to))
    }

    /// The fewest steps from every hex to `from`, found ring by ring.
    pub fn distances(&self, from: usize) -> Vec<Option<usize>> {
        let mut found = vec![None; self.hexes()];
        found[from] = Some(0);
        let mut ring = vec![from];
        let mut steps = 0;
        while !ring.is_empty() {
            steps += 1;
            let mut next_ring = Vec::new();
            for hex in ring {
                for near in self.neighbours(hex).into_iter().flatten() {
                    if found[near].is_none() {
                        found[near] = Some(steps);
                        next_ring.push(near);
                    }
                }
            }
            ring = next_ring;
        }
        found
    }

    /// The fewest steps over map hexes, terrain ignored.
    pub fn distance(&self, from: usize, to: usize) -> Option<usize> {
        self.distances(from)[to]
    }
}
