//! Pushing friends out of the road (13.6): with no vacant route a group goes through hexes held by its own force.
//! Every series of pushes is tried on copies of the board, and each step's chain is done before the next step looks.

use super::stages;
use crate::rules::board::grid::DIRECTIONS;
use crate::rules::board::position::*;
use crate::rules::board::unit_type::SUPPLY_UNIT;
use crate::rules::board::zones::enemy_zones;

/// A chain pushes at most three stacks.
const MOST_STACKS: usize = 3;

/// One step: the hex that the group enters, and the hexes that pushed stacks go to, none if it was vacant.
#[derive(Clone, Debug, PartialEq, Eq)]
pub struct Step {
    pub to: usize,
    pub pushes: Vec<usize>,
}

/// A group on its way: the board as the steps so far have left it.
#[derive(Clone, Debug)]
pub struct Way {
    board: Position,
    group: Vec<usize>,
    zones: Vec<bool>,
    distances: Vec<Option<usize>>,
    most_stacks: usize,
    here: usize,
    made: usize,
}

impl Way {
    /// The group before its first step.
    pub fn from(position: &Position, start: usize, group: &[usize]) -> Way {
        Way {
            board: position.clone(),
            group: group.to_vec(),
            zones: enemy_zones(position, position.units[group[0]].force()),
            distances: position.grid().distances(start),
            most_stacks: MOST_STACKS,
            here: start,
            made: 0,
        }
    }

    /// The same way under another limit, to see what the limit decides.
    pub fn with_chains_of(self, most_stacks: usize) -> Way {
        Way { most_stacks, ..self }
    }

    /// The board as it is now.
    pub fn board(&self) -> &Position {
        &self.board
    }

    /// Has the group made as many steps as it owes?
    pub fn is_done(&self) -> bool {
        self.made == usize::from(self.board.desk.owed_retreat)
    }

    /// Does some series of steps lead the group as far as it owes?
    pub fn some_series(&self) -> bool {
        self.is_done() || self.steps().iter().any(|step| self.after(step).some_series())
    }

    /// The steps that an order names, its pushes read along its route; none if they are not legal.
    pub fn named(&self, route: &[usize], pushes: &[usize]) -> Option<Vec<Step>> {
        let Some((&to, further)) = route.split_first() else {
            return (self.is_done() && pushes.is_empty()).then(Vec::new);
        };
        let step = self.steps().into_iter().find(|step| step.to == to && pushes.starts_with(&step.pushes))?;
        let rest = self.after(&step).named(further, &pushes[step.pushes.len()..])?;
        Some([vec![step], rest].concat())
    }

    /// The board after these steps.
    pub fn carried_out(&self, steps: &[Step]) -> Position {
        steps.iter().fold(self.clone(), |way, step| way.after(step)).board
    }

    /// Every step that the group can make now, with every chain of pushes that makes room for it.
    pub fn steps(&self) -> Vec<Step> {
        let mut steps = Vec::new();
        for to in self.bearing_beside(self.here) {
            if self.distances[to] != Some(self.made + 1) {
                continue;
            }
            if self.board.is_vacant(to) {
                steps.push(Step { to, pushes: Vec::new() });
            } else {
                let chains = self.chains(&[self.here, to]);
                steps.extend(chains.into_iter().map(|chain| Step { to, pushes: chain[2..].to_vec() }));
            }
        }
        steps
    }

    /// Every whole chain that begins so; the stack on its last hex has to go.
    fn chains(&self, chain: &[usize]) -> Vec<Vec<usize>> {
        let (stacks, last) = (chain.len() - 1, chain[chain.len() - 1]);
        if stacks > self.most_stacks || !self.can_be_pushed(last) {
            return Vec::new();
        }
        let beside = self.bearing_beside(last);
        let longer_by = |hex: usize| [chain, &[hex]].concat();
        let vacant: Vec<usize> = beside.iter().copied().filter(|&hex| self.board.is_vacant(hex)).collect();
        if !vacant.is_empty() {
            return vacant.into_iter().map(longer_by).collect();
        }
        let unused = beside.into_iter().filter(|hex| !chain.contains(hex));
        unused.flat_map(|hex| self.chains(&longer_by(hex))).collect()
    }

    /// The hexes beside one that a step may enter: over an unblocked side, bearing, outside Enemy zones.
    fn bearing_beside(&self, hex: usize) -> Vec<usize> {
        let mut beside = Vec::new();
        for direction in DIRECTIONS {
            let Some(near) = self.board.grid().neighbour(hex, direction) else { continue };
            let unblocked = self.board.side(hex, direction) != BLOCKED;
            if unblocked && self.board.bears_units(near) && !self.zones[near] {
                beside.push(near);
            }
        }
        beside
    }

    /// A stack of the group's own force without a supply unit and without a unit that owes.
    fn can_be_pushed(&self, hex: usize) -> bool {
        let force = self.board.units[self.group[0]].force();
        let free = |unit: &Unit| unit.force() == force && unit.kind != SUPPLY_UNIT && unit.role != OWES;
        self.board.units_on(hex).into_iter().all(|unit| free(&self.board.units[unit]))
    }

    /// The way after a step: the pushed stacks have moved, the last one first, and then the group.
    pub fn after(&self, step: &Step) -> Way {
        let mut way = self.clone();
        let stacks = [&[step.to], step.pushes.as_slice()].concat();
        for pair in stacks.windows(2).rev() {
            for unit in way.board.units_on(pair[0]) {
                way.board.units[unit].hex = pair[1] as u16;
            }
        }
        way.enter(step.to);
        way
    }

    /// The group enters a hex; its supply units are destroyed as it leaves.
    fn enter(&mut self, to: usize) {
        for &number in &self.group {
            let unit = &mut self.board.units[number];
            if unit.kind == SUPPLY_UNIT {
                stages::destroy(unit);
            } else {
                unit.hex = to as u16;
            }
        }
        self.here = to;
        self.made += 1;
    }
}
