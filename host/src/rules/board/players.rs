//! Players: forces of different players are Enemy; forces of one player are neutral, neither Friendly nor Enemy.

use super::position::{Desk, Position};

impl Desk {
    /// The player of a force; on a desk of the old length each force has its own.
    pub fn player_of(&self, force: u8) -> u8 {
        self.players.map_or(force, |players| players[usize::from(force)])
    }

    pub fn enemy(&self, one: u8, other: u8) -> bool {
        self.player_of(one) != self.player_of(other)
    }

    /// Another force of the same player.
    pub fn neutral(&self, one: u8, other: u8) -> bool {
        one != other && !self.enemy(one, other)
    }

    /// The forces neutral to this one.
    pub fn neutrals_of(&self, force: u8) -> Vec<u8> {
        (0..4).filter(|&other| self.neutral(force, other)).collect()
    }

    /// Have two forces the same player?
    pub fn shares_players(&self) -> bool {
        (0..4).any(|force| !self.neutrals_of(force).is_empty())
    }
}

impl Position {
    /// Does an Enemy of the force stand there?
    pub fn enemy_on(&self, hex: usize, force: u8) -> bool {
        self.units_on(hex).into_iter().any(|unit| self.desk.enemy(self.units[unit].force(), force))
    }

    /// Does a force neutral to this one stand there?
    pub fn neutral_on(&self, hex: usize, force: u8) -> bool {
        self.units_on(hex).into_iter().any(|unit| self.desk.neutral(self.units[unit].force(), force))
    }
}
