//! How often calls stood on which desk, 18 came at which place, and neutrals decided.

use super::player_cases::{NeutralOnPath, Ruled, DESKS};
use crate::rules::board::position::Position;
use crate::rules::order::{Call, CALLS};

/// A path's last place.
const LAST_PLACE: usize = 30;

#[derive(Clone, Debug)]
pub struct PlayerTally {
    broken: u64,
    desks: [u64; DESKS.len()],
    /// 18 by its place.
    places: [u64; LAST_PLACE + 1],
    over_allowance: u64,
    enemy_further_on: u64,
    /// By call: another answer, only other bytes; if neutrals were Enemy, and if they were away.
    if_enemy: [[u64; 2]; CALLS.len()],
    if_away: [[u64; 2]; CALLS.len()],
}

impl Default for PlayerTally {
    fn default() -> PlayerTally {
        PlayerTally {
            broken: 0,
            desks: [0; DESKS.len()],
            places: [0; LAST_PLACE + 1],
            over_allowance: 0,
            enemy_further_on: 0,
            if_enemy: [[0; 2]; CALLS.len()],
            if_away: [[0; 2]; CALLS.len()],
        }
    }
}

impl PlayerTally {
    /// Count a call by the position it stood on, none for a broken one.
    pub fn count_desk(&mut self, position: Option<&Position>) {
        let Some(position) = position else {
            self.broken += 1;
            return;
        };
        for (count, (_, belongs)) in self.desks.iter_mut().zip(DESKS) {
            *count += u64::from(belongs(position));
        }
    }

    /// How many calls stood on a desk of this row.
    pub fn on_desk(&self, name: &str) -> u64 {
        DESKS.iter().position(|(row, _)| *row == name).map_or(0, |row| self.desks[row])
    }

    pub fn count_neutral(&mut self, neutral: NeutralOnPath) {
        self.places[neutral.place] += 1;
        self.over_allowance += u64::from(neutral.over_allowance);
        self.enemy_further_on += u64::from(neutral.enemy_further_on);
    }

    /// How often 18 came at a place.
    pub fn at_place(&self, place: usize) -> u64 {
        self.places[place]
    }

    /// How often 18 came where the step is over the allowance too, and where an Enemy stands further on.
    pub fn with_more_due(&self) -> [u64; 2] {
        [self.over_allowance, self.enemy_further_on]
    }

    pub fn count_ruled(&mut self, call: Call, if_enemy: Ruled, if_away: Ruled) {
        for (counts, ruled) in [(&mut self.if_enemy, if_enemy), (&mut self.if_away, if_away)] {
            match ruled {
                Ruled::Alike => (),
                Ruled::OtherAnswer => counts[call as usize][0] += 1,
                Ruled::OtherBytes => counts[call as usize][1] += 1,
            }
        }
    }

    /// How often a call was ruled otherwise than if neutrals were Enemy: another answer, only other bytes.
    pub fn if_enemy(&self, call: Call) -> [u64; 2] {
        self.if_enemy[call as usize]
    }

    /// The same if neutrals were away.
    pub fn if_away(&self, call: Call) -> [u64; 2] {
        self.if_away[call as usize]
    }

    pub fn text(&self) -> String {
        [self.desks_text(), self.places_text(), self.ruled_text()].join("\n")
    }

    fn desks_text(&self) -> String {
        let mut text = format!("calls, by what they stand on\n{:>9}  a broken position\n", self.broken);
        for ((name, _), count) in DESKS.iter().zip(&self.desks) {
            text += &format!("{count:>9}  {name}\n");
        }
        text
    }

    fn places_text(&self) -> String {
        let mut text = "18, by its place\n".to_string();
        for (place, count) in self.places.iter().enumerate().filter(|(_, count)| **count > 0) {
            text += &format!("{count:>9}  place {place}\n");
        }
        text += &format!("{:>9}  the step is over the allowance, too\n", self.over_allowance);
        text + &format!("{:>9}  an Enemy stands further on\n", self.enemy_further_on)
    }

    /// A row for each call that neutrals can decide.
    fn ruled_text(&self) -> String {
        let mut text = "ruled otherwise if neutrals were Enemy, and if they were away\n".to_string();
        text += &format!("{:>9}{:>9}{:>9}{:>9}  call\n", "answer", "bytes", "answer", "bytes");
        for call in CALLS {
            let [enemy_answer, enemy_bytes] = self.if_enemy(call);
            let [away_answer, away_bytes] = self.if_away(call);
            let counts = format!("{enemy_answer:>9}{enemy_bytes:>9}{away_answer:>9}{away_bytes:>9}");
            text += &format!("{counts}  {}\n", call.name());
        }
        text
    }
}
