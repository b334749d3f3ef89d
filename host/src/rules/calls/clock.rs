//! The clock of turn, force and phase, moved on in this one place.

#[derive(Clone, Copy, Debug, PartialEq, Eq)]
pub struct Clock {
    pub turn: u8,
    pub force: u8,
    pub phase: u8,
}

impl Clock {
    /// Is this the last phase of a turn?
    pub fn ends_turn(self) -> bool {
        self.force == 3 && self.phase == 2
    }

    /// Phases 0, 1, 2, then the next force, and after force 3 the next turn.
    pub fn moved_on(self) -> Clock {
        let Clock { turn, force, phase } = self;
        if phase < 2 {
            Clock { turn, force, phase: phase + 1 }
        } else if force < 3 {
            Clock { turn, force: force + 1, phase: 0 }
        } else {
            Clock { turn: turn + 1, force: 0, phase: 0 }
        }
    }
}
