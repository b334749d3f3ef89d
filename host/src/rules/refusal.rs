//! A refusal: its number and the offending place, counted from 1, or 0.

#[derive(Clone, Copy, Debug, PartialEq, Eq)]
pub struct Refusal {
    pub number: u8,
    pub place: usize,
}

pub const BROKEN_POSITION: u8 = 1;
pub const WRONG_STAGE_OR_PHASE: u8 = 2;
pub const OUT_OF_RANGE: u8 = 3;
pub const NOT_THE_UNIT: u8 = 4;
pub const FORBIDDEN_BY_TYPE_OR_MARK: u8 = 5;
pub const NAMED_TWICE: u8 = 6;
pub const NO_WAY: u8 = 7;
pub const ENEMY_THERE: u8 = 8;
pub const AFTER_ENEMY_ZONE: u8 = 9;
pub const OVER_ALLOWANCE: u8 = 10;
pub const THREE_OTHERS: u8 = 11;
pub const BAD_TARGET: u8 = 12;
pub const ATTACKER_NOT_ADJACENT: u8 = 13;
pub const ROUTE_NOT_LEGAL: u8 = 14;
pub const LOSSES_SHORT: u8 = 15;
pub const LAST_PHASE: u8 = 16;
pub const PUSHES_NOT_LEGAL: u8 = 17;
pub const NEUTRAL_THERE: u8 = 18;

/// Go on if the question is answered yes; else refuse by `number` at `place`.
pub fn require(yes: bool, number: u8, place: usize) -> Result<(), Refusal> {
    if yes {
        Ok(())
    } else {
        Err(Refusal { number, place })
    }
}
