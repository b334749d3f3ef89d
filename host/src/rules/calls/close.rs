//! The close call: it ends stage 3.

use super::checks;
use super::stages;
use crate::rules::board::position::{Position, ADVANCES};
use crate::rules::refusal::Refusal;

/// All roles become 0, the stage 0, the routes are cleared.
pub fn close(position: &mut Position) -> Result<(), Refusal> {
    checks::stage(position, ADVANCES)?;
    for unit in &mut position.units {
        unit.role = 0;
    }
    stages::become_quiet(&mut position.desk);
    Ok(())
}
