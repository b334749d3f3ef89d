//! The referee over bytes: each call looks at the position first, and a refused call leaves it as it was.

use super::board::acceptance::accepted;
use super::board::contents::written;
use super::board::position::Position;
use super::calls::attack::{attack, Fought};
use super::calls::retreat::{retreat, Retreated};
use super::calls::{advance, close, end_phase, losses, movement, supply};
use super::order::{Answer, Order};
use super::refusal::{Refusal, BROKEN_POSITION};

/// Rule on an order; `lent` is the buffer or scratch, empty for calls that borrow none.
pub fn rule(bytes: &mut Vec<u8>, order: &Order, lent: &mut [u8]) -> Answer {
    let Ok(mut position) = accepted(bytes) else {
        return Answer::Refused(Refusal { number: BROKEN_POSITION, place: 0 });
    };
    match carried_out(&mut position, order, lent) {
        Ok(answer) => {
            *bytes = written(&position);
            answer
        }
        Err(refusal) => Answer::Refused(refusal),
    }
}

/// Carry the order out on an accepted position.
pub fn carried_out(position: &mut Position, order: &Order, lent: &mut [u8]) -> Result<Answer, Refusal> {
    match order {
        Order::Supply { nationality } => supply::supply(position, *nationality, lent)?,
        Order::Move { unit, path } => movement::move_unit(position, *unit, path)?,
        Order::End => end_phase::end_phase(position, lent)?,
        Order::Attack { target, die, list } => {
            let Fought { column, code } = attack(position, *target, *die, list, lent)?;
            return Ok(Answer::Fought { column, code });
        }
        Order::Retreat { hex, route, pushes } => {
            return Ok(match retreat(position, *hex, route, pushes)? {
                Retreated::To(end) => Answer::Retreated { end },
                Retreated::Destroyed => Answer::Destroyed,
            })
        }
        Order::Losses { list } => losses::losses(position, list)?,
        Order::Advance { unit, hex } => advance::advance(position, *unit, *hex)?,
        Order::Close => close::close(position)?,
    }
    Ok(Answer::Accepted)
}
