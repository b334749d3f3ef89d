//! On which desk a call stood, and whether neutrals decided what came of it.

use crate::record::table::Table;
use crate::rules::board::acceptance::accepted;
use crate::rules::board::contents::written;
use crate::rules::board::position::*;
use crate::rules::calls::movement::{allowance, step_cost};
use crate::rules::calls::stages::destroy;
use crate::rules::order::{Answer, Order};
use crate::rules::refusal::NEUTRAL_THERE;

/// What a row of the desks is called, and the question whether a position belongs there.
pub type DeskRow = (&'static str, fn(&Position) -> bool);

/// The accepted positions by the players that their desks name; the rows after the third part the third.
pub const DESKS: [DeskRow; 8] = [
    ("an old desk", |p| p.desk.players.is_none()),
    ("four players", |p| p.desk.players.is_some() && !p.desk.shares_players()),
    ("shared players", |p| p.desk.shares_players()),
    ("  forces 0 and 1 share", |p| neutral_pairs(&p.desk) == [(0, 1)]),
    ("  forces 0 and 2 share", |p| neutral_pairs(&p.desk) == [(0, 2)]),
    ("  forces 1 and 2 share", |p| neutral_pairs(&p.desk) == [(1, 2)]),
    ("  forces 0, 1 and 2 share", |p| neutral_pairs(&p.desk).len() == 3),
    ("  with neutrals to each other on the map", has_neutrals),
];

/// The pairs of forces neutral to each other.
pub fn neutral_pairs(desk: &Desk) -> Vec<(u8, u8)> {
    let pairs = (0..4).flat_map(|one| (one + 1..4).map(move |other| (one, other)));
    pairs.filter(|&(one, other)| desk.neutral(one, other)).collect()
}

fn has_neutrals(position: &Position) -> bool {
    let mapped = |force: u8| position.units.iter().any(|unit| unit.on_map() && unit.force() == force);
    neutral_pairs(&position.desk).into_iter().any(|(one, other)| mapped(one) && mapped(other))
}

/// How an order is ruled on a position that differs in its neutrals alone.
#[derive(Clone, Copy, Debug, PartialEq, Eq)]
pub enum Ruled {
    Alike,
    /// With another answer, place or end included.
    OtherAnswer,
    /// With the same answer, but other bytes of the position or of the buffer.
    OtherBytes,
}

/// How the order is ruled on the same position with four players, so that neutrals are Enemy.
pub fn if_enemy(table: &Table, order: &Order) -> Ruled {
    let Some(mut position) = shared(table) else { return Ruled::Alike };
    position.desk.players = Some([0, 1, 2, 3]);
    let (mut now, mut then) = (table.clone(), table.clone());
    then.position = written(&position);
    let same_answer = now.call(order) == then.call(order);
    // The players are the last four bytes.
    let players = now.position.len() - 4;
    let same_bytes = now.position[..players] == then.position[..players] && now.lent() == then.lent();
    match (same_answer, same_bytes) {
        (true, true) => Ruled::Alike,
        (true, false) => Ruled::OtherBytes,
        (false, _) => Ruled::OtherAnswer,
    }
}

/// How the order is ruled once the units neutral to its force are destroyed, where that can be; bytes are those of the
/// buffer alone.
pub fn if_away(table: &Table, order: &Order) -> Ruled {
    let Some(mut position) = shared(table) else { return Ruled::Alike };
    let Some(force) = ordering_force(&position, order) else { return Ruled::Alike };
    let neutrals = position.desk.neutrals_of(force);
    for unit in position.units.iter_mut().filter(|unit| neutrals.contains(&unit.force())) {
        destroy(unit);
    }
    let (mut now, mut then) = (table.clone(), table.clone());
    then.position = written(&position);
    if accepted(&then.position).is_err() {
        Ruled::Alike
    } else if now.call(order) != then.call(order) {
        Ruled::OtherAnswer
    } else if now.lent() != then.lent() {
        Ruled::OtherBytes
    } else {
        Ruled::Alike
    }
}

/// The accepted position on the table, if players are shared.
fn shared(table: &Table) -> Option<Position> {
    accepted(&table.position).ok().filter(|position| position.desk.shares_players())
}

/// The force that an order is for; none where it is for no one force or names nobody.
fn ordering_force(position: &Position, order: &Order) -> Option<u8> {
    let of_unit = |unit: &u16| position.units.get(usize::from(*unit)).map(Unit::force);
    let owing = || position.units_with_role(OWES).first().map(|&unit| position.units[unit].force());
    match order {
        Order::Supply { nationality } => (*nationality <= 4).then(|| force_of(*nationality as u8)),
        Order::Move { unit, .. } | Order::Advance { unit, .. } => of_unit(unit),
        Order::Attack { .. } => Some(position.desk.force),
        Order::Retreat { .. } | Order::Losses { .. } => owing(),
        Order::End | Order::Close => None,
    }
}

/// What else was due on the path of a move refused 18.
#[derive(Clone, Copy, Debug, PartialEq, Eq)]
pub struct NeutralOnPath {
    pub place: usize,
    /// The step there goes over the allowance, too.
    pub over_allowance: bool,
    /// An Enemy stands on a hex further on.
    pub enemy_further_on: bool,
}

/// The neutral that a move was refused for; none if it was not.
pub fn neutral_on_path(position: &Position, order: &Order, answer: &Answer) -> Option<NeutralOnPath> {
    let (Order::Move { unit, path }, Answer::Refused(refusal)) = (order, answer) else { return None };
    let place = Some(refusal.place).filter(|_| refusal.number == NEUTRAL_THERE)?;
    let mover = &position.units[usize::from(*unit)];
    let hexes: Vec<usize> = [mover.hex].iter().chain(path).map(|&hex| usize::from(hex)).collect();
    let spent: u32 = hexes[..=place].windows(2).map(|pair| step_cost(position, pair[0], pair[1])).sum();
    let enemy = |hex: &usize| position.enemy_on(*hex, mover.force());
    Some(NeutralOnPath {
        place,
        over_allowance: spent > allowance(mover),
        enemy_further_on: hexes[place + 1..].iter().any(enemy),
    })
}
