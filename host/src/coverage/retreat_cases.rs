//! Which cases a retreat was: what lay open to the group as the call began, and what came of it.

use super::part_route_cases::{sent, Sent};
use crate::rules::board::position::*;
use crate::rules::calls::owing::{only_supply_units, owing_group};
use crate::rules::calls::pushes::Way;
use crate::rules::calls::retreat::is_doomed;
use crate::rules::calls::vacant_routes::legal_routes;
use crate::rules::order::{Answer, Order};
use crate::rules::refusal::{PUSHES_NOT_LEGAL, ROUTE_NOT_LEGAL};

#[derive(Clone, Copy, Debug, PartialEq, Eq)]
pub enum Case {
    VacantRoute,
    /// 14 without pushes.
    VacantRouteRefused,
    /// 14 with pushes.
    PushesBesideVacantRoute,
    /// Only pushes serve; the longest chain pushes so many stacks.
    Pushed {
        longest: usize,
    },
    OnlyPushesRefused,
    /// Destroyed, though a chain of four stacks would serve.
    DestroyedForAFourth,
    DestroyedBesideOwnUnits,
    DestroyedAlone,
    /// Neither a vacant route nor pushes serve, and this was sent.
    Doomed(Sent),
    OnlySupplyUnits,
    /// 14, for something was sent.
    OnlySupplyUnitsRefused,
}

pub const CASES: [Case; 25] = [
    Case::VacantRoute,
    Case::VacantRouteRefused,
    Case::PushesBesideVacantRoute,
    Case::Pushed { longest: 1 },
    Case::Pushed { longest: 2 },
    Case::Pushed { longest: 3 },
    Case::OnlyPushesRefused,
    Case::DestroyedForAFourth,
    Case::DestroyedBesideOwnUnits,
    Case::DestroyedAlone,
    Case::Doomed(Sent::Right { steps: 0, several: false }),
    Case::Doomed(Sent::Right { steps: 1, several: false }),
    Case::Doomed(Sent::Right { steps: 1, several: true }),
    Case::Doomed(Sent::Right { steps: 2, several: false }),
    Case::Doomed(Sent::Right { steps: 2, several: true }),
    Case::Doomed(Sent::TooShort { by: 1 }),
    Case::Doomed(Sent::TooShort { by: 2 }),
    Case::Doomed(Sent::Curls { longer: false }),
    Case::Doomed(Sent::Curls { longer: true }),
    Case::Doomed(Sent::TooLong),
    Case::Doomed(Sent::NoStep),
    Case::Doomed(Sent::PushesBeside),
    Case::Doomed(Sent::NotLegal),
    Case::OnlySupplyUnits,
    Case::OnlySupplyUnitsRefused,
];

impl Case {
    pub fn name(self) -> String {
        match self {
            Case::VacantRoute => "a vacant route exists, taken".to_string(),
            Case::VacantRouteRefused => "a vacant route exists, refused 14".to_string(),
            Case::PushesBesideVacantRoute => "pushes sent beside a vacant route, refused 14".to_string(),
            Case::Pushed { longest } => format!("only pushes serve, accepted, longest chain {longest}"),
            Case::OnlyPushesRefused => "only pushes serve, refused 17".to_string(),
            Case::DestroyedForAFourth => "destroyed, own units beside it, a chain of 4 would serve".to_string(),
            Case::DestroyedBesideOwnUnits => "destroyed, own units beside it".to_string(),
            Case::DestroyedAlone => "destroyed, no own units beside it".to_string(),
            Case::Doomed(sent) => sent.name(),
            Case::OnlySupplyUnits => "destroyed, only supply units owe".to_string(),
            Case::OnlySupplyUnitsRefused => "only supply units owe, something sent, refused 14".to_string(),
        }
    }
}

/// The cases of an order that this position answered so; none if it was no retreat or not judged so far.
/// A destroyed group has two: who stands about it, and what it was sent.
pub fn cases_of(position: &Position, order: &Order, answer: &Answer) -> Vec<Case> {
    let Order::Retreat { hex, route, pushes } = order else { return Vec::new() };
    let hexes = |list: &[u16]| list.iter().map(|&hex| usize::from(hex)).collect::<Vec<usize>>();
    let (start, route, pushes) = (usize::from(*hex), hexes(route), hexes(pushes));
    let group = owing_group(position, start);
    match answer {
        Answer::Destroyed if only_supply_units(position, &group) => vec![Case::OnlySupplyUnits],
        Answer::Destroyed => {
            let sent = sent(position, start, &group, &route, &pushes);
            vec![who_stands_about(position, start, &group), Case::Doomed(sent)]
        }
        Answer::Retreated { .. } if !legal_routes(position, start, &group).is_empty() => vec![Case::VacantRoute],
        Answer::Retreated { .. } => longest_chain(position, start, &group, &route, &pushes).into_iter().collect(),
        Answer::Refused(refusal) if refusal.number == PUSHES_NOT_LEGAL => vec![Case::OnlyPushesRefused],
        Answer::Refused(refusal) if refusal.number == ROUTE_NOT_LEGAL => {
            vec![refused(position, start, &group, &route, &pushes)]
        }
        _ => Vec::new(),
    }
}

/// The case of a group that was refused 14.
fn refused(position: &Position, start: usize, group: &[usize], route: &[usize], pushes: &[usize]) -> Case {
    if only_supply_units(position, group) {
        Case::OnlySupplyUnitsRefused
    } else if is_doomed(position, start, group) {
        Case::Doomed(sent(position, start, group, route, pushes))
    } else if pushes.is_empty() {
        Case::VacantRouteRefused
    } else {
        Case::PushesBesideVacantRoute
    }
}

fn who_stands_about(position: &Position, start: usize, group: &[usize]) -> Case {
    if Way::from(position, start, group).with_chains_of(4).some_series() {
        Case::DestroyedForAFourth
    } else if own_units_beside(position, start) {
        Case::DestroyedBesideOwnUnits
    } else {
        Case::DestroyedAlone
    }
}

/// Does a unit of the force that owes stand beside the hex?
fn own_units_beside(position: &Position, start: usize) -> bool {
    let force = position.units[owing_group(position, start)[0]].force();
    let near = position.grid().neighbours(start).into_iter().flatten();
    near.flat_map(|hex| position.units_on(hex)).any(|unit| position.units[unit].force() == force)
}

fn longest_chain(
    position: &Position,
    start: usize,
    group: &[usize],
    route: &[usize],
    pushes: &[usize],
) -> Option<Case> {
    let steps = Way::from(position, start, group).named(route, pushes)?;
    steps.iter().map(|step| step.pushes.len()).max().map(|longest| Case::Pushed { longest })
}
