//! What a doomed group was sent: a part route, or something that is wrong in one way or another.

use crate::rules::board::position::*;
use crate::rules::board::zones::enemy_zones;
use crate::rules::calls::part_routes::{part_routes, runs};
use crate::rules::calls::vacant_routes::longer_by_one;

#[derive(Clone, Copy, Debug, PartialEq, Eq)]
pub enum Sent {
    /// One of the longest runs; they have so many steps, and there may be several.
    Right { steps: usize, several: bool },
    /// A run, but shorter than the longest.
    TooShort { by: usize },
    /// Every step keeps a legal route's rules, but some lead no further off.
    Curls { longer: bool },
    /// A part route of a step or two with something behind it.
    TooLong,
    /// Steps where none can be made.
    NoStep,
    /// Pushes, though the part route is right.
    PushesBeside,
    /// Anything else, pushes beside a wrong route too.
    NotLegal,
}

impl Sent {
    pub fn name(self) -> String {
        match self {
            Sent::Right { steps: 0, .. } => "destroyed, no step can be made".to_string(),
            Sent::Right { steps, several: false } => format!("destroyed, longest run {steps}, the only one"),
            Sent::Right { steps, several: true } => format!("destroyed, longest run {steps}, one of several"),
            Sent::TooShort { by } => format!("doomed, refused 14, too short by {by}"),
            Sent::Curls { longer: false } => "doomed, refused 14, curls, no longer than the longest run".to_string(),
            Sent::Curls { longer: true } => "doomed, refused 14, curls, longer than the longest run".to_string(),
            Sent::TooLong => "doomed, refused 14, too long: a part route and more".to_string(),
            Sent::NoStep => "doomed, refused 14, too long: no step can be made".to_string(),
            Sent::PushesBeside => "doomed, refused 14, pushes beside a right part route".to_string(),
            Sent::NotLegal => "doomed, refused 14, otherwise not legal".to_string(),
        }
    }
}

/// What route and pushes are for a doomed group in which others than supply units owe.
pub fn sent(position: &Position, start: usize, group: &[usize], route: &[usize], pushes: &[usize]) -> Sent {
    let right = part_routes(position, start, group);
    let steps = right[0].len();
    if right.iter().any(|one| one == route) {
        return if pushes.is_empty() { Sent::Right { steps, several: right.len() > 1 } } else { Sent::PushesBeside };
    }
    if !pushes.is_empty() {
        Sent::NotLegal
    } else if steps == 0 {
        Sent::NoStep
    } else if runs(position, start, group).iter().any(|one| one == route) {
        Sent::TooShort { by: steps - route.len() }
    } else if is_walk(position, start, group, route) {
        Sent::Curls { longer: route.len() > steps }
    } else if right.iter().any(|one| route.starts_with(one)) {
        Sent::TooLong
    } else {
        Sent::NotLegal
    }
}

/// Does every step keep a legal route's rules, distance apart?
fn is_walk(position: &Position, start: usize, group: &[usize], route: &[usize]) -> bool {
    let zones = enemy_zones(position, position.units[group[0]].force());
    let steps = |made: usize| longer_by_one(position, start, &zones, &route[..made]);
    (0..route.len()).all(|made| steps(made).iter().any(|longer| longer == &route[..=made]))
}
