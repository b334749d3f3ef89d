//! The cases that are measured: each call on each ground, retreats among friends, and each call with two players.

use crate::scenes::{Ground, Scene, TINY};
use crate::stagings::{self, Staged};
use host::rules::board::contents::written;
use host::rules::board::position::{COMBAT, LAND_MOVEMENT, MECHANISED};
use host::rules::order::{Answer, Order};
use host::rules::referee::rule;

pub struct Case {
    pub call: &'static str,
    pub ground: &'static str,
    pub hexes: usize,
    pub units: usize,
    pub position: Vec<u8>,
    pub order: Order,
}

/// Width and height, and how many units.
pub const SIZES: [(u8, usize); 3] = [(16, 25), (32, 100), (64, 400)];

/// A call's name, and how it is staged.
type Call = (&'static str, fn(&Scene) -> Staged);

const CALLS: [Call; 10] = [
    ("supply", stagings::supply),
    ("move of 30 steps", stagings::march),
    ("end of a phase into combat", |scene| stagings::end(scene, LAND_MOVEMENT)),
    ("end of a phase, US and Canada judged", |scene| stagings::end(scene, COMBAT)),
    ("end of a phase, next force", |scene| stagings::end(scene, MECHANISED)),
    ("attack on 3, three nationalities", stagings::attack),
    ("retreat, none in a whole search", stagings::retreat),
    ("losses of 18", stagings::losses),
    ("advance along the sixth road", stagings::advance),
    ("close", stagings::close),
];

/// Retreats of a group with friends all round it.
const AMONG_FRIENDS: [Call; 3] = [
    ("retreat, one push", stagings::one_push),
    ("retreat, the push is not sent", stagings::none_sent),
    ("retreat, trapped", stagings::trapped),
];

/// The invaders have one player, the US and Canada the other.
const TWO_PLAYERS: [u8; 4] = [0, 0, 0, 3];

fn case((call, staging): &Call, scene: &Scene) -> Case {
    let (position, order) = staging(scene);
    Case {
        call,
        ground: scene.ground.name(),
        hexes: position.map.hexes.len(),
        units: position.units.len(),
        position: written(&position),
        order,
    }
}

/// Every call on an open map, a front and a maze of this side with this many units.
pub fn cases(side: u8, count: usize) -> Vec<Case> {
    let scenes = [Ground::Open, Ground::Front, Ground::Maze].map(|ground| ground.scene(side, count));
    CALLS.iter().flat_map(|call| scenes.iter().map(move |scene| case(call, scene))).collect()
}

/// Every call on the tiny map.
pub fn tiny() -> Vec<Case> {
    let (side, count) = TINY;
    let scene = Ground::Tiny.scene(side, count);
    CALLS.iter().map(|call| case(call, &scene)).collect()
}

/// The retreats among friends, on the largest open map.
pub fn among_friends() -> Vec<Case> {
    let (side, count) = SIZES[2];
    let scene = Ground::Open.scene(side, count);
    AMONG_FRIENDS.iter().map(|call| case(call, &scene)).collect()
}

/// Every call on the largest front, where the desk names two players.
pub fn two_players() -> Vec<Case> {
    let (side, count) = SIZES[2];
    let mut scene = Ground::Front.scene(side, count);
    scene.land.desk.players = Some(TWO_PLAYERS);
    CALLS.iter().map(|call| case(call, &scene)).collect()
}

impl Case {
    /// What the second referee answers.
    pub fn answer(&self) -> Answer {
        rule(&mut self.position.clone(), &self.order, &mut self.lent())
    }

    /// The number of its refusal, 0 where it accepts.
    pub fn refusal(&self) -> u64 {
        match self.answer() {
            Answer::Refused(refusal) => refusal.number.into(),
            _ => 0,
        }
    }

    /// The buffer or scratch that the call borrows.
    pub fn lent(&self) -> Vec<u8> {
        vec![0xa5; if self.order.call().borrows() { self.hexes } else { 0 }]
    }
}

#[cfg(test)]
mod tests {
    use super::*;
    use host::rules::board::position::NONE;
    use host::rules::refusal::{Refusal, NO_WAY, PUSHES_NOT_LEGAL};

    fn all() -> Vec<Case> {
        SIZES.into_iter().flat_map(|(side, count)| cases(side, count)).chain(tiny()).collect()
    }

    #[test]
    fn every_case_is_accepted() {
        for case in all().into_iter().chain(two_players()) {
            assert!(!matches!(case.answer(), Answer::Refused(_)), "{}, {}", case.call, case.ground);
        }
    }

    #[test]
    fn a_map_holds_as_many_units_as_asked_for() {
        for (side, count) in SIZES {
            assert!(cases(side, count).iter().all(|case| case.units == count));
        }
        assert!(among_friends().into_iter().chain(two_players()).all(|case| case.units == SIZES[2].1));
    }

    #[test]
    fn eighteen_attack_and_in_the_maze_six() {
        for case in all() {
            if let Order::Attack { list, .. } = &case.order {
                assert_eq!(list.len(), if case.ground == "maze of one lane" { 6 } else { 18 });
            }
        }
    }

    #[test]
    fn no_retreat_finds_a_route() {
        let retreats = all().into_iter().filter(|case| matches!(case.order, Order::Retreat { .. }));
        assert!(retreats.map(|case| case.answer()).all(|answer| answer == Answer::Destroyed));
    }

    #[test]
    fn retreats_among_friends_are_ruled_on_as_named() {
        let [one, unsent, trapped] = among_friends().try_into().map_err(|_| "three retreats").unwrap();
        assert!(matches!(one.answer(), Answer::Retreated { .. }));
        assert!(matches!(one.order, Order::Retreat { pushes, .. } if pushes.len() == 1));
        assert_eq!(unsent.answer(), Answer::Refused(Refusal { number: PUSHES_NOT_LEGAL, place: 0 }));
        assert_eq!(trapped.answer(), Answer::Destroyed);
    }

    /// The sixth road stands at the end of the position: without it no road serves.
    #[test]
    fn the_sixth_road_alone_serves() {
        for mut case in all() {
            if matches!(case.order, Order::Advance { .. }) {
                let sixth = case.position.len() - 8;
                case.position.truncate(sixth);
                case.position.extend([NONE; 4].map(u16::to_le_bytes).concat());
                assert_eq!(case.answer(), Answer::Refused(Refusal { number: NO_WAY, place: 0 }));
            }
        }
    }
}
