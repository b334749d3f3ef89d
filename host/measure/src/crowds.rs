//! Retreats out of a crowd: 400 units of one force on the largest map, packed round a group of three that owes three
//! hexes, and nowhere a vacant route.

use crate::cases::{Case, SIZES};
use crate::scenes::{infantry, Ground, Scene, PAL};
use crate::stagings::{lost, pushed};
use host::rules::board::contents::written;
use host::rules::board::position::{Desk, Position, Unit, ALL_SEA, COMBAT, OWES, RETREATS, TRIED};
use host::rules::board::unit_type::SUPPLY_UNIT;
use host::rules::order::Order;

/// Who holds the hexes up to six from the middle, row by row: 0 nobody, 1 a stack of three, 2 a supply unit, which
/// cannot be pushed; 3 is sea. Found by changing a few hexes at a time and keeping what took the search longer.
const NONE_SERVES: &str = "\
    221211112221111121122111112021111011112111111111112011121111211\
    200111111211112002111221111121211111111111111122211111121212122";

/// The same where three stacks are pushed at each of the three steps.
const THREE_EACH: &str = "\
    111111111111111111111101111111111111111111111111111111111111111\
    111111111111111111111111101111111111111111110111111111111111111";

/// The group in the middle, the crowd by its pattern, and what is left of the 400 in a corner.
fn packed(scene: &Scene, count: usize, pattern: &str) -> Position {
    let mut position = scene.land.clone();
    position.units = vec![Unit { marks: TRIED, role: OWES, ..infantry(PAL, scene.middle()) }; 3];
    for (hex, held) in scene.hexes(|far| (1..=6).contains(&far)).into_iter().zip(pattern.bytes()) {
        match held {
            b'1' => position.units.extend([infantry(PAL, hex); 3]),
            b'2' => position.units.push(Unit::new(PAL, SUPPLY_UNIT, hex as u16, 5, 0)),
            b'3' => position.map.hexes[hex].surface = ALL_SEA,
            _ => {}
        }
    }
    let left = count - position.units.len();
    position.units.extend((0..left).map(|i| infantry(PAL, i / 3)));
    position.desk = Desk { phase: COMBAT, stage: RETREATS, owed_retreat: 3, ..position.desk };
    position
}

fn case(call: &'static str, position: &Position, order: Order) -> Case {
    Case {
        call,
        ground: "crowd",
        hexes: position.map.hexes.len(),
        units: position.units.len(),
        position: written(position),
        order,
    }
}

/// A retreat that nothing serves, and one with three pushes a step.
pub fn crowds() -> Vec<Case> {
    let (side, count) = SIZES[2];
    let scene = Ground::Open.scene(side, count);
    let none = packed(&scene, count, NONE_SERVES);
    let some = packed(&scene, count, THREE_EACH);
    vec![
        case("retreat, no pushes serve", &none, lost(&none)),
        case("retreat, nine pushes", &some, pushed(&some, [3, 3, 3])),
    ]
}

#[cfg(test)]
mod tests {
    use super::*;
    use host::rules::order::Answer;
    use host::rules::referee::rule;

    #[test]
    fn a_crowd_has_four_hundred_and_is_ruled_on_as_named() {
        let [none, nine] = crowds().try_into().map_err(|_| "two crowds").unwrap();
        assert_eq!((none.units, nine.units), (400, 400));
        assert_eq!(rule(&mut none.position.clone(), &none.order, &mut []), Answer::Destroyed);
        assert!(matches!(rule(&mut nine.position.clone(), &nine.order, &mut []), Answer::Retreated { .. }));
        assert!(matches!(nine.order, Order::Retreat { pushes, .. } if pushes.len() == 9));
    }
}
