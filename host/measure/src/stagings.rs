//! Each call staged on a scene: a position, and an order that is given there.

use crate::scenes::{infantry, Scene, CANADA, PAL, US};
use host::rules::board::position::{
    Desk, Position, Route, Unit, ADVANCES, COMBAT, LOSSES, MAY_ADVANCE, OWES, RETREATS, SUPPLIED, TRIED,
};
use host::rules::board::unit_type::SUPPLY_UNIT;
use host::rules::calls::owing::owing_group;
use host::rules::calls::part_routes::part_routes;
use host::rules::calls::pushes::{Step, Way};
use host::rules::order::Order;

const ARMOUR: u8 = 0;

pub type Staged = (Position, Order);

/// The hexes next to this one over an unblocked side, clockwise.
fn beside(land: &Position, hex: usize) -> Vec<usize> {
    land.grid().neighbours(hex).into_iter().flatten().filter(|&near| land.joined(hex, near)).collect()
}

fn in_role(unit: Unit, role: u8) -> Unit {
    Unit { marks: TRIED, role, ..unit }
}

/// The supply of the US.
pub fn supply(scene: &Scene) -> Staged {
    (scene.whole(), Order::Supply { nationality: u16::from(US) })
}

/// An armour with 30 to spend goes to and fro between the corner and the hex beside it.
pub fn march(scene: &Scene) -> Staged {
    let mut position = scene.whole();
    position.units[0] = Unit { marks: SUPPLIED, ..Unit::new(US, ARMOUR, 0, 5, 30) };
    let next = beside(&position, 0)[0] as u16;
    (position, Order::Move { unit: 0, path: [next, 0].repeat(15) })
}

/// This phase of the US and Canada ends.
pub fn end(scene: &Scene, phase: u8) -> Staged {
    let mut position = scene.whole();
    position.desk.phase = phase;
    (position, Order::End)
}

/// Three of the US or of Canada on each hex from which the middle can be attacked.
fn besiegers(scene: &Scene) -> Vec<Unit> {
    let around = beside(&scene.land, scene.middle()).into_iter().enumerate();
    around.flat_map(|(i, hex)| [infantry([US, CANADA][i % 2], hex); 3]).collect()
}

/// All round the middle attack three of the P.A.L. there.
pub fn attack(scene: &Scene) -> Staged {
    let attackers = besiegers(scene);
    let order = Order::Attack { target: scene.middle() as u16, die: 1, list: (0..attackers.len() as u16).collect() };
    let mut position = scene.staged([attackers, vec![infantry(PAL, scene.middle()); 3]].concat());
    position.desk.phase = COMBAT;
    (position, order)
}

/// Three in the middle owe three hexes, and these others stand near.
fn beaten(scene: &Scene, others: Vec<Unit>) -> Position {
    let group = vec![in_role(infantry(PAL, scene.middle()), OWES); 3];
    let mut position = scene.staged([group, others].concat());
    position.desk = Desk { phase: COMBAT, stage: RETREATS, owed_retreat: 3, ..position.desk };
    position
}

/// The group of the first unit is destroyed at the end of its first part route.
pub fn lost(position: &Position) -> Order {
    let hex = position.units[0].hex;
    let start = usize::from(hex);
    let route = &part_routes(position, start, &owing_group(position, start))[0];
    Order::Retreat { hex, route: route.iter().map(|&hex| hex as u16).collect(), pushes: Vec::new() }
}

/// A series of steps that push so many stacks each.
fn series(way: &Way, stacks: &[usize]) -> Option<Vec<Step>> {
    let Some((&first, rest)) = stacks.split_first() else { return Some(Vec::new()) };
    let steps = way.steps().into_iter().filter(|step| step.pushes.len() == first);
    steps.into_iter().find_map(|step| Some([vec![step.clone()], series(&way.after(&step), rest)?].concat()))
}

/// The group of the first unit retreats by steps that push so many stacks each.
pub fn pushed(position: &Position, stacks: [usize; 3]) -> Order {
    let hex = position.units[0].hex;
    let start = usize::from(hex);
    let way = Way::from(position, start, &owing_group(position, start));
    let steps = series(&way, &stacks).expect("so many stacks can be pushed");
    let route = steps.iter().map(|step| step.to as u16).collect();
    let pushes = steps.iter().flat_map(|step| &step.pushes).map(|&hex| hex as u16).collect();
    Order::Retreat { hex, route, pushes }
}

/// Supply units of theirs, which cannot be pushed, hold all hexes at the distance that is owed: no route of the whole
/// search serves, and no push.
pub fn retreat(scene: &Scene) -> Staged {
    let supply_unit = |hex: usize| Unit::new(PAL, SUPPLY_UNIT, hex as u16, 5, 0);
    let position = beaten(scene, scene.hexes(|far| far == 3).into_iter().map(supply_unit).collect());
    let order = lost(&position);
    (position, order)
}

/// Three of the group's force on each hex beside it.
fn friends(scene: &Scene) -> Vec<Unit> {
    scene.hexes(|far| far == 1).into_iter().flat_map(|hex| [infantry(PAL, hex); 3]).collect()
}

/// Friends stand all round the group, and the hexes behind them are vacant: with one push it gets away.
pub fn one_push(scene: &Scene) -> Staged {
    let position = beaten(scene, friends(scene));
    let order = pushed(&position, [1, 0, 0]);
    (position, order)
}

/// The same, but the push is not sent, and the order is refused.
pub fn none_sent(scene: &Scene) -> Staged {
    let (position, mut order) = one_push(scene);
    if let Order::Retreat { pushes, .. } = &mut order {
        pushes.clear();
    }
    (position, order)
}

/// Friends stand all round the group, and Enemies at a distance of three: their zones cover every hex that a stack could
/// be pushed to.
pub fn trapped(scene: &Scene) -> Staged {
    let enemies = scene.hexes(|far| far == 3).into_iter().map(|hex| infantry(US, hex)).collect();
    let position = beaten(scene, [friends(scene), enemies].concat());
    let order = lost(&position);
    (position, order)
}

/// Eighteen units owe the losses of an exchange and are all named.
pub fn losses(scene: &Scene) -> Staged {
    let mut position = scene.staged(besiegers(scene));
    for unit in &mut position.units[..18] {
        *unit = in_role(*unit, OWES);
    }
    position.desk = Desk { phase: COMBAT, stage: LOSSES, need: 90, ..position.desk };
    (position, Order::Losses { list: (0..18).collect() })
}

/// Five hexes on end that begin with these two: each next one is the first, clockwise, that is not yet among them.
fn lane(land: &Position, first: usize, second: usize) -> [u16; 5] {
    let mut hexes = vec![first, second];
    while hexes.len() < 5 {
        let near = beside(land, hexes[hexes.len() - 1]);
        hexes.push(near.into_iter().find(|hex| !hexes.contains(hex)).expect("no lane ends near the middle"));
    }
    std::array::from_fn(|i| hexes[i] as u16)
}

/// Six roads start in the middle. Five lead back over the hex of those that may advance, the sixth leads on.
pub fn advance(scene: &Scene) -> Staged {
    let middle = scene.middle();
    let home = *beside(&scene.land, middle).last().expect("the middle has neighbours");
    let [back @ .., _] = lane(&scene.land, middle, home);
    let [_, on @ ..] = lane(&scene.land, home, middle);
    let routes: [Route; 6] = [back, back, back, back, back, on];
    let mut position = scene.staged(vec![in_role(infantry(US, home), MAY_ADVANCE); 3]);
    position.desk = Desk { phase: COMBAT, stage: ADVANCES, routes, ..position.desk };
    (position, Order::Advance { unit: 0, hex: on[3] })
}

/// The advances are over before any is made.
pub fn close(scene: &Scene) -> Staged {
    let (position, _) = advance(scene);
    (position, Order::Close)
}
