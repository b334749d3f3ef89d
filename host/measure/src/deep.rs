//! The calls whose stack is measured: every case, and every order on a desk with six roads, which the check follows.

use crate::cases::{among_friends, cases, tiny, two_players, Case, SIZES};
use crate::crowds::crowds;
use host::rules::order::{Call, Order};
use std::fmt::Write;

/// Every order of the largest maps where six roads are on the desk. Most are refused, but only after the check.
fn on_roads() -> Vec<Case> {
    let (side, count) = SIZES[2];
    let all = cases(side, count);
    let on = |road: &Case, case: &Case| Case { position: road.position.clone(), order: case.order.clone(), ..*case };
    let mut made = Vec::new();
    for road in all.iter().filter(|case| case.order.call() == Call::Advance) {
        made.extend(all.iter().filter(|case| case.ground == road.ground).map(|case| on(road, case)));
    }
    made
}

/// All of them.
pub fn deep() -> Vec<Case> {
    let sizes = SIZES.into_iter().flat_map(|(side, count)| cases(side, count));
    let others = [tiny(), two_players(), among_friends(), crowds(), on_roads()];
    sizes.chain(others.into_iter().flatten()).collect()
}

/// A buffer's bytes as an argument.
fn bytes(buffer: &[u8]) -> String {
    buffer.iter().fold("x".to_string(), |mut text, byte| {
        write!(text, "{byte:02x}").expect("a string takes all");
        text
    })
}

/// A slice's two arguments: its bytes, and how many elements it has.
fn slice(elements: usize, buffer: &[u8]) -> [String; 2] {
    [bytes(buffer), elements.to_string()]
}

fn list(numbers: &[u16]) -> [String; 2] {
    slice(numbers.len(), &numbers.iter().flat_map(|number| number.to_le_bytes()).collect::<Vec<_>>())
}

/// The arguments of a call in C's order, as `include/referee.h` has them.
fn arguments(case: &Case) -> Vec<String> {
    let position = slice(case.position.len(), &case.position);
    let lent = slice(case.lent().len(), &case.lent());
    let number = |number: &u16| [number.to_string()];
    match &case.order {
        Order::Supply { nationality } => [&position[..], &number(nationality), &lent].concat(),
        Order::Move { unit, path } => [&position[..], &number(unit), &list(path)].concat(),
        Order::End => [position, lent].concat(),
        Order::Attack { target, die, list: units } => {
            [&position[..], &number(target), &list(units), &number(die), &lent].concat()
        }
        Order::Retreat { hex, route, pushes } => [&position[..], &number(hex), &list(route), &list(pushes)].concat(),
        Order::Losses { list: units } => [position, list(units)].concat(),
        Order::Advance { unit, hex } => [&position[..], &number(unit), &number(hex)].concat(),
        Order::Close => position.to_vec(),
    }
}

/// The line that tells `calls.c` to make the call.
pub fn line(case: &Case) -> String {
    format!("{} {}", case.order.call().name(), arguments(case).join(" "))
}

#[cfg(test)]
mod tests {
    use super::*;
    use host::rules::order::{Answer, CALLS};
    use host::rules::referee::rule;
    use host::rules::refusal::BROKEN_POSITION;

    #[test]
    fn no_position_is_broken_and_every_call_is_made_on_roads() {
        for case in deep() {
            let answer = rule(&mut case.position.clone(), &case.order, &mut case.lent());
            assert!(!matches!(answer, Answer::Refused(refusal) if refusal.number == BROKEN_POSITION), "{}", case.call);
        }
        assert!(CALLS.iter().all(|call| on_roads().iter().any(|case| case.order.call() == *call)));
    }

    #[test]
    fn a_line_has_the_arguments_in_their_order() {
        let order = Order::Retreat { hex: 7, route: vec![258], pushes: vec![] };
        let case = Case { call: "", ground: "", hexes: 1, units: 0, position: vec![0, 255], order };
        assert_eq!(line(&case), "retreat x00ff 2 7 x0201 1 x 0");
    }
}
