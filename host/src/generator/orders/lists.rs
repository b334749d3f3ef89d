//! The two lists of a retreat, its route and its pushes, as hexes.

use crate::rules::calls::pushes::Step;
use crate::rules::order::Order;

/// Route and pushes.
pub type Lists = (Vec<usize>, Vec<usize>);

/// The retreat from a hex with these lists.
pub fn order(start: usize, (route, pushes): Lists) -> Order {
    let numbers = |hexes: Vec<usize>| hexes.into_iter().map(|hex| hex as u16).collect();
    Order::Retreat { hex: start as u16, route: numbers(route), pushes: numbers(pushes) }
}

/// The lists that name a series of steps.
pub fn lists_of(series: &[Step]) -> Lists {
    let route = series.iter().map(|step| step.to).collect();
    (route, series.iter().flat_map(|step| step.pushes.clone()).collect())
}
