//! The eight calls as orders, and what the referee answers.

use super::refusal::Refusal;

#[derive(Clone, Copy, Debug, PartialEq, Eq, PartialOrd, Ord)]
pub enum Call {
    Supply,
    Move,
    End,
    Attack,
    Retreat,
    Losses,
    Advance,
    Close,
}

pub const CALLS: [Call; 8] =
    [Call::Supply, Call::Move, Call::End, Call::Attack, Call::Retreat, Call::Losses, Call::Advance, Call::Close];

impl Call {
    pub fn name(self) -> &'static str {
        match self {
            Call::Supply => "supply",
            Call::Move => "move",
            Call::End => "end",
            Call::Attack => "attack",
            Call::Retreat => "retreat",
            Call::Losses => "losses",
            Call::Advance => "advance",
            Call::Close => "close",
        }
    }

    pub fn named(name: &[u8]) -> Option<Call> {
        CALLS.into_iter().find(|call| call.name().as_bytes() == name)
    }

    /// Supply borrows a buffer, attack and end phase borrow a scratch.
    pub fn borrows(self) -> bool {
        matches!(self, Call::Supply | Call::Attack | Call::End)
    }
}

/// Read a comma-separated list of calls, as options give it.
pub fn call_list(list: &str) -> Option<Vec<Call>> {
    list.split(',').map(|name| Call::named(name.as_bytes())).collect()
}

#[derive(Clone, Debug, PartialEq, Eq)]
pub enum Order {
    Supply { nationality: u16 },
    Move { unit: u16, path: Vec<u16> },
    End,
    Attack { target: u16, die: u16, list: Vec<u16> },
    Retreat { hex: u16, route: Vec<u16>, pushes: Vec<u16> },
    Losses { list: Vec<u16> },
    Advance { unit: u16, hex: u16 },
    Close,
}

impl Order {
    pub fn call(&self) -> Call {
        match self {
            Order::Supply { .. } => Call::Supply,
            Order::Move { .. } => Call::Move,
            Order::End => Call::End,
            Order::Attack { .. } => Call::Attack,
            Order::Retreat { .. } => Call::Retreat,
            Order::Losses { .. } => Call::Losses,
            Order::Advance { .. } => Call::Advance,
            Order::Close => Call::Close,
        }
    }

    /// The order's numbers in the order the record writes them, but for a second list.
    pub fn numbers(&self) -> Vec<u16> {
        match self {
            Order::Supply { nationality } => vec![*nationality],
            Order::Move { unit, path } => [&[*unit], path.as_slice()].concat(),
            Order::Attack { target, die, list } => [&[*target, *die], list.as_slice()].concat(),
            Order::Retreat { hex, route, .. } => [&[*hex], route.as_slice()].concat(),
            Order::Losses { list } => list.clone(),
            Order::Advance { unit, hex } => vec![*unit, *hex],
            Order::End | Order::Close => Vec::new(),
        }
    }

    /// The second list, which stands behind a slash; only a retreat has one.
    pub fn second_list(&self) -> &[u16] {
        match self {
            Order::Retreat { pushes, .. } => pushes,
            _ => &[],
        }
    }

    /// The order for a call with these lists, parted by slashes; none if they do not fit.
    pub fn from_lists(call: Call, lists: &[Vec<u16>]) -> Option<Order> {
        match (call, lists) {
            (_, [numbers]) => Order::from_numbers(call, numbers),
            (Call::Retreat, [numbers, pushes]) => {
                let (hex, route) = numbers.split_first()?;
                Some(Order::Retreat { hex: *hex, route: route.to_vec(), pushes: pushes.clone() })
            }
            _ => None,
        }
    }

    /// The order for a call with these numbers and no second list; none if their count does not fit.
    fn from_numbers(call: Call, numbers: &[u16]) -> Option<Order> {
        match (call, numbers) {
            (Call::Supply, &[nationality]) => Some(Order::Supply { nationality }),
            (Call::Move, [unit, path @ ..]) => Some(Order::Move { unit: *unit, path: path.to_vec() }),
            (Call::End, []) => Some(Order::End),
            (Call::Attack, [target, die, list @ ..]) => {
                Some(Order::Attack { target: *target, die: *die, list: list.to_vec() })
            }
            (Call::Retreat, [hex, route @ ..]) => {
                Some(Order::Retreat { hex: *hex, route: route.to_vec(), pushes: Vec::new() })
            }
            (Call::Losses, list) => Some(Order::Losses { list: list.to_vec() }),
            (Call::Advance, &[unit, hex]) => Some(Order::Advance { unit, hex }),
            (Call::Close, []) => Some(Order::Close),
            _ => None,
        }
    }
}

/// What a call answers.
#[derive(Clone, Copy, Debug, PartialEq, Eq)]
pub enum Answer {
    Accepted,
    Fought { column: usize, code: u8 },
    Retreated { end: usize },
    Destroyed,
    Refused(Refusal),
}

impl Answer {
    /// The answer as the record writes it.
    pub fn text(&self) -> String {
        match self {
            Answer::Accepted => "ok".to_string(),
            Answer::Fought { column, code } => format!("fought {column} {code}"),
            Answer::Retreated { end } => format!("retreated {end}"),
            Answer::Destroyed => "destroyed".to_string(),
            Answer::Refused(refusal) => format!("no {} {}", refusal.number, refusal.place),
        }
    }
}
