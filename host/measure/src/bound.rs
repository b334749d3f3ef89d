//! The most stack that a call can use, whatever it is given: the deepest chain of calls, by the frames.

use crate::frames::Frame;
use std::collections::HashMap;

/// How often a function that calls itself is in one chain at most. Its contract says so, and the prover holds it to that.
const TURNS: [(&str, usize); 4] = [
    // `2 ≤ k` and `k + i ≤ 3`, with one step fewer at each turn
    ("search::serves", 2),
    // `2 ≤ left` and `TrailOk`, which says `left ≤ 3`, with one stack fewer at each turn
    ("plot::chain::can_end", 2),
    ("plot::chain::gather", 2),
    // `1 ≤ left`, and the same
    ("follow::take", 3),
];

/// The C library's functions, and what each is counted with: a return address and 256 bytes of its own. glibc's use none.
const OUTSIDE: [&str; 2] = ["memcpy", "memset"];
const OUTSIDE_BYTES: usize = 8 + 256;

/// A function of a chain and the bytes that it uses until it calls the next; of the last all that it uses.
pub type Link = (String, usize);

pub fn bytes(chain: &[Link]) -> usize {
    chain.iter().map(|(_, bytes)| bytes).sum()
}

/// The deepest chain from a function on, where these functions are on the stack already.
fn deepest(frames: &HashMap<String, Frame>, name: &str, above: &mut Vec<String>) -> Result<Vec<Link>, String> {
    if OUTSIDE.contains(&name) {
        return Ok(vec![(name.to_string(), OUTSIDE_BYTES)]);
    }
    let frame = frames.get(name).ok_or_else(|| format!("there is no function {name}"))?;
    let mut most = vec![(name.to_string(), frame.own)];
    above.push(name.to_string());
    for (called, depth) in &frame.calls {
        let before = above.iter().filter(|function| *function == called).count();
        let turns = TURNS.iter().find(|(function, _)| function == called);
        match turns {
            Some((_, turns)) if before >= *turns => continue,
            None if before > 0 => return Err(format!("{called} calls itself, and no contract is known to bound it")),
            _ => {}
        }
        let rest = deepest(frames, called, above)?;
        if depth + bytes(&rest) > bytes(&most) {
            most = [vec![(name.to_string(), *depth)], rest].concat();
        }
    }
    above.pop();
    Ok(most)
}

/// The deepest chain of calls from a function on.
pub fn chain(frames: &HashMap<String, Frame>, name: &str) -> Result<Vec<Link>, String> {
    deepest(frames, name, &mut Vec::new())
}

#[cfg(test)]
mod tests {
    use super::*;

    fn frames(of: &[(&str, usize, &[(&str, usize)])]) -> HashMap<String, Frame> {
        let calls = |calls: &[(&str, usize)]| calls.iter().map(|(name, depth)| (name.to_string(), *depth)).collect();
        of.iter().map(|(name, own, called)| (name.to_string(), Frame { own: *own, calls: calls(called) })).collect()
    }

    #[test]
    fn the_deepest_chain_goes_by_the_depth_at_each_call() {
        let frames = frames(&[("a", 100, &[("b", 20), ("b", 40), ("c", 90)]), ("b", 90, &[]), ("c", 8, &[])]);
        assert_eq!(chain(&frames, "a").unwrap(), [("a".to_string(), 40), ("b".to_string(), 90)]);
    }

    #[test]
    fn the_c_library_is_counted_with_room() {
        assert_eq!(bytes(&chain(&frames(&[("a", 100, &[("memset", 96)])]), "a").unwrap()), 360);
    }

    #[test]
    fn a_recursion_has_the_turns_of_its_contract() {
        let frames = frames(&[("plot::chain::can_end", 40, &[("plot::chain::can_end", 30)])]);
        assert_eq!(bytes(&chain(&frames, "plot::chain::can_end").unwrap()), 70);
    }

    #[test]
    fn a_recursion_that_no_contract_bounds_is_an_error() {
        assert!(chain(&frames(&[("a", 8, &[("b", 8)]), ("b", 8, &[("a", 8)])]), "a").is_err());
        assert!(chain(&frames(&[("a", 8, &[("c", 8)])]), "a").is_err());
    }
}
