//! The stack that each call uses, in two ways: the most that `painted.c` found, which it prints on standard input here,
//! and the most that is possible by the frames of the compiled library, whose disassembly is the file named.
//! Ends with status 1 if a call may use more than its limit, or uses more than the frames allow, or if the library exports
//! a function that is not among the calls.

use host::rules::order::{Call, CALLS};
use host::rules::refusal::BROKEN_POSITION;
use measure::bound::{bytes, chain, Link};
use measure::disassembly::{functions, Function};
use measure::frames::{frame, Frame};
use std::collections::{BTreeMap, HashMap};
use std::error::Error;

/// The bytes that a call may use.
fn limit(call: Call) -> usize {
    match call {
        Call::Retreat => 1600,
        Call::Attack => 1500,
        _ => 1400,
    }
}

/// The name of a call in C, and the bytes of its arguments that have no register: six have one, and the stack is kept even.
fn exported(call: Call) -> (&'static str, usize) {
    match call {
        Call::Supply => ("ia_supply", 0),
        Call::Move => ("ia_move", 0),
        Call::End => ("ia_end_phase", 0),
        Call::Attack => ("ia_attack", 16),
        Call::Retreat => ("ia_retreat", 16),
        Call::Losses => ("ia_losses", 0),
        Call::Advance => ("ia_advance", 0),
        Call::Close => ("ia_close", 0),
    }
}

/// An exported function that no call stands for, and so is not measured. The exported ones have a name without a path.
fn unmeasured(library: &[Function]) -> Option<&str> {
    let known = |name: &str| CALLS.iter().any(|&call| exported(call).0 == name);
    library.iter().map(|function| function.name.as_str()).find(|name| !name.contains("::") && !known(name))
}

/// `CALL BYTES ANSWER`. A position that is broken would show nothing but its check.
fn painted(line: &str) -> Option<(Call, usize)> {
    let [name, used, answer] = line.split(' ').collect::<Vec<_>>().try_into().ok()?;
    let answer: u64 = answer.parse().ok()?;
    (answer & 255 != u64::from(BROKEN_POSITION)).then_some((Call::named(name.as_bytes())?, used.parse().ok()?))
}

/// The most that was found for each call.
fn most_painted(text: &str) -> Result<BTreeMap<Call, usize>, Box<dyn Error>> {
    let mut most = BTreeMap::new();
    for line in text.lines() {
        let (call, used) = painted(line).ok_or(format!("painted: {line}"))?;
        let found: &mut usize = most.entry(call).or_default();
        *found = used.max(*found);
    }
    Ok(most)
}

/// The deepest chain of calls from an exported one on.
fn bound(frames: &HashMap<String, Frame>, call: Call) -> Result<Vec<Link>, String> {
    let (name, arguments) = exported(call);
    let arguments = (arguments > 0).then(|| ("arguments".to_string(), arguments));
    Ok(arguments.into_iter().chain(chain(frames, name)?).collect())
}

fn main() -> Result<(), Box<dyn Error>> {
    let disassembly = std::fs::read_to_string(std::env::args().nth(1).ok_or("no disassembly is named")?)?;
    let library = functions(&disassembly);
    if let Some(name) = unmeasured(&library) {
        return Err(format!("{name} is exported and not measured").into());
    }
    let frames = library.iter().map(|f| Ok((f.name.clone(), frame(f)?))).collect::<Result<HashMap<_, _>, String>>()?;
    let most = most_painted(&std::io::read_to_string(std::io::stdin())?)?;
    let mut fits = true;
    println!("| call | painted | by the frames | the deepest chain of calls |");
    println!("|---|---|---|---|");
    for call in CALLS {
        let chain = bound(&frames, call)?;
        let used = *most.get(&call).ok_or(format!("{} was not called", call.name()))?;
        let links = chain.iter().map(|(name, bytes)| format!("{name} {bytes}")).collect::<Vec<_>>();
        println!("| {} | {used} | {} | {} |", call.name(), bytes(&chain), links.join(", "));
        fits &= used <= bytes(&chain) && bytes(&chain) <= limit(call);
    }
    if fits {
        return Ok(());
    }
    Err("a call uses more stack than its limit, or more than its frames".into())
}

#[cfg(test)]
mod tests {
    use super::*;

    #[test]
    fn an_exported_function_that_is_not_measured_is_named() {
        let library =
            |names: &[&str]| functions(&names.iter().map(|name| format!("00 <{name}>:\n")).collect::<String>());
        assert_eq!(unmeasured(&library(&["checking::check", "ia_close"])), None);
        assert_eq!(unmeasured(&library(&["checking::check", "ia_close", "ia_new"])), Some("ia_new"));
    }
}
