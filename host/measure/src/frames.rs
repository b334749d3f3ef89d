//! The frame of a compiled function: how far below its caller the stack pointer is at each instruction. It is found by
//! following every way through the function, and checked as it is: two ways that meet agree, and each return finds the
//! return address. An instruction that sets the stack pointer in another way than these is an error, not a guess.

use crate::disassembly::{Function, Instruction};

/// The return address.
const RETURN: usize = 8;

/// Bytes below the caller, the return address among them.
pub struct Frame {
    /// The most that the function itself uses.
    pub own: usize,
    /// Each function that it calls, and how much is used below the caller when it does.
    pub calls: Vec<(String, usize)>,
}

/// Where a way through a function goes on after an instruction.
enum Onward {
    Next,
    To(u64),
    NextOr(u64),
    /// By a table of addresses.
    Table,
    Nowhere,
}

/// The address in `1a2 <name+0x1a2>`.
fn address(operands: &str) -> Result<u64, String> {
    let digits = operands.split(' ').next().unwrap_or("");
    u64::from_str_radix(digits, 16).map_err(|_| format!("no address in {operands}"))
}

/// Whether the function ends in another one, which then returns in its place.
fn leaves(step: &Instruction) -> bool {
    step.name == "jmp" && step.linked.is_some()
}

fn onward(step: &Instruction) -> Result<Onward, String> {
    match step.name.as_str() {
        "ret" | "ud2" | "int3" | "hlt" => Ok(Onward::Nowhere),
        _ if leaves(step) => Ok(Onward::Nowhere),
        name if name.starts_with('j') && step.linked.is_some() => Err("it may end in another function".to_string()),
        "jmp" if step.operands.starts_with('*') => Ok(Onward::Table),
        "jmp" => address(&step.operands).map(Onward::To),
        name if name.starts_with('j') => address(&step.operands).map(Onward::NextOr),
        _ => Ok(Onward::Next),
    }
}

/// `$0x38` of `$0x38,%rsp`; a number above half of them all is a negative one.
fn number(operands: &str) -> Option<i64> {
    let digits = operands.strip_prefix("$0x")?.split(',').next()?;
    u64::from_str_radix(digits, 16).ok().map(|number| number as i64)
}

/// Whether an instruction sets the stack pointer or a part of it: its last operand, or either if it exchanges them.
fn sets_pointer(step: &Instruction) -> bool {
    let pointer = |operand: &str| ["%rsp", "%esp", "%sp", "%spl"].contains(&operand);
    let exchanges = step.name.starts_with("xchg") || step.name.starts_with("xadd");
    let last = step.operands.rsplit(',').next().is_some_and(pointer);
    last || (exchanges && step.operands.split(',').any(pointer))
}

/// How far the stack pointer goes down.
fn lowered(step: &Instruction) -> Result<i64, String> {
    let moved = match (step.name.as_str(), sets_pointer(step)) {
        ("push", false) => Some(8),
        ("pop", false) => Some(-8),
        ("sub", true) => number(&step.operands),
        ("add", true) => number(&step.operands).map(|bytes| -bytes),
        ("cmp" | "test", true) => Some(0),
        ("leave" | "enter", _) | (_, true) => None,
        _ => Some(0),
    };
    moved.ok_or_else(|| format!("{} {} sets the stack pointer", step.name, step.operands))
}

/// Bytes that are used below the stack pointer, as a function may that calls no other.
fn below(step: &Instruction) -> usize {
    let offsets = step.operands.match_indices("(%rsp").filter_map(|(at, _)| step.operands[..at].rsplit(',').next());
    offsets.filter_map(|offset| usize::from_str_radix(offset.strip_prefix("-0x")?, 16).ok()).max().unwrap_or(0)
}

/// The ways through a function that are still to be followed, and what was found.
struct Ways<'a> {
    code: &'a [Instruction],
    depths: Vec<Option<usize>>,
    open: Vec<usize>,
    tables: Vec<usize>,
}

impl Ways<'_> {
    fn index(&self, at: u64) -> Result<usize, String> {
        self.code.binary_search_by_key(&at, |step| step.at).map_err(|_| format!("no instruction at {at:x}"))
    }

    /// A way comes to an instruction with this depth.
    fn arrive(&mut self, index: usize, depth: usize) -> Result<(), String> {
        match self.depths.get(index) {
            None => Err("it runs over its end".to_string()),
            Some(None) => {
                self.depths[index] = Some(depth);
                self.open.push(index);
                Ok(())
            }
            Some(Some(other)) if *other == depth => Ok(()),
            Some(_) => Err(format!("two ways to {:x} differ", self.code[index].at)),
        }
    }

    /// Goes on from an instruction that was come to.
    fn follow(&mut self, index: usize) -> Result<(), String> {
        let step = &self.code[index];
        let before = self.depths[index].expect("a way has come here");
        let depth = before.checked_add_signed(lowered(step)? as isize).ok_or("it pops too much")?;
        if (step.name == "ret" || leaves(step)) && depth != RETURN {
            return Err(format!("it returns with {depth} bytes"));
        }
        match onward(step)? {
            Onward::Next => self.arrive(index + 1, depth),
            Onward::To(at) => self.arrive(self.index(at)?, depth),
            Onward::NextOr(at) => {
                self.arrive(self.index(at)?, depth)?;
                self.arrive(index + 1, depth)
            }
            Onward::Table => {
                self.tables.push(depth);
                Ok(())
            }
            Onward::Nowhere => Ok(()),
        }
    }

    fn follow_all(&mut self) -> Result<(), String> {
        while let Some(index) = self.open.pop() {
            self.follow(index)?;
        }
        Ok(())
    }

    /// The first instruction that no way has come to, but for those that fill gaps: a table leads there.
    fn missing(&self) -> Option<usize> {
        let idle =
            |step: &Instruction| step.name.starts_with("nop") || (step.name == "xchg" && step.operands == "%ax,%ax");
        (0..self.code.len()).find(|&index| self.depths[index].is_none() && !idle(&self.code[index]))
    }

    /// The depth at every table, which has to be one.
    fn at_tables(&self) -> Result<usize, String> {
        match self.tables.as_slice() {
            [first, rest @ ..] if rest.iter().all(|depth| depth == first) => Ok(*first),
            _ => Err("nothing leads to a part of it, or tables differ".to_string()),
        }
    }
}

/// The depth at each instruction, none where nothing is done.
fn depths(code: &[Instruction]) -> Result<Vec<Option<usize>>, String> {
    let mut ways = Ways { code, depths: vec![None; code.len()], open: Vec::new(), tables: Vec::new() };
    ways.arrive(0, RETURN)?;
    ways.follow_all()?;
    while let Some(index) = ways.missing() {
        ways.arrive(index, ways.at_tables()?)?;
        ways.follow_all()?;
    }
    Ok(ways.depths)
}

/// The function that an instruction calls.
fn called(step: &Instruction) -> Result<Option<String>, String> {
    if step.name != "call" && !leaves(step) {
        return Ok(None);
    }
    let direct = step.operands.split_once(" <").and_then(|(_, name)| name.strip_suffix('>'));
    let name = step.linked.as_deref().or(direct.filter(|name| !name.contains('+')));
    name.map(|name| Some(name.to_string())).ok_or_else(|| format!("who is called by {}?", step.operands))
}

/// The frame of a function.
pub fn frame(function: &Function) -> Result<Frame, String> {
    let depths = depths(&function.code).map_err(|reason| format!("{}: {reason}", function.name))?;
    let mut frame = Frame { own: RETURN, calls: Vec::new() };
    for (step, depth) in function.code.iter().zip(depths) {
        let Some(depth) = depth else { continue };
        frame.own = frame.own.max(depth + below(step));
        let kept = if leaves(step) { depth - RETURN } else { depth };
        frame.calls.extend(called(step)?.map(|name| (name, kept)));
    }
    Ok(frame)
}

#[cfg(test)]
mod tests {
    use super::*;
    use crate::disassembly::functions;

    fn of(code: &str) -> Result<Frame, String> {
        frame(&functions(&format!("0000000000000000 <f>:\n{code}"))[0])
    }

    #[test]
    fn pushes_and_a_lowered_pointer_count_and_a_second_way_out_is_followed() {
        let code = " 0:\tpush   %rbx\n 1:\tsub    $0x20,%rsp\n 5:\tje     10 <f+0x10>\n 7:\tadd    $0x20,%rsp\n \
                    b:\tpop    %rbx\n c:\tret\n d:\tnopl   (%rax)\n 10:\tpush   $0x1\n 12:\tcall   17 <f+0x17>\n\
                    \t\t\t13: R_X86_64_PLT32\tg-0x4\n 17:\tadd    $0x8,%rsp\n 1b:\tjmp    7 <f+0x7>\n";
        let frame = of(code).unwrap();
        assert_eq!((frame.own, frame.calls), (56, vec![("g".to_string(), 56)]));
    }

    #[test]
    fn what_is_used_below_the_pointer_counts() {
        assert_eq!(of(" 0:\tmov    %rax,-0x30(%rsp)\n 5:\tret\n").unwrap().own, 56);
    }

    #[test]
    fn what_only_a_table_leads_to_has_its_depth() {
        let code = " 0:\tpush   %rax\n 1:\tjmp    *%rcx\n 3:\tpush   %rax\n 4:\tadd    $0x10,%rsp\n 8:\tret\n";
        assert_eq!(of(code).unwrap().own, 24);
    }

    #[test]
    fn a_function_that_ends_in_another_keeps_nothing() {
        let code = " 0:\tpush   %rax\n 1:\tpop    %rax\n 2:\tjmp    7 <f+0x7>\n\t\t\t3: R_X86_64_PLT32\tg-0x4\n";
        let frame = of(code).unwrap();
        assert_eq!((frame.own, frame.calls), (16, vec![("g".to_string(), 0)]));
    }

    #[test]
    fn what_cannot_be_followed_is_an_error() {
        for code in [
            " 0:\tmov    %rbp,%rsp\n 3:\tret\n",
            " 0:\txchg   %rsp,%rax\n 3:\tret\n",
            " 0:\tsub    %rax,%rsp\n 3:\tret\n",
            " 0:\tpush   %rax\n 1:\tret\n",
            " 0:\tje     3 <f+0x3>\n 2:\tpush   %rax\n 3:\tret\n",
            " 0:\tnop\n",
            " 0:\tret\n 1:\tret\n",
            " 0:\tcall   *%rax\n 2:\tret\n",
            " 0:\tje     5 <f+0x5>\n\t\t\t1: R_X86_64_PLT32\tg-0x4\n 5:\tret\n",
            " 0:\tpush   %rax\n 1:\tjmp    6 <f+0x6>\n\t\t\t2: R_X86_64_PLT32\tg-0x4\n",
        ] {
            assert!(of(code).is_err(), "{code}");
        }
    }
}
