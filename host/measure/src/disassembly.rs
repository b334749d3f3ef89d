//! The compiled library as `objdump --disassemble --reloc --no-show-raw-insn` prints it, function by function.

#[derive(Debug)]
pub struct Instruction {
    pub at: u64,
    pub name: String,
    pub operands: String,
    /// The function that the linker puts in, if it is one of another section.
    pub linked: Option<String>,
}

#[derive(Debug)]
pub struct Function {
    pub name: String,
    pub code: Vec<Instruction>,
}

/// Words that may stand before an instruction's name.
const PREFIXES: [&str; 7] = ["bnd", "cs", "data16", "lock", "notrack", "rep", "repz"];

/// `0000000000000000 <NAME>:`
fn heading(line: &str) -> Option<Function> {
    let (_, name) = line.strip_suffix(">:")?.split_once(" <")?;
    Some(Function { name: name.to_string(), code: Vec::new() })
}

/// `ADDRESS: R_X86_64_PLT32 .text.NAME-0x4`: the name of a function that is called or jumped to.
fn linked(line: &str) -> Option<String> {
    let (_, kind) = line.trim_start().split_once(": ")?;
    let (symbol, _) = kind.strip_prefix("R_X86_64_PLT32")?.trim().rsplit_once('-')?;
    Some(symbol.strip_prefix(".text.").unwrap_or(symbol).to_string())
}

/// `ADDRESS: NAME OPERANDS # COMMENT`
fn instruction(line: &str) -> Option<Instruction> {
    let (at, text) = line.split_once(":\t")?;
    let at = u64::from_str_radix(at.trim(), 16).ok()?;
    let mut text = text.split('#').next()?.trim();
    while let Some((_, rest)) = text.split_once(' ').filter(|(word, _)| PREFIXES.contains(word)) {
        text = rest.trim_start();
    }
    let (name, operands) = text.split_once(' ').unwrap_or((text, ""));
    Some(Instruction { at, name: name.to_string(), operands: operands.trim().to_string(), linked: None })
}

/// The functions of a disassembly.
pub fn functions(text: &str) -> Vec<Function> {
    let mut functions: Vec<Function> = Vec::new();
    for line in text.lines() {
        if let Some(function) = heading(line) {
            functions.push(function);
        } else if let Some(function) = functions.last_mut() {
            if let Some(name) = linked(line) {
                function.code.last_mut().expect("an instruction stands before its link").linked = Some(name);
            } else {
                function.code.extend(instruction(line));
            }
        }
    }
    functions
}

#[cfg(test)]
mod tests {
    use super::*;

    #[test]
    fn names_operands_and_links_are_read() {
        let text = "\nDisassembly of section .text.a::b:\n\n0000000000000000 <a::b>:\n   0:\tpush   %rbx\n   \
                    1:\tcs nopw 0x0(%rax)\n   4:\tcall   9 <a::b+0x9>\n\t\t\t5: R_X86_64_PLT32\t.text.c::d-0x4\n   \
                    9:\tlea    0x0(%rip),%rax        # 10 <a::b+0x10>\n\t\t\tc: R_X86_64_PC32\t.rodata-0x4\n";
        let [function] = functions(text).try_into().expect("one function");
        assert_eq!(function.name, "a::b");
        let names = function.code.iter().map(|i| (i.at, i.name.as_str(), i.operands.as_str(), i.linked.as_deref()));
        let wanted = [
            (0, "push", "%rbx", None),
            (1, "nopw", "0x0(%rax)", None),
            (4, "call", "9 <a::b+0x9>", Some("c::d")),
            (9, "lea", "0x0(%rip),%rax", None),
        ];
        assert!(names.eq(wanted));
    }
}
