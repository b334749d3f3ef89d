//! Play a record from standard input and print how often each answer occurs.

use host::coverage::counting::Counting;
use host::rules::order::CALLS;
use std::io::{self, Read, Write};
use std::process::ExitCode;

fn main() -> ExitCode {
    match counted() {
        Ok(()) => ExitCode::SUCCESS,
        Err(_) => ExitCode::FAILURE,
    }
}

fn counted() -> io::Result<()> {
    let mut text = Vec::new();
    io::stdin().lock().read_to_end(&mut text)?;
    let Counting { tally, unreadable, .. } = Counting::of(&text);
    let missing = tally.missing(&CALLS).join(", ");
    let mut output = io::stdout().lock();
    writeln!(output, "{} calls, {unreadable} lines that cannot be read\n", tally.calls())?;
    writeln!(output, "{}", tally.text())?;
    writeln!(output, "not reached: {}", if missing.is_empty() { "nothing" } else { &missing })
}
