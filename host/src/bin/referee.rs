//! Play a record from standard input and answer it on standard output.

use host::record::table::Table;
use host::rules::order::{call_list, Call, CALLS};
use std::io::{self, BufRead, BufReader, BufWriter, Write};
use std::process::ExitCode;

fn main() -> ExitCode {
    let Some(calls) = calls_from_options() else {
        let _ = writeln!(io::stderr(), "usage: referee [--calls supply,move,end,attack,retreat,losses,advance,close]");
        return ExitCode::from(2);
    };
    match play(&calls) {
        Ok(()) => ExitCode::SUCCESS,
        Err(_) => ExitCode::FAILURE,
    }
}

/// All eight calls, or those the option lists; none if the options cannot be read.
fn calls_from_options() -> Option<Vec<Call>> {
    let options: Vec<String> =
        std::env::args_os().skip(1).map(|option| option.to_string_lossy().into_owned()).collect();
    match options.as_slice() {
        [] => Some(CALLS.to_vec()),
        [name, list] if name == "--calls" => call_list(list),
        _ => None,
    }
}

/// Read line by line; answers are written out when the input has to be waited for.
fn play(calls: &[Call]) -> io::Result<()> {
    let mut table = Table::new(calls);
    let mut input = BufReader::new(io::stdin().lock());
    let mut output = BufWriter::new(io::stdout().lock());
    let mut line = Vec::new();
    loop {
        line.clear();
        if input.read_until(b'\n', &mut line)? == 0 {
            return output.flush();
        }
        let text = line.strip_suffix(b"\n").unwrap_or(&line);
        if let Some(answer) = table.play(text).text() {
            writeln!(output, "{answer}")?;
        }
        if !input.buffer().contains(&b'\n') {
            output.flush()?;
        }
    }
}
