//! Write a record made by chance: generate SEED COUNT [--calls LIST].

use host::generator::record;
use host::rules::order::{call_list, Call, CALLS};
use std::io::{self, Write};
use std::process::ExitCode;

fn main() -> ExitCode {
    let options: Vec<String> =
        std::env::args_os().skip(1).map(|option| option.to_string_lossy().into_owned()).collect();
    let Some((seed, count, calls)) = read(&options) else {
        let _ = writeln!(io::stderr(), "usage: generate SEED COUNT [--calls supply,move,end,..]");
        return ExitCode::from(2);
    };
    match io::stdout().lock().write_all(&record(seed, count, &calls)) {
        Ok(()) => ExitCode::SUCCESS,
        Err(_) => ExitCode::FAILURE,
    }
}

fn read(options: &[String]) -> Option<(u64, u64, Vec<Call>)> {
    match options {
        [seed, count] => Some((seed.parse().ok()?, count.parse().ok()?, CALLS.to_vec())),
        [seed, count, name, list] if name == "--calls" => {
            Some((seed.parse().ok()?, count.parse().ok()?, call_list(list)?))
        }
        _ => None,
    }
}
