//! Write two records that must read alike: pairs SEED COUNT FIRST SECOND.
//!
//! Both are the generated record of the seed, with `echo` and with a `map` after each position and call. In the second,
//! strengths are others where they stay face down until the next position. Lines that show bytes are left out of both.

use host::generator::chance::Chance;
use host::generator::record;
use host::record::line::{hex_digits, read, Line};
use host::record::table::Table;
use host::rules::board::acceptance::accepted;
use host::rules::board::contents::written;
use host::rules::board::position::TRIED;
use host::rules::order::CALLS;
use std::fs;
use std::io::{self, Write};
use std::process::ExitCode;

fn main() -> ExitCode {
    let options: Vec<String> =
        std::env::args_os().skip(1).map(|option| option.to_string_lossy().into_owned()).collect();
    match made(&options) {
        Some(changed) => {
            let _ = writeln!(io::stdout(), "{changed} strengths face down are others");
            ExitCode::SUCCESS
        }
        None => {
            let _ = writeln!(io::stderr(), "usage: pairs SEED COUNT FIRST SECOND");
            ExitCode::from(2)
        }
    }
}

/// Write both records; how many strengths differ.
fn made(options: &[String]) -> Option<usize> {
    let [seed, count, first, second] = options else { return None };
    let (seed, count) = (seed.parse().ok()?, count.parse().ok()?);
    let text = record(seed, count, &CALLS);
    let lines: Vec<&[u8]> = text.split(|&byte| byte == b'\n').collect();
    let mut chance = Chance::new(seed);
    let mut table = Table::with_all_calls();
    let mut both = [b"echo\n".to_vec(), b"echo\n".to_vec()];
    let mut changed = 0;
    for scene in scenes(&lines) {
        let start = start(scene[0]);
        scene.iter().for_each(|line| drop(table.play(line)));
        let other = start.as_ref().and_then(|start| others(&mut chance, start, &table.position));
        changed += other.as_ref().map_or(0, |(_, count)| *count);
        let opening = other.map_or(scene[0].to_vec(), |(bytes, _)| position_line(&bytes));
        write_scene(&mut chance, &mut both, scene, &opening);
    }
    fs::write(first, &both[0]).ok()?;
    fs::write(second, &both[1]).ok()?;
    Some(changed)
}

fn start(line: &[u8]) -> Option<Vec<u8>> {
    match read(line) {
        Line::Position(bytes) => Some(bytes),
        _ => None,
    }
}

fn position_line(bytes: &[u8]) -> Vec<u8> {
    format!("position {}", hex_digits(bytes)).into_bytes()
}

/// The lines from each position to the next.
fn scenes<'a, 'b>(lines: &'b [&'a [u8]]) -> Vec<&'b [&'a [u8]]> {
    let mut starts: Vec<usize> = (0..lines.len()).filter(|&at| start(lines[at]).is_some()).collect();
    if starts.first() != Some(&0) {
        starts.insert(0, 0);
    }
    let ends = starts.iter().skip(1).copied().chain([lines.len()]);
    starts.iter().zip(ends).map(|(&from, to)| &lines[from..to]).collect()
}

/// The position with other strengths for the units that are face down still at the end; how many differ.
fn others(chance: &mut Chance, start: &[u8], end: &[u8]) -> Option<(Vec<u8>, usize)> {
    let mut position = accepted(start).ok()?;
    let end = accepted(end).ok()?;
    let mut changed = 0;
    for (unit, later) in position.units.iter_mut().zip(&end.units) {
        if later.marks & TRIED == 0 {
            let strength = chance.byte(1, 60);
            changed += usize::from(strength != unit.strength);
            unit.strength = strength;
        }
    }
    Some((written(&position), changed))
}

/// The scene in both records: the second begins with `opening`.
fn write_scene(chance: &mut Chance, both: &mut [Vec<u8>; 2], scene: &[&[u8]], opening: &[u8]) {
    let large = scene[0].len() > 8000;
    for (at, line) in scene.iter().enumerate() {
        let said = read(line);
        if matches!(said, Line::Show) {
            continue;
        }
        let map = if matches!(said, Line::Position(_)) || matches!(said, Line::Call(_)) && !large {
            format!("\nmap {}\n", chance.below(5))
        } else {
            "\n".to_string()
        };
        for (text, first) in both.iter_mut().zip([*line, opening]) {
            text.extend(if at == 0 { first } else { line });
            text.extend(map.as_bytes());
        }
    }
}
