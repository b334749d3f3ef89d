//! Play a record and hold the answers against another program's: difference RECORD ANSWERS [--calls LIST].
//! Exit 0 without difference, 1 with the first difference shown, 2 if the options cannot be read.

use host::record::table::{Reply, Table};
use host::rules::board::contents::taken_apart;
use host::rules::order::{call_list, Call, CALLS};
use std::fs;
use std::io::{self, Write};
use std::process::ExitCode;

/// One line of the record, and its answer of one or more lines if it has one.
struct Played<'a> {
    text: &'a [u8],
    answer: Option<String>,
}

fn main() -> ExitCode {
    let options: Vec<String> =
        std::env::args_os().skip(1).map(|option| option.to_string_lossy().into_owned()).collect();
    let Some((record, answers, calls)) = read(&options) else {
        let _ = writeln!(io::stderr(), "usage: difference RECORD ANSWERS [--calls supply,move,end,..]");
        return ExitCode::from(2);
    };
    let (text, equal) = judged(&record, &answers, &calls);
    let _ = write!(io::stdout().lock(), "{text}");
    ExitCode::from(u8::from(!equal))
}

fn read(options: &[String]) -> Option<(Vec<u8>, Vec<u8>, Vec<Call>)> {
    let (files, calls) = match options {
        [record, answers] => ([record, answers], CALLS.to_vec()),
        [record, answers, name, list] if name == "--calls" => ([record, answers], call_list(list)?),
        _ => return None,
    };
    Some((fs::read(files[0]).ok()?, fs::read(files[1]).ok()?, calls))
}

/// The report, and whether both agree.
fn judged(record: &[u8], answers: &[u8], calls: &[Call]) -> (String, bool) {
    let (mine, count) = played(record, calls);
    let mut theirs = lines(answers).into_iter();
    for (at, played) in mine.iter().enumerate() {
        let Some(answer) = &played.answer else { continue };
        for line in answer.lines() {
            let other = theirs.next();
            if other != Some(line.as_bytes()) {
                return (shown(&mine, at, line, other), false);
            }
        }
    }
    match theirs.next() {
        Some(extra) => (format!("the other program answers more than the record asks: {}\n", short(extra)), false),
        None => (format!("no difference in {count} calls\n"), true),
    }
}

/// The lines of a text; a last newline ends the last line and opens no new one.
fn lines(text: &[u8]) -> Vec<&[u8]> {
    let text = text.strip_suffix(b"\n").unwrap_or(text);
    if text.is_empty() {
        return Vec::new();
    }
    text.split(|&byte| byte == b'\n').collect()
}

/// Every line of the record, and the number of calls.
fn played<'a>(record: &'a [u8], calls: &[Call]) -> (Vec<Played<'a>>, usize) {
    let mut table = Table::new(calls);
    let mut played = Vec::new();
    let mut count = 0;
    for text in lines(record) {
        let reply = table.play(text);
        count += usize::from(matches!(reply, Reply::Answered(..)));
        played.push(Played { text, answer: reply.text() });
    }
    (played, count)
}

/// The first difference, with the lines that led to it from the last position line on.
fn shown(mine: &[Played], at: usize, answer: &str, other: Option<&[u8]>) -> String {
    let position = mine[..at].iter().rposition(|played| played.text.starts_with(b"position")).unwrap_or(0);
    let mut text = "first difference, with the lines before it\n".to_string();
    let before = mine.iter().enumerate().take(at).skip(position);
    for (line, played) in before.filter(|(line, _)| *line == position || line + 8 > at) {
        text += &context(played, line + 1);
    }
    text += &format!("line {}: {}\n", at + 1, short(mine[at].text));
    text += &format!("  host:  {}\n", short(answer.as_bytes()));
    text += &format!("  other: {}\n", other.map_or("no answer".to_string(), short));
    if let Some(place) = other.and_then(|other| first_byte(answer.as_bytes(), other)) {
        text += &format!("  {place}\n");
    }
    text
}

/// A line before the difference, with the answer both gave.
fn context(played: &Played, line: usize) -> String {
    let answer = played.answer.as_ref().map_or(String::new(), |answer| format!("  ->  {}", short(answer.as_bytes())));
    format!("  line {line}: {}{answer}\n", short(played.text))
}

/// A line cut to what fits a screen; bytes that are no text are escaped.
fn short(line: &[u8]) -> String {
    const MOST: usize = 120;
    let cut = &line[..line.len().min(MOST)];
    let more = if line.len() > MOST { format!("… ({} characters)", line.len()) } else { String::new() };
    format!("{}{more}", cut.escape_ascii())
}

/// Where two positions in hex digits first differ.
fn first_byte(mine: &[u8], other: &[u8]) -> Option<String> {
    if mine.len() < 40 {
        return None;
    }
    let digit = (0..mine.len().min(other.len())).find(|&at| mine[at] != other[at])?;
    let byte = digit / 2;
    let pair =
        |digits: &[u8]| String::from_utf8_lossy(&digits[2 * byte..(2 * byte + 2).min(digits.len())]).into_owned();
    Some(format!("byte {byte}{}: host {}, other {}", named(mine, byte), pair(mine), pair(other)))
}

/// What a byte of a position holds.
fn named(digits: &[u8], byte: usize) -> String {
    let bytes: Option<Vec<u8>> =
        digits.chunks(2).map(|pair| u8::from_str_radix(std::str::from_utf8(pair).ok()?, 16).ok()).collect();
    let Some(bytes) = bytes else { return String::new() };
    let Ok(position) = taken_apart(&bytes) else { return String::new() };
    let players = bytes.len() - position.desk.players.map_or(0, |players| players.len());
    let desk = players - 56;
    let units = desk - 8 * position.units.len();
    if byte >= players {
        format!(" (desk, player of force {})", byte - players)
    } else if byte >= desk + 8 {
        format!(" (desk, route {})", (byte - desk - 8) / 8)
    } else if byte >= desk {
        let names = ["turn", "last turn", "force", "phase", "stage", "owed retreat", "need", "need"];
        format!(" (desk, {})", names[byte - desk])
    } else if byte >= units {
        let names = ["nationality", "type", "hex", "hex", "strength", "allowance", "marks", "role"];
        format!(" (unit {}, {})", (byte - units) / 8, names[(byte - units) % 8])
    } else {
        String::new()
    }
}
