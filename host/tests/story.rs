//! The sample games: the story that the proved program tells, held against this referee's answers.

use host::record::line::{read, Line};
use host::record::table::Table;
use std::fs;
use std::path::Path;

fn text(name: &str) -> String {
    let root = Path::new(env!("CARGO_MANIFEST_DIR")).join("..");
    fs::read_to_string(root.join(name)).expect(name)
}

/// A line of the record as the program echoes it.
fn echoed(line: &str) -> String {
    match read(line.as_bytes()) {
        Line::Position(bytes) => format!("position {} bytes", bytes.len()),
        _ => line.to_string(),
    }
}

/// Whether the line told is this answer, with or without words after two blanks.
fn tells(told: &str, answer: &str) -> bool {
    told.strip_prefix(answer).is_some_and(|words| words.is_empty() || words.starts_with("  "))
}

/// The samples, one after the other.
fn samples() -> String {
    text("examples/game.record") + &text("examples/two_players.record")
}

#[test]
fn the_samples_are_what_first_game_plays() {
    assert_eq!(samples(), text("crates/first_game/stdin"));
}

#[test]
fn every_answer_of_the_story_is_this_referees() {
    let (record, story) = (samples(), text("crates/first_game/stdout"));
    let mut told = story.lines();
    let mut table = Table::with_all_calls();
    let mut compared = 0;
    for (number, line) in record.lines().enumerate() {
        // The first line, echo, is not echoed; what stands between an answer and the next line is a map.
        if number > 0 {
            assert!(told.any(|told| told == echoed(line)), "line {} is not told", number + 1);
        }
        let answer = table.play(line.as_bytes()).text().unwrap_or_default();
        for answer in answer.lines() {
            let told = told.next().unwrap_or_default();
            assert!(tells(told, answer), "line {}: {told} for {answer}", number + 1);
            compared += 1;
        }
    }
    assert!(compared > 60);
}
