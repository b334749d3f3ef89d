//! Any bytes may come: nothing panics, and what was accepted stays an accepted position.

use host::generator::chance::Chance;
use host::generator::record;
use host::generator::stories::any_position;
use host::record::table::Table;
use host::rules::board::acceptance::accepted;
use host::rules::board::contents::{taken_apart, written};
use host::rules::order::CALLS;

#[test]
fn lines_of_any_bytes_are_played() {
    let mut chance = Chance::new(21);
    let mut table = Table::with_all_calls();
    let record = record(21, 300, &CALLS);
    let mut answered = 0;
    for line in record.split(|&byte| byte == b'\n') {
        let mut line = line.to_vec();
        for _ in 0..chance.below(4) {
            let at = chance.below(line.len() + 1);
            line.insert(at, chance.byte(0, 255));
        }
        answered += usize::from(table.play(&line).text().is_some());
    }
    assert!(answered > 300);
}

#[test]
fn bytes_taken_apart_are_written_back_the_same() {
    let mut chance = Chance::new(22);
    let mut whole = 0;
    for _ in 0..3000 {
        let mut bytes = written(&any_position(&mut chance));
        for _ in 0..3 {
            let at = chance.below(bytes.len());
            bytes[at] = chance.byte(0, 255);
        }
        if let Ok(position) = taken_apart(&bytes) {
            whole += 1;
            assert_eq!(written(&position), bytes);
            let _ = accepted(&bytes);
        }
    }
    assert!(whole > 1000);
}

#[test]
fn accepted_positions_lead_to_accepted_positions() {
    let mut table = Table::with_all_calls();
    let mut ruled = 0;
    for line in record(23, 2000, &CALLS).split(|&byte| byte == b'\n') {
        let before = accepted(&table.position).is_ok();
        let is_position = line.starts_with(b"position");
        table.play(line);
        if before && !is_position {
            ruled += 1;
            assert_eq!(accepted(&table.position).err(), None);
        }
    }
    assert!(ruled > 1000);
}
