//! Records made by chance, to compare referees by.

pub mod chance;
pub mod neutral_stories;
pub mod orders;
pub mod positions;
pub mod stories;
pub mod ways;
pub mod writer;

use crate::rules::order::Call;
use writer::Writer;

/// A record of about `count` call lines, the same for the same seed.
pub fn record(seed: u64, count: u64, calls: &[Call]) -> Vec<u8> {
    let mut writer = Writer::new(seed, calls);
    let mut turn = writer.chance.below(1000);
    writer.line(format!("# seed {seed}, about {count} calls").as_bytes());
    while writer.calls() < count {
        story(&mut writer, &mut turn);
    }
    writer.finished()
}

/// One story, chosen by weight; `turn` numbers the broken positions.
fn story(writer: &mut Writer, turn: &mut usize) {
    match writer.chance.weighted(&[130, 230, 250, 140, 12, 15, 420, 150, 12, 6, 6, 1, 80, 400, 180, 140, 110, 220, 70])
    {
        0 => stories::soup(writer),
        1 => stories::movement(writer),
        2 => stories::battle(writer),
        3 => stories::staged(writer),
        4 => stories::game(writer),
        5 => stories::phases(writer),
        6 => {
            stories::broken(writer, *turn);
            *turn += 1;
        }
        7 => stories::changed(writer),
        8 => stories::empty(writer),
        9 => stories::limits(writer),
        10 => stories::large(writer),
        11 => stories::endless(writer),
        12 => stories::special_losses(writer),
        13 => stories::crowded(writer),
        14 => stories::trapped(writer),
        15 => neutral_stories::supply_line(writer),
        16 => neutral_stories::broken_players(writer),
        17 => neutral_stories::in_the_way(writer),
        _ => neutral_stories::roads_held(writer),
    }
}
