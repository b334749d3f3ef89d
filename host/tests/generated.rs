//! The generator: its positions, its breaks, its records.

use host::coverage::counting::Counting;
use host::coverage::part_route_cases::Sent;
use host::coverage::player_cases::DESKS;
use host::coverage::retreat_cases::{Case, CASES};
use host::coverage::tally::Tally;
use host::generator::chance::Chance;
use host::generator::positions::breaks::{break_names, broken_bytes, changed_byte, PLAYER_LINES};
use host::generator::positions::crowds::crowded_road;
use host::generator::positions::dead_ends::dead_end;
use host::generator::positions::supply_lines::supply_line;
use host::generator::record;
use host::generator::stories::any_position;
use host::rules::board::acceptance::{accepted, line_names};
use host::rules::board::contents::written;
use host::rules::board::position::RETREATS;
use host::rules::order::{call_list, Call, CALLS};

#[test]
fn positions_made_by_chance_are_accepted() {
    let mut chance = Chance::new(11);
    for _ in 0..2000 {
        assert_eq!(accepted(&written(&any_position(&mut chance))).err(), None);
    }
}

#[test]
fn there_is_a_break_for_every_line_in_order() {
    assert_eq!(break_names(), line_names());
}

#[test]
fn every_break_breaks_its_own_line() {
    let mut chance = Chance::new(12);
    for (line, name) in break_names().into_iter().enumerate() {
        let mut own = 0;
        for _ in 0..150 {
            let position = any_position(&mut chance);
            if let Some(bytes) = broken_bytes(&mut chance, &position, line) {
                let broken = accepted(&bytes).expect_err(name);
                own += usize::from(broken == name);
            }
        }
        assert!(own > 0, "{name} is never the first line broken");
    }
}

#[test]
fn a_changed_byte_is_one_byte() {
    let mut chance = Chance::new(13);
    for _ in 0..500 {
        let bytes = written(&any_position(&mut chance));
        let changed = changed_byte(&mut chance, bytes.clone());
        let differing = bytes.iter().zip(&changed).filter(|(one, other)| one != other).count();
        assert_eq!((changed.len(), differing), (bytes.len(), 1));
    }
}

fn tally_of(text: &[u8]) -> Tally {
    Counting::of(text).tally
}

#[test]
fn a_record_of_5000_calls_reaches_every_answer_and_refusal() {
    for seed in [1, 2] {
        let tally = tally_of(&record(seed, 5000, &CALLS));
        assert_eq!(tally.missing(&CALLS), Vec::<String>::new());
        assert!((5000..5100).contains(&tally.calls()));
    }
}

#[test]
fn in_a_record_of_5000_calls_only_pushes_serve_300_retreats() {
    let tally = tally_of(&record(3, 5000, &CALLS));
    let doomed = |case: &Case| matches!(case, Case::Doomed(_) | Case::DestroyedForAFourth);
    for case in CASES.into_iter().filter(|case| !doomed(case)) {
        assert!(tally.retreats(case).iter().all(|&count| count > 0), "{}", case.name());
    }
    let count = |case: Case| tally.retreats(case).iter().sum::<u64>();
    assert!(count(Case::DestroyedForAFourth) >= 5);
    let pushed = [1, 2, 3].map(|longest| count(Case::Pushed { longest }));
    assert!(pushed.iter().all(|&count| count >= 30), "{pushed:?}");
    assert!(count(Case::OnlyPushesRefused) >= 150);
    assert!(pushed.iter().sum::<u64>() + count(Case::OnlyPushesRefused) >= 300);
}

#[test]
fn in_a_record_of_10000_calls_each_case_of_a_part_route_comes_up() {
    let tally = tally_of(&record(4, 10000, &CALLS));
    for case in CASES.into_iter().filter(|case| matches!(case, Case::Doomed(_))) {
        assert!(tally.retreats(case).iter().sum::<u64>() >= 15, "{}", case.name());
    }
    // A run of one step leaves n 2 or 3, one of two steps n 3; and so does what curls.
    for several in [false, true] {
        let [_, two, three] = tally.retreats(Case::Doomed(Sent::Right { steps: 1, several }));
        assert!(two.min(three) >= 10);
    }
    let [_, two, three] = tally.retreats(Case::Doomed(Sent::Curls { longer: true }));
    assert!(two.min(three) > 0);
    assert!(tally.followed() >= 20);
}

#[test]
fn at_least_half_of_the_calls_stand_on_shared_players() {
    for (seed, count) in [(16, 100), (17, 300), (18, 1000), (19, 5000)] {
        let tally = tally_of(&record(seed, count, &CALLS));
        assert!(2 * tally.players.on_desk("shared players") >= tally.calls(), "seed {seed}");
    }
}

#[test]
fn every_desk_comes_up_in_a_record_of_5000_calls() {
    let tally = tally_of(&record(19, 5000, &CALLS));
    let on_desk = |name: &str| tally.players.on_desk(name);
    assert!(on_desk("an old desk") >= 500);
    for (name, _) in DESKS {
        assert!(on_desk(name) >= 250, "{name}");
    }
    let all: u64 = ["an old desk", "four players", "shared players"].map(on_desk).iter().sum();
    assert!(all < tally.calls());
}

#[test]
fn in_a_record_of_10000_calls_18_comes_at_many_places_and_neutrals_decide() {
    let players = tally_of(&record(20, 10000, &CALLS)).players;
    for place in 1..=5 {
        assert!(players.at_place(place) >= 5, "place {place}");
    }
    assert!((1..=30).map(|place| players.at_place(place)).sum::<u64>() >= 120);
    assert!(players.with_more_due().iter().all(|&count| count >= 5));
    for (call, least) in
        [(Call::Supply, 50), (Call::Move, 200), (Call::End, 8), (Call::Attack, 80), (Call::Retreat, 80)]
    {
        assert!(players.if_enemy(call).iter().sum::<u64>() >= least, "{}", call.name());
    }
    for (call, least) in [(Call::Move, 120), (Call::Retreat, 80), (Call::Advance, 30)] {
        assert!(players.if_away(call)[0] >= least, "{}", call.name());
    }
    // Neutrals make no difference to supply, and an advance asks no more of Enemies than of them.
    assert_eq!(players.if_away(Call::Supply), [0, 0]);
    assert_eq!(players.if_enemy(Call::Advance), [0, 0]);
}

#[test]
fn supply_lines_are_accepted() {
    let mut chance = Chance::new(24);
    for _ in 0..300 {
        assert_eq!(accepted(&written(&supply_line(&mut chance))).err(), None);
    }
}

#[test]
fn desks_are_broken_at_each_length_and_in_each_force() {
    let mut chance = Chance::new(25);
    let (mut lengths, mut said, mut sharing, mut players) = (Vec::new(), Vec::new(), Vec::new(), Vec::new());
    for _ in 0..2000 {
        let position = any_position(&mut chance);
        for name in PLAYER_LINES {
            let line = break_names().iter().position(|one| *one == name).expect(name);
            let Some(bytes) = broken_bytes(&mut chance, &position, line) else { continue };
            let end = |at: usize| usize::from(u16::from_le_bytes([bytes[at], bytes[at + 1]]));
            match name {
                "desk: 56 or 60 bytes" => lengths.push(end(18)),
                "contents: no tail, nothing missing" => said.push((bytes.len() - end(16), end(18))),
                "desk: force 3 shares no player" => {
                    let last = bytes.len() - 4;
                    sharing.extend((0..3).filter(|&force| bytes[last + force] == bytes[last + 3]));
                }
                "desk: players 0..3" => players.extend(bytes[bytes.len() - 4..].to_vec()),
                _ => (),
            }
        }
    }
    assert!([55, 57, 58, 59, 61, 64].iter().all(|length| lengths.contains(length)));
    assert!([(56, 60), (60, 56)].iter().all(|pair| said.contains(pair)));
    for length in [55, 57, 58, 59, 61, 64] {
        assert!([(56, length), (length, 56), (60, length), (length, 60)].iter().all(|pair| said.contains(pair)));
    }
    assert!((0..3).all(|force| sharing.contains(&force)));
    assert!(players.contains(&4) && players.contains(&255));
}

#[test]
fn crowded_roads_are_accepted_and_somebody_owes() {
    let mut chance = Chance::new(14);
    for _ in 0..300 {
        let position = crowded_road(&mut chance);
        assert_eq!(accepted(&written(&position)).err(), None);
        assert_eq!(position.desk.stage, RETREATS);
    }
}

#[test]
fn dead_ends_are_accepted_and_somebody_owes() {
    let mut chance = Chance::new(15);
    for _ in 0..300 {
        let position = dead_end(&mut chance);
        assert_eq!(accepted(&written(&position)).err(), None);
        assert_eq!(position.desk.stage, RETREATS);
    }
}

#[test]
fn records_depend_on_the_seed_alone() {
    assert_eq!(record(5, 300, &CALLS), record(5, 300, &CALLS));
    assert_ne!(record(5, 300, &CALLS), record(6, 300, &CALLS));
}

#[test]
fn a_limited_record_holds_no_other_calls() {
    let calls = call_list("supply,move,end").expect("three calls");
    let text = record(3, 1000, &calls);
    let tally = tally_of(&text);
    assert_eq!(tally.missing(&calls), Vec::<String>::new());
    // All that attack, retreat, losses, advance and close can answer is missing.
    assert_eq!(tally.missing(&CALLS).len(), 18 + 8 + 7 + 8 + 3);
}
