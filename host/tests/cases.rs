//! Which cases of a retreat are counted, and what players and neutrals do.

mod common;
use common::crowds::*;
use common::*;
use host::coverage::counting::Counting;
use host::coverage::part_route_cases::Sent;
use host::coverage::player_cases::DESKS;
use host::coverage::player_tally::PlayerTally;
use host::coverage::retreat_cases::{cases_of, Case};
use host::coverage::tally::Tally;
use host::record::line::{hex_digits, read, Line};
use host::record::table::{Reply, Table};
use host::rules::board::contents::written;
use host::rules::board::position::*;
use host::rules::order::Call;

/// The cases of one line of record.
fn cases(position: &Position, line: &str) -> Vec<Case> {
    let mut table = Table::with_all_calls();
    table.position = written(position);
    let Reply::Answered(_, answer) = table.play(line.as_bytes()) else { panic!("{line}") };
    let Line::Call(order) = read(line.as_bytes()) else { panic!("{line}") };
    cases_of(position, &order, &answer)
}

/// What the doomed group was sent by this line.
fn sent(position: &Position, line: &str) -> Sent {
    match cases(position, line).last() {
        Some(Case::Doomed(sent)) => *sent,
        other => panic!("{line}: {other:?}"),
    }
}

#[test]
fn a_vacant_route_is_taken_or_refused_or_has_pushes_beside_it() {
    let position = land(1, &[7, 2, 8], &[7]);
    assert_eq!(cases(&position, "retreat 12 8"), [Case::VacantRoute]);
    assert_eq!(cases(&position, "retreat 12 7"), [Case::VacantRouteRefused]);
    assert_eq!(cases(&position, "retreat 12 7 / 2"), [Case::PushesBesideVacantRoute]);
}

#[test]
fn pushes_are_counted_by_the_longest_chain() {
    assert_eq!(cases(&row(3, 1, &[1]), "retreat 0 1 / 2"), [Case::Pushed { longest: 1 }]);
    assert_eq!(cases(&row(5, 3, &[1]), "retreat 0 1 2 3 / 2 3 4"), [Case::Pushed { longest: 1 }]);
    assert_eq!(cases(&row(7, 3, &[1, 4]), "retreat 0 1 2 3 / 2 3 4 5"), [Case::Pushed { longest: 2 }]);
    assert_eq!(cases(&row(5, 1, &[1, 2, 3]), "retreat 0 1 / 2 3 4"), [Case::Pushed { longest: 3 }]);
    assert_eq!(cases(&row(5, 1, &[1, 2, 3]), "retreat 0 1 / 2 3"), [Case::OnlyPushesRefused]);
}

#[test]
fn the_destroyed_are_counted_by_who_stands_about() {
    assert_eq!(cases(&row(6, 1, &[1, 2, 3, 4]), "retreat 0")[0], Case::DestroyedForAFourth);
    assert_eq!(cases(&row(7, 1, &[1, 2, 3, 4, 5]), "retreat 0")[0], Case::DestroyedBesideOwnUnits);
    assert_eq!(cases(&row(4, 3, &[3]), "retreat 0 1 2")[0], Case::DestroyedAlone);
    let mut position = row(3, 1, &[1]);
    position.units[0] = Unit { role: OWES, ..Unit::new(ESC, SUPPLY_UNIT, 0, 3, 0) };
    assert_eq!(cases(&position, "retreat 0"), [Case::OnlySupplyUnits]);
    for line in ["retreat 0 1 / 2", "retreat 0 1", "retreat 0 / 1"] {
        assert_eq!(cases(&position, line), [Case::OnlySupplyUnitsRefused]);
    }
}

#[test]
fn the_destroyed_are_counted_by_their_longest_runs_too() {
    assert_eq!(sent(&row(2, 1, &[1]), "retreat 0"), Sent::Right { steps: 0, several: false });
    assert_eq!(sent(&row(2, 3, &[]), "retreat 0 1"), Sent::Right { steps: 1, several: false });
    assert_eq!(sent(&land(2, &[7, 8], &[]), "retreat 12 8"), Sent::Right { steps: 1, several: true });
    assert_eq!(sent(&row(3, 3, &[]), "retreat 0 1 2"), Sent::Right { steps: 2, several: false });
    assert_eq!(sent(&land(3, &[7, 2, 1], &[]), "retreat 12 7 1"), Sent::Right { steps: 2, several: true });
}

#[test]
fn wrong_part_routes_are_counted_by_what_is_wrong() {
    let position = land(3, &[7, 2, 8], &[]);
    assert_eq!(sent(&position, "retreat 12 7"), Sent::TooShort { by: 1 });
    assert_eq!(sent(&position, "retreat 12 8"), Sent::TooShort { by: 1 });
    assert_eq!(sent(&position, "retreat 12"), Sent::TooShort { by: 2 });
    assert_eq!(sent(&position, "retreat 12 7 8"), Sent::Curls { longer: false });
    assert_eq!(sent(&position, "retreat 12 8 7 2"), Sent::Curls { longer: true });
    assert_eq!(sent(&position, "retreat 12 7 2 7"), Sent::Curls { longer: true });
    assert_eq!(sent(&position, "retreat 12 7 2 1"), Sent::TooLong);
    assert_eq!(sent(&position, "retreat 12 7 1"), Sent::NotLegal);
    assert_eq!(sent(&position, "retreat 12 7 12"), Sent::NotLegal);
    assert_eq!(sent(&position, "retreat 12 7 2 / 1"), Sent::PushesBeside);
    assert_eq!(sent(&position, "retreat 12 7 / 2"), Sent::NotLegal);
    assert_eq!(sent(&row(2, 1, &[1]), "retreat 0 1"), Sent::NoStep);
    assert_eq!(sent(&row(2, 1, &[1]), "retreat 0 / 1"), Sent::PushesBeside);
}

#[test]
fn advances_along_a_part_route_behind_its_first_hex_are_counted() {
    let mut position = land(3, &[7, 2, 17], &[]);
    for _ in 0..3 {
        let unit = stand(&mut position, US, MILITIA, 17, 1);
        give_role(&mut position, unit, MAY_ADVANCE);
    }
    let followed = |lines: &str| {
        let record = format!("position {}\n{lines}", hex_digits(&written(&position)));
        Counting::of(record.as_bytes()).tally.followed()
    };
    assert_eq!(followed("retreat 12 7 2\nadvance 1 7\nadvance 2 2\nadvance 3 12"), 2);
    assert_eq!(followed("retreat 12 7 2\nadvance 1 1\nadvance 2 12\nclose"), 0);
    // A route that was there before is no part route.
    route(&mut position, 0, &[12, 7, 2]);
    position.units[0].role = 0;
    position.units[0].hex = 2;
    position.desk.stage = ADVANCES;
    position.desk.owed_retreat = 0;
    let record = format!("position {}\nadvance 1 7", hex_digits(&written(&position)));
    let counted = Counting::of(record.as_bytes());
    assert_eq!((counted.tally.calls(), counted.tally.followed()), (1, 0));
}

#[test]
fn what_is_not_judged_so_far_is_no_case() {
    assert_eq!(cases(&row(3, 1, &[1]), "retreat 1 2"), []);
    assert_eq!(cases(&row(3, 1, &[1]), "retreat 0 1 / 3"), []);
    assert_eq!(cases(&combat(3, 1, US), "retreat 0 1"), []);
    assert_eq!(cases(&row(3, 1, &[1]), "end"), []);
}

/// What is counted of players when these lines are played on a position.
fn players(position: &Position, lines: &str) -> PlayerTally {
    let record = format!("position {}\n{lines}", hex_digits(&written(position)));
    Counting::of(record.as_bytes()).tally.players
}

/// S.A.U. infantry 0 on the first of six hexes, E.S.C. infantry 1 on the third, US militia 2 on the fourth; forces 0 and
/// 1 have one player.
fn shared_road() -> Position {
    let mut position = Position::plain(6, 1);
    stand(&mut position, SAU, INFANTRY, 0, 3);
    stand(&mut position, ESC, INFANTRY, 2, 3);
    stand(&mut position, US, MILITIA, 3, 3);
    position.desk.players = Some([1, 1, 0, 2]);
    position
}

#[test]
fn calls_are_counted_by_the_desk() {
    let on = |players: Option<[u8; 4]>| {
        let mut position = shared_road();
        position.desk.players = players;
        let tally = players_rows(&position);
        tally.into_iter().filter(|(_, count)| *count > 0).map(|(name, _)| name).collect::<Vec<&str>>()
    };
    assert_eq!(on(None), ["an old desk"]);
    assert_eq!(on(Some([3, 0, 1, 2])), ["four players"]);
    let neutrals = "  with neutrals to each other on the map";
    assert_eq!(on(Some([1, 1, 0, 2])), ["shared players", "  forces 0 and 1 share", neutrals]);
    assert_eq!(on(Some([1, 0, 1, 2])), ["shared players", "  forces 0 and 2 share"]);
    assert_eq!(on(Some([0, 1, 1, 2])), ["shared players", "  forces 1 and 2 share"]);
    assert_eq!(on(Some([1, 1, 1, 2])), ["shared players", "  forces 0, 1 and 2 share", neutrals]);
    assert_eq!(on(Some([1, 1, 1, 1])), Vec::<&str>::new());
}

/// The count of each row of the desks after two calls.
fn players_rows(position: &Position) -> Vec<(&'static str, u64)> {
    let tally = players(position, "close\nclose");
    let rows: Vec<(&str, u64)> = DESKS.iter().map(|(name, _)| (*name, tally.on_desk(name))).collect();
    assert!(rows.iter().all(|(_, count)| [0, 2].contains(count)));
    rows
}

#[test]
fn an_18_is_counted_by_its_place_and_what_else_is_due() {
    let mut position = shared_road();
    position.units[0].marks = SUPPLIED;
    let tally = players(&position, "move 0 1 2\nmove 0 1 2 3\nmove 0 1 3");
    assert_eq!([0, 1, 2, 3].map(|place| tally.at_place(place)), [0, 0, 2, 0]);
    assert_eq!(tally.with_more_due(), [0, 1]);
    position.units[0].allowance = 1;
    assert_eq!(players(&position, "move 0 1 2").with_more_due(), [1, 0]);
}

#[test]
fn calls_that_neutrals_decide_are_counted() {
    let tally = players(&shared_road(), "move 0 1 2\nmove 0 1\nmove 0 5\nclose");
    // The first is 9 if they are Enemy and ok if they are away; the second is ok in any case.
    assert_eq!((tally.if_enemy(Call::Move), tally.if_away(Call::Move)), ([1, 0], [1, 0]));
    assert_eq!((tally.if_enemy(Call::Close), tally.if_away(Call::Close)), ([0, 0], [0, 0]));
    let mut position = shared_road();
    position.map.hexes[0].flags = PORT;
    let tally = players(&position, "supply 0\nsupply 1\nsupply 3");
    assert_eq!((tally.if_enemy(Call::Supply), tally.if_away(Call::Supply)), ([0, 1], [0, 0]));
    // With four players nothing is decided by neutrals.
    position.desk.players = Some([0, 1, 2, 3]);
    assert_eq!(players(&position, "supply 0\nmove 0 1 2").if_enemy(Call::Supply), [0, 0]);
}

#[test]
fn the_tally_has_a_row_for_each_case_and_a_column_for_each_n() {
    let mut tally = Tally::default();
    tally.count_retreat(Case::Pushed { longest: 2 }, 3);
    tally.count_retreat(Case::Pushed { longest: 2 }, 3);
    tally.count_retreat(Case::OnlyPushesRefused, 1);
    assert_eq!(tally.retreats(Case::Pushed { longest: 2 }), [0, 0, 2]);
    assert_eq!(tally.retreats(Case::Pushed { longest: 1 }), [0, 0, 0]);
    let text = tally.text();
    let row = |name: &str| {
        text.lines().find(|line| line.ends_with(name)).map(|line| line.split_whitespace().take(4).collect())
    };
    assert_eq!(row("accepted, longest chain 2"), Some(vec!["2", "0", "0", "2"]));
    assert_eq!(row("only pushes serve, refused 17"), Some(vec!["1", "1", "0", "0"]));
    assert_eq!(row("destroyed, own units beside it"), Some(vec!["0", "0", "0", "0"]));
}
