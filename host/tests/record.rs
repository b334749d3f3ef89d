//! The record language and the buffers it lends.

mod common;
use common::*;
use host::record::line::{hex_digits, order_text, read, Line};
use host::record::table::Table;
use host::rules::board::contents::written;
use host::rules::board::position::*;
use host::rules::order::{call_list, Call, Order};

/// Play lines, all answers joined by " | ".
fn play_on(mut table: Table, lines: &[&[u8]]) -> String {
    let answers: Vec<String> = lines.iter().filter_map(|line| table.play(line).text()).collect();
    answers.join(" | ")
}

fn play(lines: &[&str]) -> String {
    let bytes: Vec<&[u8]> = lines.iter().map(|line| line.as_bytes()).collect();
    play_on(Table::with_all_calls(), &bytes)
}

/// A position line: three hexes in a row, force 3 moving, US infantry on hex 0.
fn row_line() -> String {
    let mut position = Position::plain(3, 1);
    position.desk.force = 3;
    stand(&mut position, US, INFANTRY, 0, 1);
    format!("position {}", hex_digits(&written(&position)))
}

#[test]
fn the_first_position_is_empty() {
    assert_eq!(play(&["show", "lent", "supply 0", "lent"]), "- | - | no 1 0 | -");
}

#[test]
fn a_broken_position_is_1_before_anything() {
    assert_eq!(play(&["position 00", "show", "move 999", "close", "supply 9"]), "00 | no 1 0 | no 1 0 | no 1 0");
}

#[test]
fn supply_writes_the_buffer_and_refusals_leave_it() {
    assert_eq!(play(&[&row_line(), "supply 3", "lent"]), "ok | 000000");
    assert_eq!(play(&[&row_line(), "supply 5", "lent"]), "no 3 0 | a5a5a5");
}

#[test]
fn a_wrong_buffer_is_3_and_holds_for_one_call() {
    let row = row_line();
    assert_eq!(play(&[&row, "buffer 2", "supply 3", "lent", "supply 3"]), "no 3 0 | a5a5 | ok");
    assert_eq!(play(&[&row, "buffer 4", "end", "lent", "end", "lent"]), "no 3 0 | a5a5a5a5 | ok | 000000");
    assert_eq!(play(&[&row, "buffer 0", "attack 0 1 0", "lent"]), "no 3 0 | -");
    assert_eq!(play(&[&row, "buffer 4", "buffer 3", "supply 3"]), "ok");
}

#[test]
fn a_buffer_is_used_up_by_a_call_that_borrows_none_and_not_by_other_lines() {
    let row = row_line();
    assert_eq!(play(&[&row, "buffer 2", "move 0 1", "lent", "supply 3"]), "ok | - | ok");
    assert_eq!(play(&["buffer 2", &row, "show x", "lent", "", "supply 3"]), "what 3 | - | no 3 0");
}

#[test]
fn lent_stays_until_the_next_call() {
    let row = row_line();
    assert_eq!(
        play(&[&row, "supply 3", "what", "position -", "lent", "close", "lent"]),
        "ok | what 3 | 000000 | no 1 0 | -"
    );
}

#[test]
fn an_accepted_attack_hands_the_scratch_back_all_0() {
    let mut position = combat(3, 1, US);
    stand(&mut position, US, INFANTRY, 0, 1);
    stand(&mut position, ESC, INFANTRY, 1, 1);
    let line = format!("position {}", hex_digits(&written(&position)));
    assert_eq!(play(&[&line, "attack 1 1 1", "lent", "attack 1 1 0", "lent"]), "no 4 1 | a5a5a5 | fought 1 1 | 000000");
}

#[test]
fn show_follows_accepted_calls() {
    let row = row_line();
    let before = row.replace("position ", "");
    let moved = play(&[&row, "move 0 1", "show"]);
    assert!(moved.starts_with("ok | ") && !moved.ends_with(&before));
    assert_eq!(play(&[&row, "move 0 2", "show"]), format!("no 7 1 | {before}"));
}

#[test]
fn lists_may_be_empty_and_long() {
    let row = row_line();
    assert_eq!(play(&[&row, "move 0", "attack 0 1", "losses", "retreat 0"]), "no 3 0 | no 3 0 | no 3 0 | no 2 0");
    assert_eq!(play(&[&row, &format!("losses{}", " 0".repeat(5000))]), "no 3 0");
}

#[test]
fn a_retreat_may_have_a_second_list_behind_a_slash() {
    let order = |line: &str| match read(line.as_bytes()) {
        Line::Call(Order::Retreat { hex, route, pushes }) => (hex, route, pushes),
        other => panic!("{line}: {other:?}"),
    };
    assert_eq!(order("retreat 12 7 2 / 8 9"), (12, vec![7, 2], vec![8, 9]));
    assert_eq!(order("retreat\t12 /\t008  9 \r"), (12, vec![], vec![8, 9]));
    for line in ["retreat 12 7", "retreat 12 7 /", "retreat 12 7 / \t\r"] {
        assert_eq!(order(line), (12, vec![7], vec![]), "{line}");
    }
    assert_eq!(order(&format!("retreat 1 / {}", "2 ".repeat(5000))).2.len(), 5000);
}

#[test]
fn orders_are_written_as_they_are_read() {
    for text in ["retreat 12", "retreat 12 7 2", "retreat 12 7 / 8 9", "retreat 12 / 8", "move 0 1 2", "end"] {
        let Line::Call(order) = read(text.as_bytes()) else { panic!("{text}") };
        assert_eq!(order_text(&order), text);
    }
    let Line::Call(order) = read(b"retreat 12 7 /") else { panic!("no order") };
    assert_eq!(order_text(&order), "retreat 12 7");
}

#[test]
fn a_slash_elsewhere_cannot_be_read() {
    for line in [
        "retreat /",
        "retreat / 1",
        "retreat 1 / 2 / 3",
        "retreat 1 / /",
        "retreat 1 //",
        "retreat 1 /2",
        "retreat 1/ 2",
        "retreat 1 2/3",
        "retreat 1 / x",
        "retreat 1 / 65536",
        "retreat 1 x / 2",
        "retreat 1 \\ 2",
        "move 0 1 /",
        "move 0 / 1",
        "attack 1 2 3 / 4",
        "losses / 1",
        "losses /",
        "advance 1 / 2",
        "supply 1 /",
        "end /",
        "close /",
        "show /",
        "position / 00",
        "buffer 1 /",
        "/",
        "/ retreat 1",
    ] {
        assert_eq!(play(&[line]), "what 1", "{line}");
    }
}

#[test]
fn operands_must_fit_the_call() {
    for line in [
        "supply",
        "supply 1 2",
        "move",
        "end 0",
        "attack",
        "attack 1",
        "retreat",
        "advance 1",
        "advance 1 2 3",
        "close 0",
    ] {
        assert_eq!(play(&[line]), "what 1", "{line}");
    }
    for line in ["position", "position 00 00", "buffer", "buffer 1 2", "show 1", "lent 1"] {
        assert_eq!(play(&[line]), "what 1", "{line}");
    }
}

#[test]
fn numbers_are_decimal_up_to_65535() {
    assert_eq!(
        play(&["supply 65535", "supply 65536", "supply 00000000000000000000065535"]),
        "no 1 0 | what 2 | no 1 0"
    );
    for line in ["supply +1", "supply -1", "supply 0x1", "supply 1.", "supply 99999999999999999999999", "buffer 65536"]
    {
        assert_eq!(play(&[line]), "what 1", "{line}");
    }
}

#[test]
fn hex_digits_come_in_either_case_and_in_pairs() {
    assert_eq!(play(&["position aBCdeF", "show"]), "abcdef");
    assert_eq!(play(&["position abc", "position 0g", "position --", "show"]), "what 1 | what 2 | what 3 | -");
    let longest = format!("position {}", "0".repeat(2 * 65535));
    assert_eq!(play(&[&longest, "close"]), "no 1 0");
    let too_long = format!("position {}", "0".repeat(2 * 65536));
    assert_eq!(play(&[&too_long, "show"]), "what 1 | -");
}

#[test]
fn blanks_tabs_carriage_returns_and_remarks_do_no_harm() {
    assert_eq!(play(&["\tsupply \t 3 \t\r", "# supply", "", "  ", "\r", "#", "Supply 3"]), "no 1 0 | what 7");
    assert_eq!(play(&["sup\rply 3", "supply\u{b}3"]), "what 1 | what 2");
}

#[test]
fn any_bytes_can_be_read_as_what() {
    let table = Table::with_all_calls();
    let lines: [&[u8]; 4] = [b"\0", b"\xff\xfe", b"supply 3\0", b"move \xc3\xa9"];
    assert_eq!(play_on(table, &lines), "what 1 | what 2 | what 3 | what 4");
}

#[test]
fn calls_that_do_not_exist_are_what_and_use_no_buffer() {
    let table = Table::new(&call_list("supply,move").expect("two calls"));
    let row = row_line();
    let lines: [&[u8]; 4] = [row.as_bytes(), b"buffer 2", b"end", b"supply 3"];
    assert_eq!(play_on(table, &lines), "what 3 | no 3 0");
}

#[test]
fn call_lists_are_read_by_name() {
    assert_eq!(call_list("end,close"), Some(vec![Call::End, Call::Close]));
    assert_eq!(call_list("end,fly"), None);
    assert_eq!(call_list(""), None);
}

#[test]
fn a_roster_has_a_line_for_each_unit_on_the_map() {
    let row = row_line();
    assert_eq!(play(&["roster"]), "refused 1");
    assert_eq!(play(&[&row, "roster", "roster 1"]), "0 0 O | what 3");
    let mut position = combat(3, 1, US);
    stand(&mut position, US, INFANTRY, 0, 1);
    stand(&mut position, ESC, INFANTRY, 2, 1);
    let line = format!("position {}", hex_digits(&written(&position)));
    assert_eq!(play(&[&line, "roster"]), "0 0 O\n1 2 O");
}

#[test]
fn lines_for_people_are_passed_over() {
    assert_eq!(play(&["echo", "echo off", "help", "map", "map 4"]), "");
    assert_eq!(play(&["echo on", "help 1", "map 5", "map 1 2"]), "what 1 | what 2 | what 3 | what 4");
}
