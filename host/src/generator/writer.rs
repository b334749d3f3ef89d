//! The record as it is being written, played along so that orders can be chosen by what they would bring.

use super::chance::Chance;
use super::orders;
use super::positions::forces::shared_players;
use crate::coverage::player_cases::{if_away, if_enemy, Ruled};
use crate::coverage::retreat_cases::cases_of;
use crate::coverage::tally::Tally;
use crate::record::line::{hex_digits, order_text};
use crate::record::table::{Reply, Table};
use crate::rules::board::acceptance::accepted;
use crate::rules::board::contents::written;
use crate::rules::board::position::*;
use crate::rules::order::{Answer, Call, Order};

/// No story has more calls on one position.
const LONGEST_STORY: u64 = 60;

pub struct Writer {
    pub chance: Chance,
    table: Table,
    tally: Tally,
    /// How many calls stood on positions with shared players.
    shared_calls: u64,
    text: Vec<u8>,
}

/// How an order is chosen among several.
#[derive(Clone, Copy, PartialEq, Eq)]
pub enum Aim {
    /// The answer that has come up least so far, of a refused retreat the case.
    Rare,
    /// An order that is accepted.
    Accepted,
    /// An order that neutrals decide, of these the answer that has come up least.
    Neutral,
    /// Whatever comes.
    Any,
}

impl Writer {
    pub fn new(seed: u64, calls: &[Call]) -> Writer {
        let (chance, table) = (Chance::new(seed), Table::new(calls));
        Writer { chance, table, tally: Tally::default(), shared_calls: 0, text: Vec::new() }
    }

    /// How many call lines have been written.
    pub fn calls(&self) -> u64 {
        self.tally.calls()
    }

    /// The record; now and then its last newline is missing.
    pub fn finished(mut self) -> Vec<u8> {
        if self.chance.percent(30) && self.text.ends_with(b"\n") {
            self.text.pop();
        }
        self.text
    }

    /// The position now, if it is accepted.
    pub fn position(&self) -> Option<Position> {
        accepted(&self.table.position).ok()
    }

    /// Write a line and play it.
    pub fn line(&mut self, line: &[u8]) -> Reply {
        self.text.extend(line);
        self.text.push(b'\n');
        let reply = self.table.play(line);
        if let Reply::Answered(call, answer) = &reply {
            self.tally.count(*call, answer);
            self.shared_calls += u64::from(self.position().is_some_and(|position| position.desk.shares_players()));
        }
        reply
    }

    /// A position line, its digits now and then in upper case.
    pub fn set_position(&mut self, bytes: &[u8]) {
        let bytes = self.seated(bytes);
        let mut digits = hex_digits(&bytes);
        if self.chance.percent(4) {
            digits = digits.to_uppercase();
        }
        if self.chance.percent(2) {
            self.buffer_line(bytes.len() % 100);
        }
        self.line(format!("position {digits}").as_bytes());
        if self.chance.percent(2) {
            self.line(b"lent");
        }
    }

    /// The position; an accepted one gets shared players where fewer than half of the calls might else stand on such.
    fn seated(&mut self, bytes: &[u8]) -> Vec<u8> {
        let enough = 2 * self.shared_calls >= self.calls() + LONGEST_STORY;
        match accepted(bytes) {
            Ok(mut position) if !enough && !position.desk.shares_players() => {
                position.desk.players = Some(shared_players(&mut self.chance));
                written(&position)
            }
            _ => bytes.to_vec(),
        }
    }

    /// A call line with what belongs around it: a buffer before, show and lent after.
    pub fn call(&mut self, order: &Order) -> Answer {
        self.maybe_buffer(order.call());
        let mut text = order_text(order);
        if order.call() == Call::Retreat && order.second_list().is_empty() && self.chance.percent(10) {
            text += " /";
        }
        let text = self.spelled(&text);
        let before = self.table.position.clone();
        let Reply::Answered(_, answer) = self.line(text.as_bytes()) else { return Answer::Accepted };
        self.count_retreat(&before, order, &answer);
        let large = before.len() > 4000;
        let changed = self.table.position != before;
        if changed && self.chance.percent(if large { 30 } else { 90 }) || self.chance.percent(3) && !large {
            self.line(b"show");
        }
        if order.call().borrows() && self.chance.percent(if large { 30 } else { 85 }) || self.chance.percent(3) {
            self.line(b"lent");
        }
        answer
    }

    fn count_retreat(&mut self, before: &[u8], order: &Order, answer: &Answer) {
        let Ok(before) = accepted(before) else { return };
        for case in cases_of(&before, order, answer) {
            self.tally.count_retreat(case, before.desk.owed_retreat);
        }
    }

    /// Now and then a buffer of another length, or of the right one.
    fn maybe_buffer(&mut self, call: Call) {
        let often = if call.borrows() { 6 } else { 2 };
        if !self.chance.percent(often) {
            return;
        }
        let right = self.position().map_or(0, |position| position.grid().hexes());
        let long = if self.chance.percent(5) { 65535 } else { right + 256 };
        let length = self.chance.pick(&[0, 1, right, right + 1, right.saturating_sub(1), right * 2, long]);
        self.buffer_line(length);
    }

    /// A buffer line, sometimes with lines after it that do not use it up.
    fn buffer_line(&mut self, length: usize) {
        self.line(format!("buffer {length}").as_bytes());
        if self.chance.percent(20) {
            let line = self.chance.pick(&[
                b"buffer x".as_slice(),
                b"close now",
                b"supply 65536",
                b"show",
                b"lent",
                b"",
                b"# buffer",
            ]);
            self.line(line);
        }
    }

    /// The line as somebody else might type it: other blanks, leading zeros, a carriage return.
    fn spelled(&mut self, text: &str) -> String {
        match self.chance.below(60) {
            0 => text.replace(' ', "  "),
            1 => text.replace(' ', "\t"),
            2 => text.replace(' ', " 0").replace("0/", "/"),
            3 => text.replace(' ', " 000000").replace("000000/", "/"),
            4 => format!("{text}  "),
            5 => format!("{text}\r"),
            6 => format!("{text} \t \r"),
            _ => text.to_string(),
        }
    }

    /// Choose an order for a call and play it.
    pub fn order(&mut self, call: Call, aim: Aim) -> Answer {
        let order = self.chosen(call, aim);
        self.call(&order)
    }

    fn chosen(&mut self, call: Call, aim: Aim) -> Order {
        let position = self.position().unwrap_or_else(|| Position::plain(3, 3));
        let large = position.map.hexes.len() > 300 || position.units.len() > 100;
        let tries = match aim {
            Aim::Any => 1,
            _ if large => 3,
            _ => 10,
        };
        let orders: Vec<Order> = (0..tries).map(|_| self.candidate(&position, call, aim)).collect();
        let worst = |order: &&Order| self.worth(order, aim);
        orders.iter().min_by_key(worst).cloned().unwrap_or(Order::Close)
    }

    /// A plausible order; where refusals are wanted it may be spoiled once or twice.
    fn candidate(&mut self, position: &Position, call: Call, aim: Aim) -> Order {
        let chance = &mut self.chance;
        if aim == Aim::Accepted {
            return orders::plausible(chance, position, call);
        }
        match chance.below(10) {
            0 => orders::random(chance, position, call),
            1..=4 => orders::plausible(chance, position, call),
            5 if call == Call::Retreat => orders::nearly_legal(chance, position),
            5..=7 => {
                let order = orders::plausible(chance, position, call);
                orders::spoiled(chance, position, &order)
            }
            _ => {
                let order = orders::plausible(chance, position, call);
                let spoiled = orders::spoiled(chance, position, &order);
                orders::spoiled(chance, position, &spoiled)
            }
        }
    }

    /// The smaller the better: how often this answer or case has come, or whether it is a refusal.
    fn worth(&self, order: &Order, aim: Aim) -> u64 {
        let answer = self.table.clone().call(order);
        match aim {
            Aim::Rare => rarity(self.count_of(order, &answer), &answer),
            Aim::Accepted => u64::from(matches!(answer, Answer::Refused(_))),
            Aim::Neutral if self.neutrals_decide(order) => rarity(self.count_of(order, &answer), &answer),
            Aim::Neutral => u64::MAX,
            Aim::Any => 0,
        }
    }

    /// Would the order be ruled otherwise if neutrals were Enemy, or away?
    fn neutrals_decide(&self, order: &Order) -> bool {
        [if_enemy(&self.table, order), if_away(&self.table, order)].into_iter().any(|ruled| ruled != Ruled::Alike)
    }

    /// How often the answer has come up, of a refused retreat the case.
    fn count_of(&self, order: &Order, answer: &Answer) -> u64 {
        let refused = self.position().filter(|_| matches!(answer, Answer::Refused(_)));
        let case = refused.and_then(|position| cases_of(&position, order, answer).pop());
        match case {
            Some(case) => self.tally.retreats(case).iter().sum(),
            None => self.tally.count_of(order.call(), answer),
        }
    }

    /// A call that exists and suits the position's stage and phase.
    pub fn likely_call(&mut self) -> Call {
        let position = self.position();
        let weights = position.as_ref().map_or([1; 8], call_weights);
        let calls = self.table.calls().to_vec();
        let weights: Vec<usize> = calls.iter().map(|&call| weights[call as usize]).collect();
        calls[self.chance.weighted(&weights)]
    }

    pub fn exists(&self, call: Call) -> bool {
        self.table.calls().contains(&call)
    }
}

/// An accepted order is worth having four times as often as a refusal; the codes of an attack are counted apart.
fn rarity(count: u64, answer: &Answer) -> u64 {
    match answer {
        Answer::Refused(_) | Answer::Fought { .. } => 4 * count,
        _ => count,
    }
}

/// How likely each call is, in the order of the calls.
fn call_weights(position: &Position) -> [usize; 8] {
    let desk = &position.desk;
    match desk.stage {
        QUIET if desk.phase == COMBAT => {
            let attack = if orders::targets(position, |one, other| one != other).is_empty() { 8 } else { 70 };
            [10, 2, 12, attack, 2, 2, 2, 2]
        }
        QUIET => {
            let movement = if orders::movers(position).is_empty() { 10 } else { 65 };
            [14, movement, 14, 3, 2, 2, 2, 2]
        }
        RETREATS => [5, 2, 3, 3, 82, 2, 2, 2],
        LOSSES => [6, 2, 3, 3, 2, 80, 2, 2],
        _ => [6, 2, 3, 3, 2, 2, 70, 12],
    }
}
