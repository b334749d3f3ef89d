//! The table a record is played on: the position, the buffer lent last, and the calls that exist.

use super::line::{hex_digits, read, Line};
use super::roster::roster;
use crate::rules::board::acceptance::accepted;
use crate::rules::order::{Answer, Call, Order, CALLS};
use crate::rules::referee;

/// Every lent byte before a call.
const FILL: u8 = 0xA5;

#[derive(Clone, Debug)]
pub struct Table {
    pub position: Vec<u8>,
    lent: Vec<u8>,
    /// The length a `buffer` line asked for, until a call uses it up.
    buffer: Option<usize>,
    calls: Vec<Call>,
    lines: usize,
}

/// What a line brought about.
#[derive(Clone, Debug, PartialEq, Eq)]
pub enum Reply {
    Silent,
    Answered(Call, Answer),
    Digits(String),
    /// Lines, none too.
    Roster(Vec<String>),
    What(usize),
}

impl Reply {
    /// The answer's line or lines; none where the record has none.
    pub fn text(&self) -> Option<String> {
        match self {
            Reply::Silent => None,
            Reply::Answered(_, answer) => Some(answer.text()),
            Reply::Digits(digits) => Some(digits.clone()),
            Reply::Roster(lines) if lines.is_empty() => None,
            Reply::Roster(lines) => Some(lines.join("\n")),
            Reply::What(line) => Some(format!("what {line}")),
        }
    }
}

impl Table {
    pub fn new(calls: &[Call]) -> Table {
        Table { position: Vec::new(), lent: Vec::new(), buffer: None, calls: calls.to_vec(), lines: 0 }
    }

    pub fn with_all_calls() -> Table {
        Table::new(&CALLS)
    }

    pub fn calls(&self) -> &[Call] {
        &self.calls
    }

    /// The buffer lent last.
    pub fn lent(&self) -> &[u8] {
        &self.lent
    }

    /// Play the next line of the record, given without its newline.
    pub fn play(&mut self, line: &[u8]) -> Reply {
        self.lines += 1;
        match read(line) {
            Line::Nothing | Line::Passed => Reply::Silent,
            Line::Position(bytes) => {
                self.position = bytes;
                Reply::Silent
            }
            Line::Buffer(length) => {
                self.buffer = Some(length);
                Reply::Silent
            }
            Line::Call(order) if self.calls.contains(&order.call()) => {
                let answer = self.call(&order);
                Reply::Answered(order.call(), answer)
            }
            Line::Show => Reply::Digits(hex_digits(&self.position)),
            Line::Lent => Reply::Digits(hex_digits(&self.lent)),
            Line::Roster => Reply::Roster(roster(&self.position)),
            Line::Call(_) | Line::Unreadable => Reply::What(self.lines),
        }
    }

    /// Lend a buffer where the call borrows one, and rule.
    pub fn call(&mut self, order: &Order) -> Answer {
        let asked = self.buffer.take();
        let length = asked.unwrap_or_else(|| self.right_size());
        self.lent = if order.call().borrows() { vec![FILL; length] } else { Vec::new() };
        referee::rule(&mut self.position, order, &mut self.lent)
    }

    /// Width x height of an accepted position, else 0.
    fn right_size(&self) -> usize {
        accepted(&self.position).map_or(0, |position| position.grid().hexes())
    }
}
