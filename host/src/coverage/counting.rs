//! A record played line by line, and what it brings about counted.

use super::player_cases::{if_away, if_enemy, neutral_on_path};
use super::retreat_cases::cases_of;
use super::tally::Tally;
use crate::record::line::{read, Line};
use crate::record::table::{Reply, Table};
use crate::rules::board::acceptance::accepted;
use crate::rules::board::position::*;
use crate::rules::calls::advance::leads_to;
use crate::rules::order::{Answer, Order};

pub struct Counting {
    pub tally: Tally,
    /// Lines that cannot be read.
    pub unreadable: u64,
    table: Table,
    /// The part routes along which somebody may still advance.
    part_routes: Vec<Vec<usize>>,
}

impl Counting {
    /// Play and count a whole record.
    pub fn of(text: &[u8]) -> Counting {
        let mut counting = Counting {
            tally: Tally::default(),
            unreadable: 0,
            table: Table::with_all_calls(),
            part_routes: Vec::new(),
        };
        text.split(|&byte| byte == b'\n').for_each(|line| counting.line(line));
        counting
    }

    /// Play one line and count what it brought about.
    fn line(&mut self, line: &[u8]) {
        let before = accepted(&self.table.position).ok();
        let said = read(line);
        if let Line::Call(order) = &said {
            self.players(before.as_ref(), order);
        }
        match (self.table.play(line), said) {
            (Reply::Answered(call, answer), Line::Call(order)) => {
                self.tally.count(call, &answer);
                if let Some(before) = before {
                    self.call(&before, &order, &answer);
                }
            }
            (Reply::What(_), _) => self.unreadable += 1,
            (_, Line::Position(_)) => {
                self.part_routes.clear();
                self.tally.count_position(accepted(&self.table.position).err());
            }
            _ => (),
        }
    }

    /// Count on which desk a call stands, and whether neutrals decide it.
    fn players(&mut self, position: Option<&Position>, order: &Order) {
        let (if_enemy, if_away) = (if_enemy(&self.table, order), if_away(&self.table, order));
        self.tally.players.count_desk(position);
        self.tally.players.count_ruled(order.call(), if_enemy, if_away);
    }

    /// Count which retreat it was, the neutral on a path and, of an accepted call, the change of stage and the advance along a part route.
    fn call(&mut self, before: &Position, order: &Order, answer: &Answer) {
        for case in cases_of(before, order, answer) {
            self.tally.count_retreat(case, before.desk.owed_retreat);
        }
        neutral_on_path(before, order, answer)
            .into_iter()
            .for_each(|neutral| self.tally.players.count_neutral(neutral));
        let after = accepted(&self.table.position).ok().filter(|_| !matches!(answer, Answer::Refused(_)));
        let Some(after) = after else { return };
        self.tally.count_stage(before.desk.stage, after.desk.stage);
        if self.follows_a_part_route(before, order) {
            self.tally.count_followed();
        }
        if *answer == Answer::Destroyed {
            self.part_routes.extend(after.desk.filled_routes().pop());
        }
        if after.desk.stage == QUIET {
            self.part_routes.clear();
        }
    }

    /// Does a unit advance along a part route, to a hex behind the first?
    fn follows_a_part_route(&self, before: &Position, order: &Order) -> bool {
        let Order::Advance { unit, hex } = order else { return false };
        let (unit, hex) = (&before.units[usize::from(*unit)], usize::from(*hex));
        self.part_routes.iter().any(|route| route[0] != hex && leads_to(before, unit, route, hex))
    }
}
