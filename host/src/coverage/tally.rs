//! How often each answer of each call, each case of a retreat, each broken line and each stage change occurs; and what
//! players and neutrals do.

use super::player_tally::PlayerTally;
use super::retreat_cases::{Case, CASES};
use crate::rules::board::acceptance::line_names;
use crate::rules::order::{Answer, Call, CALLS};

/// Columns of the table: ok, retreated, destroyed, the ten codes, the eighteen refusals.
pub const OUTCOMES: usize = 3 + 10 + 18;

/// The refusals a call can give, by the order of questions.
pub fn possible_refusals(call: Call) -> &'static [u8] {
    match call {
        Call::Supply => &[1, 3],
        Call::Move => &[1, 2, 3, 4, 5, 7, 8, 9, 10, 11, 18],
        Call::End => &[1, 2, 3, 16],
        Call::Attack => &[1, 2, 3, 4, 5, 6, 12, 13],
        Call::Retreat => &[1, 2, 3, 4, 14, 17],
        Call::Losses => &[1, 2, 3, 4, 6, 15],
        Call::Advance => &[1, 2, 3, 4, 5, 7, 11],
        Call::Close => &[1, 2],
    }
}

/// Can the call give this outcome at all?
pub fn is_possible(call: Call, outcome: usize) -> bool {
    match outcome {
        0 => !matches!(call, Call::Attack | Call::Retreat),
        1 | 2 => call == Call::Retreat,
        3..=12 => call == Call::Attack,
        _ => possible_refusals(call).contains(&((outcome - 12) as u8)),
    }
}

pub fn outcome_of(answer: &Answer) -> usize {
    match answer {
        Answer::Accepted => 0,
        Answer::Retreated { .. } => 1,
        Answer::Destroyed => 2,
        Answer::Fought { code, .. } => 2 + usize::from(*code),
        Answer::Refused(refusal) => 12 + usize::from(refusal.number),
    }
}

pub fn outcome_name(outcome: usize) -> String {
    match outcome {
        0 => "ok".to_string(),
        1 => "retreated".to_string(),
        2 => "destroyed".to_string(),
        3..=12 => ["D1", "D2", "D3", "A1", "A2", "A3", "Ae", "De", "Dx", "Ax"][outcome - 3].to_string(),
        _ => format!("no {}", outcome - 12),
    }
}

#[derive(Clone, Debug)]
pub struct Tally {
    counts: [[u64; OUTCOMES]; 8],
    broken: Vec<u64>,
    accepted_positions: u64,
    stages: [[u64; 4]; 4],
    /// By case and owed retreat n.
    retreats: [[u64; 4]; CASES.len()],
    followed: u64,
    pub players: PlayerTally,
}

impl Default for Tally {
    fn default() -> Tally {
        Tally {
            counts: [[0; OUTCOMES]; 8],
            broken: vec![0; line_names().len()],
            accepted_positions: 0,
            stages: [[0; 4]; 4],
            retreats: [[0; 4]; CASES.len()],
            followed: 0,
            players: PlayerTally::default(),
        }
    }
}

impl Tally {
    pub fn count(&mut self, call: Call, answer: &Answer) {
        self.counts[call as usize][outcome_of(answer)] += 1;
    }

    pub fn count_of(&self, call: Call, answer: &Answer) -> u64 {
        self.counts[call as usize][outcome_of(answer)]
    }

    /// Count a position line: accepted, or the first line it breaks.
    pub fn count_position(&mut self, broken_line: Option<&str>) {
        match broken_line.and_then(|name| line_names().iter().position(|line| *line == name)) {
            Some(line) => self.broken[line] += 1,
            None => self.accepted_positions += 1,
        }
    }

    pub fn count_stage(&mut self, before: u8, after: u8) {
        self.stages[usize::from(before)][usize::from(after)] += 1;
    }

    /// Count a retreat that owed n.
    pub fn count_retreat(&mut self, case: Case, n: u8) {
        if let Some(row) = CASES.iter().position(|one| *one == case) {
            self.retreats[row][usize::from(n)] += 1;
        }
    }

    /// How often a case of a retreat occurred for each n, 1 to 3.
    pub fn retreats(&self, case: Case) -> [u64; 3] {
        let row = CASES.iter().position(|one| *one == case);
        row.map_or([0; 3], |row| [1, 2, 3].map(|n: usize| self.retreats[row][n]))
    }

    /// Count an advance to a hex of a part route behind its first.
    pub fn count_followed(&mut self) {
        self.followed += 1;
    }

    pub fn followed(&self) -> u64 {
        self.followed
    }

    pub fn calls(&self) -> u64 {
        self.counts.iter().flatten().sum()
    }

    /// Outcomes that are possible for these calls and did not occur.
    pub fn missing(&self, calls: &[Call]) -> Vec<String> {
        let mut missing = Vec::new();
        for &call in calls {
            for outcome in 0..OUTCOMES {
                if is_possible(call, outcome) && self.counts[call as usize][outcome] == 0 {
                    missing.push(format!("{} {}", call.name(), outcome_name(outcome)));
                }
            }
        }
        missing
    }

    /// The whole table as text.
    pub fn text(&self) -> String {
        let texts = [self.answers_text(), self.retreats_text(), self.players.text(), self.stages_text()];
        [texts.join("\n"), self.broken_text()].join("\n")
    }

    /// A row for each outcome, a column for each call; `.` where a call cannot give it.
    fn answers_text(&self) -> String {
        let mut text = format!("{:<10}", "answer");
        CALLS.iter().for_each(|call| text += &format!("{:>9}", call.name()));
        text += "\n";
        for outcome in 0..OUTCOMES {
            text += &format!("{:<10}", outcome_name(outcome));
            for call in CALLS {
                text += &format!("{:>9}", self.cell(call, outcome));
            }
            text += "\n";
        }
        text += &format!("{:<10}", "all");
        CALLS.iter().for_each(|&call| text += &format!("{:>9}", self.counts[call as usize].iter().sum::<u64>()));
        text += "\n";
        text
    }

    fn cell(&self, call: Call, outcome: usize) -> String {
        let count = self.counts[call as usize][outcome];
        if count == 0 && !is_possible(call, outcome) {
            ".".to_string()
        } else {
            count.to_string()
        }
    }

    /// A row for each case of a retreat: how often in all, and for each n; then the advances along part routes.
    fn retreats_text(&self) -> String {
        let mut text = format!("{:>9}{:>9}{:>9}{:>9}  retreats\n", "all", "n 1", "n 2", "n 3");
        for case in CASES {
            let [one, two, three] = self.retreats(case);
            let all = one + two + three;
            text += &format!("{all:>9}{one:>9}{two:>9}{three:>9}  {}\n", case.name());
        }
        text + &format!("{:>9}  advances along a part route, behind its first hex\n", self.followed)
    }

    fn stages_text(&self) -> String {
        let mut text = "stage before and after accepted calls\n".to_string();
        for before in 0..4 {
            for after in 0..4 {
                if self.stages[before][after] > 0 {
                    text += &format!("{:>9}  {before} -> {after}\n", self.stages[before][after]);
                }
            }
        }
        text
    }

    fn broken_text(&self) -> String {
        let mut text = format!("positions, by the first line broken\n{:>9}  accepted\n", self.accepted_positions);
        for (name, count) in line_names().iter().zip(&self.broken) {
            text += &format!("{count:>9}  {name}\n");
        }
        text
    }
}
