//! Tables: their words, and the rules for rows.

use crate::reply::*;
use crate::{AGENTS, LAST_TIME, REGISTERS, ROWS, TABLE_WORDS};

pub const SET: u8 = 0x00;
pub const ADD: u8 = 0x01;
pub const SUB: u8 = 0x02;
pub const ONES: u8 = 0x03;
pub const LOW: u8 = 0x04;
pub const SKIP: u8 = 0x10;
pub const JUMP: u8 = 0x11;
pub const SEND: u8 = 0x20;
pub const RECV: u8 = 0x30;

/// One row with its window.
#[derive(Clone, Copy, Debug, Default, PartialEq, Eq)]
pub struct Row {
    pub op: u8,
    pub x: u8,
    pub y: u8,
    pub n: u8,
    pub k: u32,
    pub early: u32,
    pub late: u32,
}

/// Starting registers and rows of one agent.
#[derive(Clone, Debug, Default, PartialEq, Eq)]
pub struct Agent {
    pub registers: [u32; REGISTERS],
    pub rows: Vec<Row>,
}

/// The agents, numbered from 0.
#[derive(Clone, Debug, Default, PartialEq, Eq)]
pub struct Table {
    pub agents: Vec<Agent>,
}

const ROW_COUNTS: usize = 1;
const START_REGISTERS: usize = ROW_COUNTS + AGENTS;
const ROW_WORDS: usize = START_REGISTERS + AGENTS * REGISTERS;

/// Which of the fields x, y, n, k a row of this op names; none for an op that is not in the paper.
fn named_fields(op: u8) -> Option<[bool; 4]> {
    match op {
        SET => Some([true, false, false, true]),
        ADD | SUB | ONES | LOW => Some([true, true, false, false]),
        SKIP => Some([true, false, true, false]),
        JUMP => Some([false, false, true, false]),
        SEND => Some([true, false, false, true]),
        RECV => Some([true, false, true, true]),
        _ => None,
    }
}

impl Row {
    /// Reply 4: unknown op, register above 3, n above 31, or an unused field not 0.
    fn has_bad_field(&self) -> bool {
        let Some([x, y, n, k]) = named_fields(self.op) else {
            return true;
        };
        let at_most = |named: bool, value: u32, most: u32| value <= if named { most } else { 0 };
        !(at_most(x, self.x.into(), 3)
            && at_most(y, self.y.into(), 3)
            && at_most(n, self.n.into(), 31)
            && at_most(k, self.k, u32::MAX))
    }

    /// The positions that a row at position p can go on to.
    pub fn goes_on_to(&self, p: usize) -> Vec<usize> {
        let target = p + 1 + usize::from(self.n);
        match self.op {
            SKIP | RECV => vec![p + 1, target],
            JUMP => vec![target],
            _ => vec![p + 1],
        }
    }

    fn from_words(words: &[u32]) -> Row {
        let [op, x, y, n] = words[0].to_be_bytes();
        Row { op, x, y, n, k: words[1], early: words[2], late: words[3] }
    }

    fn to_words(self) -> [u32; 4] {
        let code = u32::from_be_bytes([self.op, self.x, self.y, self.n]);
        [code, self.k, self.early, self.late]
    }
}

/// The first of 4, 5 and 6 that holds of row `i` of an agent; 0 where none does.
pub fn row_reply(rows: &[Row], i: usize) -> u32 {
    let row = rows[i];
    if row.has_bad_field() {
        return BAD_FIELD;
    }
    if i + 1 + usize::from(row.n) > rows.len() {
        return BAD_TARGET;
    }
    if row.early >= row.late || row.late > LAST_TIME {
        return BAD_WINDOW;
    }
    ACCEPTED
}

/// 7 where the early or the late of row `i` of an agent is above that of a row that it can go on to,
/// else 0. The end is no row and has no window.
pub fn window_reply(rows: &[Row], i: usize) -> u32 {
    let row = rows[i];
    for position in row.goes_on_to(i) {
        if let Some(next) = rows.get(position) {
            if row.early > next.early || row.late > next.late {
                return WINDOW_GOES_BACK;
            }
        }
    }
    ACCEPTED
}

/// A row that is refused: the reply, its agent and its number.
pub type RowRefusal = (u32, usize, usize);

impl Table {
    /// The first row for which a rule does not give 0, agent by agent.
    fn first_refused_by(&self, rule: fn(&[Row], usize) -> u32) -> Option<RowRefusal> {
        for (a, agent) in self.agents.iter().enumerate() {
            for i in 0..agent.rows.len() {
                let reply = rule(&agent.rows, i);
                if reply != ACCEPTED {
                    return Some((reply, a, i));
                }
            }
        }
        None
    }

    /// The first row that is refused: with 4 to 6, and once all rows of all agents have passed these,
    /// with 7.
    pub fn first_refused_row(&self) -> Option<RowRefusal> {
        self.first_refused_by(row_reply).or_else(|| self.first_refused_by(window_reply))
    }

    /// The table's 2,129 words, unused ones 0.
    pub fn to_words(&self) -> Vec<u32> {
        let mut words = vec![0; TABLE_WORDS];
        words[0] = self.agents.len() as u32;
        for (a, agent) in self.agents.iter().enumerate() {
            words[ROW_COUNTS + a] = agent.rows.len() as u32;
            for (r, value) in agent.registers.iter().enumerate() {
                words[START_REGISTERS + REGISTERS * a + r] = *value;
            }
            for (i, row) in agent.rows.iter().enumerate() {
                let at = ROW_WORDS + 4 * (ROWS * a + i);
                words[at..at + 4].copy_from_slice(&row.to_words());
            }
        }
        words
    }

    /// The table in these words, whatever its rows are; none where a count is not good or an unused
    /// word is not 0.
    pub fn decoded(words: &[u32]) -> Option<Table> {
        let agent_count = words[0] as usize;
        if agent_count == 0 || agent_count > AGENTS {
            return None;
        }
        let mut table = Table::default();
        for a in 0..agent_count {
            let row_count = words[ROW_COUNTS + a] as usize;
            if row_count == 0 || row_count > ROWS {
                return None;
            }
            let at = START_REGISTERS + REGISTERS * a;
            let registers = words[at..at + REGISTERS].try_into().unwrap();
            let rows = (0..row_count)
                .map(|i| Row::from_words(&words[ROW_WORDS + 4 * (ROWS * a + i)..]))
                .collect();
            table.agents.push(Agent { registers, rows });
        }
        // What was not decoded is unused: encoding gives 0 there, so a difference is a word not 0.
        let unused_are_0 = table.to_words() == words[..TABLE_WORDS];
        unused_are_0.then_some(table)
    }

    /// The table that these words hold; none where they break a rule.
    pub fn from_words(words: &[u32]) -> Option<Table> {
        Table::decoded(words).filter(|table| table.first_refused_row().is_none())
    }
}

/// Checks a table: 1, then 8, else 0.
pub fn check(table: &[u32]) -> u32 {
    if table.len() < TABLE_WORDS {
        return BUFFER_TOO_SHORT;
    }
    match Table::from_words(table) {
        None => BAD_TABLE,
        Some(_) => ACCEPTED,
    }
}
