//! The words of a table and the rules for rows.

use crate::reply::*;
use crate::{any_set, AGENTS, LAST_TIME, ROWS, TABLE_WORDS};

/// One row: code word, k, early, late.
pub type Row = [u32; 4];

/// The parts of a table's words.
#[derive(Clone, Copy)]
pub struct Table<'a> {
    pub agents: usize,
    pub counts: &'a [u32; AGENTS],
    pub registers: &'a [u32; 4 * AGENTS],
    pub rows: &'a [Row; ROWS * AGENTS],
}

impl<'a> Table<'a> {
    pub fn of(words: &'a [u32; TABLE_WORDS]) -> Table<'a> {
        let (head, rows) = words.split_at(81);
        Table {
            agents: words[0] as usize,
            counts: head[1..17].try_into().unwrap(),
            registers: head[17..].try_into().unwrap(),
            rows: rows.as_chunks().0.try_into().unwrap(),
        }
    }

    /// The 32 places of one agent.
    pub fn places(&self, agent: usize) -> &'a [Row; ROWS] {
        self.rows[ROWS * agent..][..ROWS].try_into().unwrap()
    }
}

const JUMP: u32 = 0x11;
pub const SEND: u32 = 0x20;

/// For each op below 64: the bits of its code word, and those of k, that must be 0.
const MUST_BE_0: [(u32, u32); 64] = {
    const X: u32 = 0x0003_0000;
    const Y: u32 = 0x0000_0300;
    const N: u32 = 0x0000_001F;
    const OP: u32 = 0xFF00_0000;
    const ALL: u32 = u32::MAX;
    // A code word of an unknown op is not 0, so this refuses it.
    let mut table = [(ALL, ALL); 64];
    table[0x00] = (!(OP | X), 0);
    table[0x01] = (!(OP | X | Y), ALL);
    table[0x02] = (!(OP | X | Y), ALL);
    table[0x03] = (!(OP | X | Y), ALL);
    table[0x04] = (!(OP | X | Y), ALL);
    table[0x10] = (!(OP | X | N), ALL);
    table[0x11] = (!(OP | N), ALL);
    table[0x20] = (!(OP | X), 0);
    table[0x30] = (!(OP | X | N), 0);
    table
};

fn has_bad_field([code, k, _, _]: Row) -> bool {
    match MUST_BE_0.get((code >> 24) as usize) {
        Some((code_0, k_0)) => (code & code_0) | (k & k_0) != 0,
        None => true,
    }
}

/// The position p+1+n.
fn target([code, ..]: Row, i: usize) -> usize {
    i + 1 + (code & 0xFF) as usize
}

fn has_bad_window([_, _, early, late]: Row) -> bool {
    (early >= late) | (late > LAST_TIME)
}

/// Whether the early or late of a row is above that of one that it goes on to.
fn goes_back([_, _, early, late]: Row, next: Row) -> bool {
    (early > next[2]) | (late > next[3])
}

/// Whether each of an agent's rows keeps the rules 4 to 7.
///
/// Every row goes on at p+1+n, which is p+1 where it names no n, and all but a JUMP at p+1. So each
/// is held against the row before it, unless that is a JUMP over it; and only one whose n is not 0
/// has a target to be looked at.
#[inline(always)]
fn rows_are_good(rows: &[Row]) -> bool {
    let mut bad = false;
    let mut before = [0; 4];
    for (i, &row) in rows.iter().enumerate() {
        bad |= has_bad_field(row) | has_bad_window(row) | goes_back(before, row);
        before = row;
        if row[0] & 0xFF != 0 {
            let at = target(row, i);
            bad |= if at < rows.len() { goes_back(row, rows[at]) } else { at > rows.len() };
            if row[0] >> 24 == JUMP {
                before = [0; 4];
            }
        }
    }
    !bad
}

/// The first of 4 to 6 that a row breaks.
fn row_refusal(rows: &[Row], i: usize) -> Option<u32> {
    let row = rows[i];
    if has_bad_field(row) {
        Some(BAD_FIELD)
    } else if target(row, i) > rows.len() {
        Some(BAD_TARGET)
    } else if has_bad_window(row) {
        Some(BAD_WINDOW)
    } else {
        None
    }
}

/// 7 where a row goes on to an earlier one.
fn window_refusal(rows: &[Row], i: usize) -> Option<u32> {
    let row = rows[i];
    let far = target(row, i);
    let near = if row[0] >> 24 == JUMP { far } else { i + 1 };
    let is_back = |at: usize| rows.get(at).is_some_and(|&next| goes_back(row, next));
    (is_back(near) || is_back(far)).then_some(WINDOW_GOES_BACK)
}

impl<'a> Table<'a> {
    /// The rows of each agent, where the counts are good.
    fn rows_of_agents(self) -> impl Iterator<Item = &'a [Row]> {
        let counts = self.counts[..self.agents].iter().enumerate();
        counts.map(move |(a, &count)| &self.places(a)[..count as usize])
    }

    /// Whether all rows keep the rules 4 to 7, where the counts are good.
    pub fn is_good(self) -> bool {
        self.rows_of_agents().all(rows_are_good)
    }

    /// The first row that is refused, and its line in the table's text, in which each agent has a
    /// line and each row: with 4 to 6, or with 7 where no row is refused with these.
    #[cold]
    pub fn first_refusal(self) -> Option<(u32, u32)> {
        for refusal in [row_refusal, window_refusal] {
            let mut line = 1;
            for rows in self.rows_of_agents() {
                for i in 0..rows.len() {
                    line += 1;
                    if let Some(reply) = refusal(rows, i) {
                        return Some((reply, line));
                    }
                }
                line += 1;
            }
        }
        None
    }
}

/// The table of these words; none where they break a rule.
pub fn checked(words: &[u32; TABLE_WORDS]) -> Option<Table<'_>> {
    let table = Table::of(words);
    if table.agents.wrapping_sub(1) >= AGENTS
        || any_set(&table.counts[table.agents..])
        || any_set(&table.registers[4 * table.agents..])
        || any_set(table.rows[ROWS * table.agents..].as_flattened())
    {
        return None;
    }
    for (a, &count) in table.counts[..table.agents].iter().enumerate() {
        if count.wrapping_sub(1) >= ROWS as u32 {
            return None;
        }
        let (rows, unused) = table.places(a).split_at(count as usize);
        if !rows_are_good(rows) || any_set(unused.as_flattened()) {
            return None;
        }
    }
    Some(table)
}

/// Checks a table.
pub fn check(table: &[u32]) -> u32 {
    let Some(words) = table.first_chunk() else {
        return BUFFER_TOO_SHORT;
    };
    match checked(words) {
        Some(_) => ACCEPTED,
        None => BAD_TABLE,
    }
}
