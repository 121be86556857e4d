//! Where the words of a table and of a state stand, by document 01's list of them.

use reference::{AGENTS, REGISTERS, ROWS};

/// Words of a row: code, k, early, late.
pub const ROW_WORDS: usize = 4;
/// The late of a row, counted from its first word.
pub const ROW_LATE: usize = 3;

/// The number of agents in a table.
pub const AGENT_COUNT: usize = 0;
/// The clock of a state.
pub const CLOCK: usize = 0;

/// Where the rows of a table begin, and the marks of a state: both follow 1 + 16 + 64 words.
const AFTER_REGISTERS: usize = 1 + AGENTS + REGISTERS * AGENTS;

/// The row count of an agent in a table.
pub fn row_count(agent: usize) -> usize {
    1 + agent
}

/// The position of an agent in a state.
pub fn position(agent: usize) -> usize {
    1 + agent
}

/// A register of an agent: the starting one in a table, the present one in a state.
pub fn register(agent: usize, register: usize) -> usize {
    1 + AGENTS + REGISTERS * agent + register
}

/// The first word of a row in a table. Row 32 of an agent is row 0 of the next.
pub fn row(agent: usize, row: usize) -> usize {
    AFTER_REGISTERS + ROW_WORDS * (ROWS * agent + row)
}

/// The mark of a row in a state.
pub fn mark(agent: usize, row: usize) -> usize {
    AFTER_REGISTERS + ROWS * agent + row
}

/// The value of a row in a state.
pub fn value(agent: usize, row: usize) -> usize {
    mark(AGENTS, 0) + ROWS * agent + row
}

/// Whether every agent's position is its row count, of words of their full length.
pub fn all_have_ended(table: &[u32], state: &[u32]) -> bool {
    let agents = 0..table[AGENT_COUNT] as usize;
    agents.into_iter().all(|a| state[position(a)] == table[row_count(a)])
}

#[cfg(test)]
mod tests {
    use super::*;
    use reference::{STATE_WORDS, TABLE_WORDS};

    #[test]
    fn the_parts_fill_a_table_and_a_state() {
        assert_eq!((row(0, 0), row(AGENTS, 0)), (81, TABLE_WORDS));
        assert_eq!((mark(0, 0), value(0, 0), value(AGENTS, 0)), (81, 593, STATE_WORDS));
        assert_eq!((row_count(AGENTS), position(AGENTS)), (register(0, 0), register(0, 0)));
        assert_eq!((register(0, 0), register(AGENTS, 0)), (17, 81));
    }
}
