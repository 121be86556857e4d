//! Where the words of a table and of a state stand, as in `include/tannoplex.h`.
//!
//! The functions give the place of one word, and panic where there is no such agent, row or
//! register: the place would be another's.

use crate::{AGENTS, REGISTERS, ROWS};

/// The number of agents in a table.
pub const TABLE_AGENTS: usize = 0;
/// Where the row counts begin.
pub const TABLE_ROW_COUNTS: usize = TABLE_AGENTS + 1;
/// Where the starting registers begin.
pub const TABLE_REGISTERS: usize = TABLE_ROW_COUNTS + AGENTS;
/// Where the rows begin.
pub const TABLE_ROWS: usize = TABLE_REGISTERS + REGISTERS * AGENTS;

/// Words of a row.
pub const ROW_WORDS: usize = 4;
/// In a row: op, x, y and n, a byte each from the highest ([`u32::to_be_bytes`]).
pub const ROW_CODE: usize = 0;
/// In a row: k.
pub const ROW_K: usize = 1;
/// In a row: the early of its window.
pub const ROW_EARLY: usize = 2;
/// In a row: the late of its window.
pub const ROW_LATE: usize = 3;

/// The clock of a state.
pub const STATE_CLOCK: usize = 0;
/// Where the positions begin.
pub const STATE_POSITIONS: usize = STATE_CLOCK + 1;
/// Where the registers begin.
pub const STATE_REGISTERS: usize = STATE_POSITIONS + AGENTS;
/// Where the sent marks begin.
pub const STATE_MARKS: usize = STATE_REGISTERS + REGISTERS * AGENTS;
/// Where the sent values begin.
pub const STATE_VALUES: usize = STATE_MARKS + ROWS * AGENTS;

/// The row count of an agent.
#[must_use]
pub fn table_row_count(agent: usize) -> usize {
    TABLE_ROW_COUNTS + of_agent(agent)
}

/// A starting register of an agent.
#[must_use]
pub fn table_register(agent: usize, register: usize) -> usize {
    TABLE_REGISTERS + of_register(agent, register)
}

/// The first of the [`ROW_WORDS`] of a row.
#[must_use]
pub fn table_row(agent: usize, row: usize) -> usize {
    TABLE_ROWS + ROW_WORDS * of_row(agent, row)
}

/// The position of an agent.
#[must_use]
pub fn state_position(agent: usize) -> usize {
    STATE_POSITIONS + of_agent(agent)
}

/// A register of an agent.
#[must_use]
pub fn state_register(agent: usize, register: usize) -> usize {
    STATE_REGISTERS + of_register(agent, register)
}

/// The mark of a row: 1 once it has sent, else 0.
#[must_use]
pub fn state_mark(agent: usize, row: usize) -> usize {
    STATE_MARKS + of_row(agent, row)
}

/// The value that a row has sent; 0 where its mark is.
#[must_use]
pub fn state_value(agent: usize, row: usize) -> usize {
    STATE_VALUES + of_row(agent, row)
}

fn of_agent(agent: usize) -> usize {
    assert!(agent < AGENTS, "no agent {agent}");
    agent
}

fn of_register(agent: usize, register: usize) -> usize {
    assert!(agent < AGENTS && register < REGISTERS, "no register {register} of agent {agent}");
    REGISTERS * agent + register
}

fn of_row(agent: usize, row: usize) -> usize {
    assert!(agent < AGENTS && row < ROWS, "no row {row} of agent {agent}");
    ROWS * agent + row
}
