//! The tables and choices that are measured.

use reference::table::{ADD, JUMP, RECV, SEND, SET, SKIP};
use reference::{Agent, Row, State, Table, AGENTS, ROWS};

/// What the rows of a table are, by their number.
pub type Ops = fn(usize) -> u8;

/// Every second row receives what the rows before sent.
pub const MANY_RECVS: Ops = |i| if i % 2 == 0 { SEND } else { RECV };
/// The same with nothing received.
pub const NO_RECVS: Ops = |i| [SEND, ADD, SET, SKIP, JUMP][i % 5];

/// A table of `agents` with `rows` each. Row i of every agent has the window 10i+1 to 10i+9, so that
/// a RECV sees what every earlier row has sent under its number.
pub fn table(agents: usize, rows: usize, op: impl Fn(usize) -> u8) -> Table {
    let row = |i: usize| {
        let op = op(i);
        let k = if [SEND, RECV, SET].contains(&op) { 7 } else { 0 };
        let x = if op == JUMP { 0 } else { (i % 4) as u8 };
        let late = 10 * i as u32 + 9;
        Row { op, x, y: 0, n: 0, k, early: late - 8, late }
    };
    let agent = |a: usize| Agent {
        registers: [1, 2, 3, 4].map(|r| (100 * a + r) as u32),
        rows: (0..rows).map(row).collect(),
    };
    Table { agents: (0..agents).map(agent).collect() }
}

/// The largest table, with `sends` rows that send in the first half of the rows, and rows that
/// receive in the second half.
pub fn table_with_sends(sends: usize) -> Table {
    let mut table = table(AGENTS, ROWS, |i| if i < ROWS / 2 { SET } else { RECV });
    for place in 0..sends {
        table.agents[place % AGENTS].rows[place / AGENTS].op = SEND;
    }
    table
}

/// Choices that bring all agents to their end, row by row, as an agent and a time each.
pub fn choices(table: &Table) -> Vec<[u32; 2]> {
    let mut state = State::start(table);
    let mut choices = Vec::new();
    let rows = table.agents[0].rows.len();
    for i in 0..rows {
        for a in 0..table.agents.len() {
            let choice = [a as u32, 10 * i as u32 + 1];
            assert_eq!(state.step(table, choice[0], choice[1]), 0, "row {i} of agent {a}");
            choices.push(choice);
        }
    }
    assert!(state.ready(table).is_empty());
    choices
}
