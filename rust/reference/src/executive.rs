//! States: their words, start, pick, step and run.

use std::cmp::Reverse;

use crate::reply::*;
use crate::table::{Row, Table, ADD, JUMP, LOW, ONES, RECV, SEND, SET, SKIP, SUB};
use crate::{AGENTS, LAST_TIME, REGISTERS, ROWS, STATE_WORDS, TABLE_WORDS};

/// An agent's state: position and registers.
#[derive(Clone, Copy, Debug, PartialEq, Eq)]
pub struct AgentState {
    pub position: usize,
    pub registers: [u32; REGISTERS],
}

/// A state record. `sent[a][i]` is the value that row i of agent a has sent, if it has.
#[derive(Clone, Debug, PartialEq, Eq)]
pub struct State {
    pub clock: u32,
    pub agents: Vec<AgentState>,
    pub sent: Vec<Vec<Option<u32>>>,
}

/// A sent message that a RECV sees.
#[derive(Clone, Copy, Debug, PartialEq, Eq)]
pub struct Message {
    pub agent: usize,
    pub row: usize,
    pub late: u32,
    pub value: u32,
}

const POSITIONS: usize = 1;
const STATE_REGISTERS: usize = POSITIONS + AGENTS;
const MARKS: usize = STATE_REGISTERS + AGENTS * REGISTERS;
const VALUES: usize = MARKS + AGENTS * ROWS;

impl State {
    /// Clock 1, positions 0, the table's registers, no marks.
    pub fn start(table: &Table) -> State {
        State {
            clock: 1,
            agents: table
                .agents
                .iter()
                .map(|agent| AgentState { position: 0, registers: agent.registers })
                .collect(),
            sent: table.agents.iter().map(|agent| vec![None; agent.rows.len()]).collect(),
        }
    }

    /// The state's 1,105 words, unused ones 0.
    pub fn to_words(&self) -> Vec<u32> {
        let mut words = vec![0; STATE_WORDS];
        words[0] = self.clock;
        for (a, agent) in self.agents.iter().enumerate() {
            words[POSITIONS + a] = agent.position as u32;
            for (r, value) in agent.registers.iter().enumerate() {
                words[STATE_REGISTERS + REGISTERS * a + r] = *value;
            }
            for (i, sent) in self.sent[a].iter().enumerate() {
                if let Some(value) = sent {
                    words[MARKS + ROWS * a + i] = 1;
                    words[VALUES + ROWS * a + i] = *value;
                }
            }
        }
        words
    }

    /// The state that these words hold; none where they do not fit the table.
    pub fn from_words(table: &Table, words: &[u32]) -> Option<State> {
        let agent_count = table.agents.len();
        let state = State {
            clock: words[0],
            agents: (0..agent_count)
                .map(|a| AgentState {
                    position: words[POSITIONS + a] as usize,
                    registers: words[STATE_REGISTERS + REGISTERS * a..][..REGISTERS]
                        .try_into()
                        .unwrap(),
                })
                .collect(),
            sent: (0..agent_count)
                .map(|a| {
                    (0..table.agents[a].rows.len())
                        .map(|i| ROWS * a + i)
                        .map(|place| (words[MARKS + place] == 1).then(|| words[VALUES + place]))
                        .collect()
                })
                .collect(),
        };
        // Encoding gives 0 for unused places, for marks that are not 1 and for values without a mark.
        let unused_are_0 = state.to_words() == words[..STATE_WORDS];
        (unused_are_0 && state.fits(table)).then_some(state)
    }

    fn fits(&self, table: &Table) -> bool {
        let positions_fit = self
            .agents
            .iter()
            .zip(&table.agents)
            .all(|(state, agent)| state.position <= agent.rows.len());
        let marks_fit = (0..self.agents.len()).all(|a| {
            self.sent[a].iter().enumerate().all(|(i, sent)| {
                let row = table.agents[a].rows[i];
                sent.is_none() || (row.op == SEND && i < self.agents[a].position)
            })
        });
        positions_fit
            && marks_fit
            && (1..=LAST_TIME).contains(&self.clock)
            && self.deadline(table).is_none_or(|late| self.clock <= late)
    }

    /// The current row of an agent; none once it has ended.
    pub fn current_row(&self, table: &Table, a: usize) -> Option<Row> {
        table.agents[a].rows.get(self.agents[a].position).copied()
    }

    /// The least late among the unfinished agents' current rows; none once all have ended.
    pub fn deadline(&self, table: &Table) -> Option<u32> {
        (0..self.agents.len()).filter_map(|a| self.current_row(table, a)).map(|row| row.late).min()
    }

    /// The times at which a step of agent a would be accepted, first and last; none where none is.
    pub fn times(&self, table: &Table, a: usize) -> Option<(u32, u32)> {
        let first = self.clock.max(self.current_row(table, a)?.early);
        let last = self.deadline(table)?;
        (first <= last).then_some((first, last))
    }

    /// The agents of which a step would be accepted at some time.
    pub fn ready(&self, table: &Table) -> Vec<usize> {
        (0..self.agents.len()).filter(|&a| self.times(table, a).is_some()).collect()
    }

    /// The choice to be picked: of the unfinished agents the one whose current row has the least late,
    /// of several the lowest, at the later of the clock and that row's early. None once all have ended.
    pub fn picked(&self, table: &Table) -> Option<(u32, u32)> {
        let mut picked: Option<(usize, Row)> = None;
        for a in 0..self.agents.len() {
            let Some(row) = self.current_row(table, a) else { continue };
            if picked.is_none_or(|(_, other)| row.late < other.late) {
                picked = Some((a, row));
            }
        }
        picked.map(|(a, row)| (a as u32, self.clock.max(row.early)))
    }

    /// The reply to a choice: the first of 10 to 13 and 15 that holds, else 0.
    pub fn choice_reply(&self, table: &Table, agent: u32, time: u32) -> u32 {
        let a = agent as usize;
        if a >= self.agents.len() {
            return NO_SUCH_AGENT;
        }
        let Some(row) = self.current_row(table, a) else {
            return AGENT_ENDED;
        };
        if time < self.clock {
            return TIME_BELOW_CLOCK;
        }
        if time < row.early {
            return TIME_BELOW_EARLY;
        }
        if self.deadline(table).is_some_and(|late| time > late) {
            return TIME_ABOVE_LATE;
        }
        ACCEPTED
    }

    /// The messages visible to this RECV row, in the order of their places.
    pub fn visible(&self, table: &Table, recv: Row) -> Vec<Message> {
        let mut found = Vec::new();
        for (agent, sent) in self.sent.iter().enumerate() {
            for (row, value) in sent.iter().enumerate() {
                let sender = table.agents[agent].rows[row];
                if let Some(value) = *value {
                    if sender.k == recv.k && sender.late < recv.early {
                        found.push(Message { agent, row, late: sender.late, value });
                    }
                }
            }
        }
        found
    }

    /// Of several messages: the greatest late, then the lower agent, then the higher row.
    pub fn best(messages: &[Message]) -> Option<Message> {
        messages.iter().copied().max_by_key(|m| (m.late, Reverse(m.agent), m.row))
    }

    /// One step: the reply, and the state after it where it is accepted.
    pub fn step(&mut self, table: &Table, agent: u32, time: u32) -> u32 {
        let reply = self.choice_reply(table, agent, time);
        if reply == ACCEPTED {
            self.take(table, agent as usize, time);
        }
        reply
    }

    /// The effect of the current row of agent a, chosen for this time.
    pub fn take(&mut self, table: &Table, a: usize, time: u32) {
        let position = self.agents[a].position;
        let row = table.agents[a].rows[position];
        let (x, y) = (usize::from(row.x), usize::from(row.y));
        let other = position + 1 + usize::from(row.n);
        let message = if row.op == RECV { Self::best(&self.visible(table, row)) } else { None };
        let AgentState { position: at, registers: r } = &mut self.agents[a];
        *at = position + 1;
        match row.op {
            SET => r[x] = row.k,
            ADD => r[x] = r[x].wrapping_add(r[y]),
            SUB => r[x] = r[x].wrapping_sub(r[y]),
            ONES => r[x] = (0..32).map(|bit| r[y] >> bit & 1).sum(),
            LOW => r[x] = (0..32).find(|bit| r[y] >> bit & 1 == 1).unwrap_or(32),
            SKIP if r[x] == 0 => *at = other,
            SKIP => {}
            JUMP => *at = other,
            SEND => self.sent[a][position] = Some(r[x]),
            RECV => match message {
                Some(message) => r[x] = message.value,
                None => *at = other,
            },
            op => unreachable!("op {op} in an accepted table"),
        }
        self.clock = time;
    }
}

/// Whether the words of a state fit a table. Both buffers are long enough.
pub fn fits(table: &Table, state: &[u32]) -> bool {
    State::from_words(table, state).is_some()
}

/// Makes the start state: 1, then 8, else 0.
pub fn start(table: &[u32], state: &mut [u32]) -> u32 {
    if table.len() < TABLE_WORDS || state.len() < STATE_WORDS {
        return BUFFER_TOO_SHORT;
    }
    let Some(table) = Table::from_words(table) else {
        return BAD_TABLE;
    };
    state[..STATE_WORDS].copy_from_slice(&State::start(&table).to_words());
    ACCEPTED
}

/// Picks a choice: 0 with an agent and a time; 1, 8, 9, then 11 where all agents have ended, with 0
/// and 0.
pub fn pick(table: &[u32], state: &[u32]) -> (u32, u32, u32) {
    if table.len() < TABLE_WORDS || state.len() < STATE_WORDS {
        return (BUFFER_TOO_SHORT, 0, 0);
    }
    let Some(table) = Table::from_words(table) else {
        return (BAD_TABLE, 0, 0);
    };
    let Some(record) = State::from_words(&table, state) else {
        return (BAD_STATE, 0, 0);
    };
    match record.picked(&table) {
        None => (AGENT_ENDED, 0, 0),
        Some((agent, time)) => (ACCEPTED, agent, time),
    }
}

/// One step: 1, 8, 9, then 10 to 13 and 15, else 0.
pub fn step(table: &[u32], state: &mut [u32], agent: u32, time: u32) -> u32 {
    if table.len() < TABLE_WORDS || state.len() < STATE_WORDS {
        return BUFFER_TOO_SHORT;
    }
    let Some(table) = Table::from_words(table) else {
        return BAD_TABLE;
    };
    let Some(mut record) = State::from_words(&table, state) else {
        return BAD_STATE;
    };
    let reply = record.step(&table, agent, time);
    if reply == ACCEPTED {
        state[..STATE_WORDS].copy_from_slice(&record.to_words());
    }
    reply
}

/// A run from the start state: the reply and the count of accepted steps.
pub fn run(table: &[u32], state: &mut [u32], choices: &[u32]) -> (u32, u32) {
    if table.len() < TABLE_WORDS || state.len() < STATE_WORDS {
        return (BUFFER_TOO_SHORT, 0);
    }
    if !choices.len().is_multiple_of(2) {
        return (ODD_CHOICES, 0);
    }
    let Some(table) = Table::from_words(table) else {
        return (BAD_TABLE, 0);
    };
    let mut record = State::start(&table);
    let mut reply = ACCEPTED;
    let mut count = 0;
    for choice in choices.chunks(2) {
        reply = record.step(&table, choice[0], choice[1]);
        if reply != ACCEPTED {
            break;
        }
        count += 1;
    }
    state[..STATE_WORDS].copy_from_slice(&record.to_words());
    (reply, count)
}
