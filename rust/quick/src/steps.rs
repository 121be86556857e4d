//! The words of a state; start, pick, step and run.

use crate::fit::View;
use crate::reply::*;
use crate::table::{checked, Row, Table};
use crate::{AGENTS, ROWS, STATE_WORDS, TABLE_WORDS};

/// The parts of a state's words.
pub struct State<'a> {
    clock: &'a mut u32,
    positions: &'a mut [u32; AGENTS],
    registers: &'a mut [[u32; 4]; AGENTS],
    marks: &'a mut [[u32; ROWS]; AGENTS],
    values: &'a mut [[u32; ROWS]; AGENTS],
}

impl<'a> State<'a> {
    pub fn of(words: &'a mut [u32; STATE_WORDS]) -> State<'a> {
        let (clock, rest) = words.split_first_mut().unwrap();
        let (positions, rest) = rest.split_at_mut(AGENTS);
        let (registers, rest) = rest.split_at_mut(4 * AGENTS);
        let (marks, values) = rest.split_at_mut(ROWS * AGENTS);
        State {
            clock,
            positions: positions.try_into().unwrap(),
            registers: registers.as_chunks_mut().0.try_into().unwrap(),
            marks: marks.as_chunks_mut().0.try_into().unwrap(),
            values: values.as_chunks_mut().0.try_into().unwrap(),
        }
    }

    /// Clock 1, positions 0, the table's registers, no marks.
    pub fn start(words: &'a mut [u32; STATE_WORDS], table: &Table) -> State<'a> {
        words.fill(0);
        words[0] = 1;
        words[17..81].copy_from_slice(table.registers);
        State::of(words)
    }

    /// The value of the best message visible to this row.
    ///
    /// It walks every place of each agent, as document 01's executive does; with NARROW only the rows
    /// below the agent's position, as change request T-06 will.
    fn best<const NARROW: bool>(&self, table: &Table, [_, k, early, _]: Row) -> Option<u32> {
        let mut best = None;
        let mut best_late = 0;
        for a in 0..table.agents {
            let walked = if NARROW { (self.positions[a] as usize).min(ROWS) } else { ROWS };
            let rows = table.places(a);
            let marks = &self.marks[a];
            // Downwards, so that of an agent's messages of one late the higher row comes first.
            for i in (0..walked).rev() {
                let [_, sent_k, _, late] = rows[i];
                let is_seen = late < early && marks[i] != 0 && sent_k == k;
                if late > best_late && is_seen {
                    best_late = late;
                    best = Some(self.values[a][i]);
                }
            }
        }
        best
    }

    /// The lates of the agents' current rows.
    pub fn lates(&self, table: &Table) -> Lates {
        Lates::of(table, self.positions)
    }

    /// An agent's position and registers.
    pub fn agent(&self, a: usize) -> (u32, [u32; 4]) {
        (self.positions[a], self.registers[a])
    }
}

/// The lates of the agents' current rows, the greatest number for those that have ended; and a
/// deadline, at first 0, that was the least of them. Lates only rise, so no time up to it is above
/// any.
pub struct Lates {
    lates: [u32; AGENTS],
    deadline: u32,
}

impl Lates {
    fn of(table: &Table, positions: &[u32; AGENTS]) -> Lates {
        let mut lates = [u32::MAX; AGENTS];
        for (a, late) in lates.iter_mut().enumerate().take(table.agents) {
            if positions[a] < table.counts[a] {
                *late = table.places(a)[positions[a] as usize][3];
            }
        }
        Lates { lates, deadline: 0 }
    }

    fn least(&self) -> u32 {
        self.lates.iter().fold(u32::MAX, |least, &late| least.min(late))
    }

    /// Whether the time is above one of them.
    #[inline(always)]
    fn is_passed_by(&mut self, time: u32) -> bool {
        if time > self.deadline {
            self.deadline = self.least();
        }
        time > self.deadline
    }

    /// The lowest of the agents that have the least late; none once all have ended.
    fn first(&self) -> Option<usize> {
        let least = self.least();
        if least == u32::MAX {
            return None;
        }
        self.lates.iter().position(|&late| late == least)
    }
}

/// One step of a state that fits its table.
#[inline(always)]
pub fn take<const NARROW: bool>(
    table: &Table,
    state: &mut State,
    lates: &mut Lates,
    agent: u32,
    time: u32,
) -> u32 {
    let a = agent as usize;
    if a >= table.agents.min(AGENTS) {
        return NO_SUCH_AGENT;
    }
    let count = table.counts[a];
    let position = state.positions[a];
    let rows = table.places(a);
    if position >= count {
        return AGENT_ENDED;
    }
    let row = rows[position as usize % ROWS];
    let [code, k, early, _] = row;
    if time < *state.clock {
        return TIME_BELOW_CLOCK;
    }
    if time < early {
        return TIME_BELOW_EARLY;
    }
    if lates.is_passed_by(time) {
        return TIME_ABOVE_LATE;
    }
    let x = (code >> 16 & 3) as usize;
    let y = (code >> 8 & 3) as usize;
    let mut n = code & 0xFF;
    let registers = &mut state.registers[a];
    match code >> 24 {
        0x00 => registers[x] = k,
        0x01 => registers[x] = registers[x].wrapping_add(registers[y]),
        0x02 => registers[x] = registers[x].wrapping_sub(registers[y]),
        0x03 => registers[x] = registers[y].count_ones(),
        0x04 => registers[x] = registers[y].trailing_zeros(),
        0x10 if registers[x] != 0 => n = 0,
        0x10 | 0x11 => {}
        0x20 => {
            let value = registers[x];
            state.marks[a][position as usize % ROWS] = 1;
            state.values[a][position as usize % ROWS] = value;
        }
        _ => {
            if let Some(value) = state.best::<NARROW>(table, row) {
                state.registers[a][x] = value;
                n = 0;
            }
        }
    }
    let after = position + 1 + n;
    state.positions[a] = after;
    lates.lates[a] = if after < count { rows[after as usize % ROWS][3] } else { u32::MAX };
    *state.clock = time;
    ACCEPTED
}

/// Makes the start state.
pub fn start(table: &[u32], state: &mut [u32]) -> u32 {
    let (Some(words), Some(state)) = (table.first_chunk(), state.first_chunk_mut()) else {
        return BUFFER_TOO_SHORT;
    };
    let Some(table) = checked(words) else {
        return BAD_TABLE;
    };
    State::start(state, &table);
    ACCEPTED
}

fn any_step<const NARROW: bool>(table: &[u32], state: &mut [u32], agent: u32, time: u32) -> u32 {
    let (Some(words), Some(state)) = (table.first_chunk::<TABLE_WORDS>(), state.first_chunk_mut())
    else {
        return BUFFER_TOO_SHORT;
    };
    let Some(table) = checked(words) else {
        return BAD_TABLE;
    };
    if !View::of(state).fits(&table) {
        return BAD_STATE;
    }
    let mut state = State::of(state);
    let mut lates = state.lates(&table);
    take::<NARROW>(&table, &mut state, &mut lates, agent, time)
}

fn any_run<const NARROW: bool>(table: &[u32], state: &mut [u32], choices: &[u32]) -> (u32, u32) {
    let (Some(words), Some(state)) = (table.first_chunk::<TABLE_WORDS>(), state.first_chunk_mut())
    else {
        return (BUFFER_TOO_SHORT, 0);
    };
    let (choices, []) = choices.as_chunks::<2>() else {
        return (ODD_CHOICES, 0);
    };
    let Some(table) = checked(words) else {
        return (BAD_TABLE, 0);
    };
    let mut state = State::start(state, &table);
    let mut lates = state.lates(&table);
    let mut count = 0;
    for &[agent, time] in choices {
        let reply = take::<NARROW>(&table, &mut state, &mut lates, agent, time);
        if reply != ACCEPTED {
            return (reply, count);
        }
        count += 1;
    }
    (ACCEPTED, count)
}

/// Picks a choice that a step accepts: reply, agent and time.
pub fn pick(table: &[u32], state: &[u32]) -> (u32, u32, u32) {
    let (Some(words), Some(state)) = (table.first_chunk::<TABLE_WORDS>(), state.first_chunk())
    else {
        return (BUFFER_TOO_SHORT, 0, 0);
    };
    let Some(table) = checked(words) else {
        return (BAD_TABLE, 0, 0);
    };
    let state = View::of(state);
    if !state.fits(&table) {
        return (BAD_STATE, 0, 0);
    }
    let Some(a) = Lates::of(&table, state.positions).first() else {
        return (AGENT_ENDED, 0, 0);
    };
    let [_, _, early, _] = table.places(a)[state.positions[a] as usize % ROWS];
    (ACCEPTED, a as u32, early.max(state.clock))
}

/// One step.
pub fn step(table: &[u32], state: &mut [u32], agent: u32, time: u32) -> u32 {
    any_step::<false>(table, state, agent, time)
}

/// One step whose search for a message walks the rows below the positions alone.
pub fn step_narrow(table: &[u32], state: &mut [u32], agent: u32, time: u32) -> u32 {
    any_step::<true>(table, state, agent, time)
}

/// A run from the start state.
pub fn run(table: &[u32], state: &mut [u32], choices: &[u32]) -> (u32, u32) {
    any_run::<false>(table, state, choices)
}

/// A run whose searches for a message walk the rows below the positions alone.
pub fn run_narrow(table: &[u32], state: &mut [u32], choices: &[u32]) -> (u32, u32) {
    any_run::<true>(table, state, choices)
}
