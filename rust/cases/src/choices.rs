//! Random choices, lists of them, and whole schedules.

use reference::table::RECV;
use reference::{State, Table};

use crate::rng::Rng;

/// An agent and a time.
pub type Choice = (u32, u32);

/// How a schedule picks its next choice among those that would be accepted.
#[derive(Clone, Copy, Debug, PartialEq, Eq)]
pub enum Order {
    LowestFirst,
    HighestFirst,
    Random,
}

/// A choice that is accepted; none once all agents have ended.
pub fn accepted(rng: &mut Rng, table: &Table, state: &State, order: Order) -> Option<Choice> {
    let ready = state.ready(table);
    let a = match order {
        Order::LowestFirst => *ready.first()?,
        Order::HighestFirst => *ready.last()?,
        Order::Random if ready.is_empty() => return None,
        Order::Random => rng.pick(&ready),
    };
    let (first, last) = state.times(table, a).unwrap();
    let time = match rng.below(4) {
        0 => last,
        1 => rng.time(first, last),
        _ => first,
    };
    Some((a as u32, time))
}

/// Choices that are all accepted and bring every agent to its end.
pub fn schedule(rng: &mut Rng, table: &Table, order: Order) -> Vec<Choice> {
    let mut state = State::start(table);
    let mut choices = Vec::new();
    while let Some((agent, time)) = accepted(rng, table, &state, order) {
        state.step(table, agent, time);
        choices.push((agent, time));
    }
    choices
}

/// Any choice: accepted, or at one of the edges of 10 to 13 and 15.
pub fn any(rng: &mut Rng, table: &Table, state: &State) -> Choice {
    let count = table.agents.len() as u32;
    let unfinished: Vec<usize> =
        (0..table.agents.len()).filter(|&a| state.current_row(table, a).is_some()).collect();
    let agent = if unfinished.is_empty() || rng.percent(10) {
        rng.below(table.agents.len())
    } else {
        rng.pick(&unfinished)
    };
    let row = state.current_row(table, agent).unwrap_or_default();
    let deadline = state.deadline(table).unwrap_or(reference::LAST_TIME);
    let time = rng.pick(&[state.clock, row.early, row.late, deadline]);
    match rng.below(16) {
        0 => (count + rng.pick(&[0, 1, 16, 1 << 16, 1 << 31]), time),
        1 => (rng.word(), rng.word()),
        2 => (agent as u32, state.clock - 1),
        3 => (agent as u32, row.early.wrapping_sub(1)),
        4 => (agent as u32, deadline + 1),
        5 => (agent as u32, rng.word()),
        6 => (agent as u32, time),
        7 => (agent as u32, time.wrapping_add(1)),
        8..=10 => receiving(rng, table, state).unwrap_or((agent as u32, time)),
        _ => accepted(rng, table, state, Order::Random).unwrap_or((agent as u32, time)),
    }
}

/// An accepted choice of an agent whose row is a RECV.
fn receiving(rng: &mut Rng, table: &Table, state: &State) -> Option<Choice> {
    let mut ready = state.ready(table);
    ready.retain(|&a| state.current_row(table, a).is_some_and(|row| row.op == RECV));
    if ready.is_empty() {
        return None;
    }
    let a = rng.pick(&ready);
    Some((a as u32, state.times(table, a)?.0))
}

/// The words of a list of choices.
pub fn words(choices: &[Choice]) -> Vec<u32> {
    choices.iter().flat_map(|&(agent, time)| [agent, time]).collect()
}
