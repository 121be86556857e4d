//! Cases of picks: one of a state of any origin, and tables that are run to their end by picks alone.

use reference::reply::{ACCEPTED, AGENT_ENDED};
use reference::{State, Table, STATE_WORDS};

use crate::board::Board;
use crate::choices::{schedule, Order};
use crate::counts::{Call, Counts};
use crate::damage::damage_state;
use crate::layout;
use crate::lent::Lent;
use crate::rng::Rng;
use crate::suite::{any_size, lent_table, listed, reached_state, same, same_memory, Outcome};
use crate::tables::{fitting_state, table, Size};

/// Where the state of a pick comes from, before it is damaged.
#[derive(Clone, Copy, Debug, PartialEq, Eq)]
pub enum Origin {
    Start,
    /// Somewhere in a run.
    Reached,
    /// Mostly no run reaches it.
    Fitting,
    /// All agents have ended.
    Ended,
}

impl Origin {
    pub const ALL: [Origin; 4] = [Origin::Start, Origin::Reached, Origin::Fitting, Origin::Ended];

    fn any(rng: &mut Rng) -> Origin {
        match rng.below(10) {
            0 => Origin::Start,
            1..=3 => Origin::Reached,
            4..=8 => Origin::Fitting,
            _ => Origin::Ended,
        }
    }

    fn state(self, rng: &mut Rng, table: &Table) -> State {
        match self {
            Origin::Start => State::start(table),
            Origin::Reached => reached_state(rng, table),
            Origin::Fitting => fitting_state(rng, table),
            Origin::Ended => ended_state(rng, table),
        }
    }
}

/// The state after a run that ends all agents.
fn ended_state(rng: &mut Rng, table: &Table) -> State {
    let mut state = State::start(table);
    for (agent, time) in schedule(rng, table, Order::Random) {
        state.step(table, agent, time);
    }
    state
}

/// Demands that what is picked is stepped: by the reference, and by the board as by the reference.
fn stepped(board: &dyn Board, table: &Lent, state: &Lent, agent: u32, time: u32) -> Outcome {
    let mut expected = state.clone();
    let mut got = state.clone();
    let reply = reference::step(table.words(), expected.words_mut(), agent, time);
    same("the reference's step of what is picked", &ACCEPTED, &reply)?;
    let reply = board.step(table.words(), got.words_mut(), agent, time);
    same("step of what is picked", &ACCEPTED, &reply)?;
    same_memory("the state after what is picked", &expected, &got)
}

pub fn pick_case(rng: &mut Rng, board: &dyn Board, counts: &mut Counts) -> Outcome<Lent> {
    let size = any_size(rng);
    let (table, lent) = lent_table(rng, size, 8);
    let before = lent.clone();
    let origin = Origin::any(rng);
    let state = origin.state(rng, &table);
    let mut words = state.to_words();
    if rng.percent(25) {
        damage_state(rng, &table, &state, &mut words);
    }
    let lent_state = Lent::new(rng, &words, false);
    let state_before = lent_state.clone();

    let picked = reference::pick(lent.words(), lent_state.words());
    let got = board.pick(lent.words(), lent_state.words());
    let outcome = same("reply, agent and time", &picked, &got)
        .and_then(|()| same_memory("the state", &state_before, &lent_state))
        .and_then(|()| same_memory("the table", &before, &lent))
        .and_then(|()| match picked {
            (ACCEPTED, agent, time) => stepped(board, &lent, &lent_state, agent, time),
            _ => Ok(()),
        });
    counts.reply(Call::Pick, picked.0);
    counts.picks.pick(origin, lent.words(), lent_state.words(), picked);
    outcome.map_err(|what| {
        let (table, state) = (listed(before.words()), listed(&words));
        format!("{what}\ntable: {table}\nstate: {state}")
    })?;
    Ok(lent)
}

/// The state in which the board's own picks and steps end all agents, and how many steps they are: no
/// more than the table has rows.
fn run_by_picks(board: &dyn Board, table: &[u32], rows: usize) -> Outcome<(usize, Vec<u32>)> {
    let mut state = vec![0; STATE_WORDS];
    same("reply of start", &ACCEPTED, &board.start(table, &mut state))?;
    let mut steps = 0;
    loop {
        let (reply, agent, time) = board.pick(table, &state);
        if reply != ACCEPTED {
            same("the last pick", &(AGENT_ENDED, 0, 0), &(reply, agent, time))?;
            return Ok((steps, state));
        }
        if steps == rows {
            return Err(format!("more steps than the {rows} rows of the table"));
        }
        let reply = board.step(table, &mut state, agent, time);
        same("step of what is picked", &ACCEPTED, &reply)?;
        steps += 1;
    }
}

/// A table run by picks to the end of all agents: with the state that the reference's picks give, and,
/// but for the clock, that of any accepted choices, which are as many.
pub fn by_picks_case(rng: &mut Rng, board: &dyn Board, counts: &mut Counts) -> Outcome<Lent> {
    let size = rng.pick(&[Size::Small, Size::Long, Size::Any]);
    let table = table(rng, size);
    let lent = Lent::new(rng, &table.to_words(), true);
    let rows = table.agents.iter().map(|agent| agent.rows.len()).sum();

    let mut by_picks = State::start(&table);
    while let Some((agent, time)) = by_picks.picked(&table) {
        same("the reference's step", &ACCEPTED, &by_picks.step(&table, agent, time))?;
    }
    let choices = schedule(rng, &table, Order::Random);
    let mut by_choices = State::start(&table);
    for &(agent, time) in &choices {
        same("the reference's step", &ACCEPTED, &by_choices.step(&table, agent, time))?;
    }

    let outcome = run_by_picks(board, lent.words(), rows).and_then(|(steps, state)| {
        let after_clock = layout::CLOCK + 1;
        let by_choices = by_choices.to_words();
        same("the state", &by_picks.to_words(), &state)?;
        same("the state but the clock", &by_choices[after_clock..], &state[after_clock..])?;
        same("the number of steps", &choices.len(), &steps)?;
        counts.picks.run(steps, rows);
        Ok(())
    });
    outcome.map_err(|what| format!("{what}\ntable: {}", listed(lent.words())))?;
    Ok(lent)
}
