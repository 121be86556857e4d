//! Boards that pick wrongly, each of which the comparison must find.

mod faulty;

use std::cell::Cell;

use cases::suite::Kind;
use cases::{compare, layout, Plan};
use faulty::{is_found, Faulty, Picked, GOOD};
use reference::reply::*;
use reference::table::JUMP;
use reference::{Row, State, Table, LAST_TIME, STATE_WORDS, TABLE_WORDS};

/// The agent and the time that a board picks of a state that fits; none where it finds that all
/// agents have ended.
type Rule = fn(&Table, &State) -> Option<(usize, u32)>;

/// The unfinished agents with their rows.
fn unfinished(table: &Table, state: &State) -> Vec<(usize, Row)> {
    let row = |a| state.current_row(table, a).map(|row| (a, row));
    (0..table.agents.len()).filter_map(row).collect()
}

/// The time of a choice of this row.
fn time(state: &State, row: &Row) -> u32 {
    row.early.max(state.clock)
}

/// The unfinished agent of which this is least, of several the lowest, at the right time.
fn least<K: Ord>(table: &Table, state: &State, of: fn(&Row) -> K) -> Option<(usize, u32)> {
    let all = unfinished(table, state);
    all.iter().min_by_key(|(_, row)| of(row)).map(|(a, row)| (*a, time(state, row)))
}

const RIGHT: Rule = |table, state| least(table, state, |row| row.late);

const WRONG_RULES: [(&str, Rule); 13] = [
    ("the greatest late", |table, state| least(table, state, |row| LAST_TIME - row.late)),
    ("the least early", |table, state| least(table, state, |row| row.early)),
    ("the least window", |table, state| least(table, state, |row| (row.early, row.late))),
    ("the shortest window", |table, state| least(table, state, |row| row.late - row.early)),
    ("the lowest agent", |table, state| least(table, state, |_| ())),
    ("the lowest agent that can be run", |table, state| {
        let &a = state.ready(table).first()?;
        Some((a, state.times(table, a)?.0))
    }),
    ("a tie given to the higher number", |table, state| {
        let all = unfinished(table, state);
        let (a, row) = all.iter().rev().min_by_key(|(_, row)| row.late)?;
        Some((*a, time(state, row)))
    }),
    ("an ended agent's last row counted", |table, state| {
        unfinished(table, state).first()?;
        let last = |a: usize| table.agents[a].rows.last().copied().unwrap();
        let row = |a: usize| state.current_row(table, a).unwrap_or_else(|| last(a));
        let a = (0..table.agents.len()).min_by_key(|&a| row(a).late)?;
        Some((a, time(state, &row(a))))
    }),
    ("the clock left out of the time", |table, state| {
        let (a, _) = RIGHT(table, state)?;
        Some((a, state.current_row(table, a)?.early))
    }),
    ("the early left out of the time", |table, state| {
        let (a, _) = RIGHT(table, state)?;
        Some((a, state.clock))
    }),
    ("the last time for the first", |table, state| {
        let (a, _) = RIGHT(table, state)?;
        Some((a, state.times(table, a)?.1))
    }),
    ("the end told once one agent has ended", |table, state| {
        RIGHT(table, state).filter(|_| unfinished(table, state).len() == table.agents.len())
    }),
    ("the end told while one agent is left", |table, state| {
        RIGHT(table, state).filter(|_| unfinished(table, state).len() > 1)
    }),
];

/// A board that refuses as it must, and else picks by this rule.
fn pick_by(rule: Rule, table: &[u32], state: &[u32]) -> Picked {
    let picked = quick::pick(table, state);
    if !matches!(picked.0, ACCEPTED | AGENT_ENDED) {
        return picked;
    }
    let table = Table::from_words(table).unwrap();
    let state = State::from_words(&table, state).unwrap();
    rule(&table, &state).map_or((AGENT_ENDED, 0, 0), |(a, time)| (ACCEPTED, a as u32, time))
}

#[test]
fn wrong_rules_are_found_and_the_right_one_is_not() {
    for (fault, rule) in WRONG_RULES {
        let pick = |table: &[u32], state: &[u32]| pick_by(rule, table, state);
        is_found(fault, &Faulty { pick: &pick, ..GOOD }, Kind::Pick);
    }
    let pick = |table: &[u32], state: &[u32]| pick_by(RIGHT, table, state);
    let board = Faulty { pick: &pick, ..GOOD };
    let plan = Plan(vec![(Kind::Pick, 12_000), (Kind::ByPicks, 1_000)]);
    compare(&board, &plan, 1).unwrap_or_else(|failure| panic!("{failure}"));
}

/// The words of a table and of a state, each cut off or lengthened with 0 to its full length.
fn whole(table: &[u32], state: &[u32]) -> (Vec<u32>, Vec<u32>) {
    let (mut table, mut state) = (table.to_vec(), state.to_vec());
    table.resize(TABLE_WORDS, 0);
    state.resize(STATE_WORDS, 0);
    (table, state)
}

/// What a faulty board refuses or tells, and how it picks.
type WrongPick = (&'static str, fn(&[u32], &[u32]) -> Picked);
const WRONG_PICKS: [WrongPick; 13] = [
    ("11 before 9", |table, state| match quick::pick(table, state) {
        (BAD_STATE, ..) if layout::all_have_ended(table, state) => (AGENT_ENDED, 0, 0),
        picked => picked,
    }),
    ("9 before 8", |table, state| match quick::pick(table, state) {
        (BAD_TABLE, ..) if !(1..=LAST_TIME).contains(&state[layout::CLOCK]) => (BAD_STATE, 0, 0),
        picked => picked,
    }),
    ("8 before 1", |table, state| match quick::pick(table, state) {
        (BUFFER_TOO_SHORT, ..) if table.len() >= TABLE_WORDS && quick::check(table) != ACCEPTED => {
            (BAD_TABLE, 0, 0)
        }
        picked => picked,
    }),
    ("a short table taken", |table, state| match quick::pick(table, state) {
        (BUFFER_TOO_SHORT, ..) if state.len() >= STATE_WORDS => {
            let (table, state) = whole(table, state);
            quick::pick(&table, &state)
        }
        picked => picked,
    }),
    ("a short state taken", |table, state| match quick::pick(table, state) {
        (BUFFER_TOO_SHORT, ..) if table.len() >= TABLE_WORDS => {
            let (table, state) = whole(table, state);
            quick::pick(&table, &state)
        }
        picked => picked,
    }),
    ("10 where all have ended", |table, state| match quick::pick(table, state) {
        (AGENT_ENDED, ..) => (NO_SUCH_AGENT, 0, 0),
        picked => picked,
    }),
    ("14 where all have ended", |table, state| match quick::pick(table, state) {
        (AGENT_ENDED, ..) => (14, 0, 0),
        picked => picked,
    }),
    ("0 where all have ended", |table, state| match quick::pick(table, state) {
        (AGENT_ENDED, ..) => (ACCEPTED, 0, 0),
        picked => picked,
    }),
    ("words past the table read", |table, state| match table.get(TABLE_WORDS) {
        Some(word) if *word != 0 => (BAD_TABLE, 0, 0),
        _ => quick::pick(table, state),
    }),
    ("words past the state read", |table, state| match state.get(STATE_WORDS) {
        Some(word) if *word != 0 => (BAD_STATE, 0, 0),
        _ => quick::pick(table, state),
    }),
    ("a state that does not fit taken for the start state", |table, state| {
        match quick::pick(table, state) {
            (BAD_STATE, ..) => {
                let mut start = [0; STATE_WORDS];
                quick::start(table, &mut start);
                quick::pick(table, &start)
            }
            picked => picked,
        }
    }),
    ("the time before the agent", |table, state| {
        let (reply, agent, time) = quick::pick(table, state);
        (reply, time, agent)
    }),
    ("agents counted from 1", |table, state| match quick::pick(table, state) {
        (ACCEPTED, agent, time) => (ACCEPTED, agent + 1, time),
        picked => picked,
    }),
];

#[test]
fn faults_in_what_is_refused_or_told_are_found() {
    for (fault, pick) in WRONG_PICKS {
        is_found(fault, &Faulty { pick: &pick, ..GOOD }, Kind::Pick);
    }
}

#[test]
fn an_agent_or_a_time_with_a_refusal_is_found() {
    for refusal in [BUFFER_TOO_SHORT, BAD_TABLE, BAD_STATE, AGENT_ENDED] {
        for (agent, time) in [(1, 0), (0, 1)] {
            let pick = |table: &[u32], state: &[u32]| match quick::pick(table, state) {
                (reply, ..) if reply == refusal => (reply, agent, time),
                picked => picked,
            };
            let fault = format!("{agent} and {time} with {refusal}");
            is_found(&fault, &Faulty { pick: &pick, ..GOOD }, Kind::Pick);
        }
    }
}

#[test]
fn a_step_that_refuses_what_is_picked_is_found() {
    let step = |table: &[u32], state: &mut [u32], agent: u32, time: u32| {
        let picked = quick::pick(table, state);
        match quick::step(table, &mut state.to_vec(), agent, time) {
            ACCEPTED if picked == (ACCEPTED, agent, time) => 15,
            _ => quick::step(table, state, agent, time),
        }
    };
    let board = Faulty { step: &step, ..GOOD };
    for kind in [Kind::Pick, Kind::ByPicks] {
        is_found("refuses what is picked", &board, kind);
    }
}

/// Faults that a whole run by picks has to find by itself: no pick or step of it is compared alone.
#[test]
fn a_run_by_picks_that_goes_on_ends_too_soon_or_ends_elsewhere_is_found() {
    let stays = |table: &[u32], state: &mut [u32], agent: u32, time: u32| {
        let before = state.to_vec();
        let reply = quick::step(table, state, agent, time);
        if reply == ACCEPTED {
            let position = layout::position(agent as usize);
            let code = table[layout::row(agent as usize, before[position] as usize)];
            if code >> 24 == u32::from(JUMP) {
                state[position] = before[position];
            }
        }
        reply
    };
    is_found("stays at a JUMP", &Faulty { step: &stays, ..GOOD }, Kind::ByPicks);

    let picks = Cell::new(0);
    let tires = |table: &[u32], state: &[u32]| {
        picks.set(if state[layout::CLOCK] == 1 { 0 } else { picks.get() + 1 });
        if picks.get() < 20 {
            quick::pick(table, state)
        } else {
            (AGENT_ENDED, 0, 0)
        }
    };
    is_found("tells the end after 20 picks", &Faulty { pick: &tires, ..GOOD }, Kind::ByPicks);

    let late = |table: &[u32], state: &[u32]| {
        let by_late: Rule = |table, state| {
            let (a, _) = RIGHT(table, state)?;
            Some((a, state.times(table, a)?.1))
        };
        pick_by(by_late, table, state)
    };
    is_found("picks the last time for the first", &Faulty { pick: &late, ..GOOD }, Kind::ByPicks);
}
