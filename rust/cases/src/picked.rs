//! What picks met, and the least that a comparison must meet of it.

use reference::reply::{ACCEPTED, AGENT_ENDED, BAD_STATE, BAD_TABLE, BUFFER_TOO_SHORT};
use reference::{Row, State, Table, LAST_TIME, STATE_WORDS, TABLE_WORDS};

use crate::layout;
use crate::picks::Origin;

/// Whether an accepted pick has met this: by the table, the state and the agent that is picked.
type Meets = fn(&Table, &State, usize) -> bool;

/// The row of the agent that is picked.
fn row(table: &Table, state: &State, a: usize) -> Row {
    state.current_row(table, a).expect("who is picked has not ended")
}

/// The numbers and rows of the other unfinished agents.
fn others<'s>(
    table: &'s Table,
    state: &'s State,
    a: usize,
) -> impl Iterator<Item = (usize, Row)> + 's {
    let unfinished = |b: usize| state.current_row(table, b).map(|row| (b, row));
    (0..table.agents.len()).filter(move |&b| b != a).filter_map(unfinished)
}

/// What an accepted pick can meet, and how often it must be met: where a wrong rule would show.
const MET: [(&str, u64, Meets); 6] = [
    ("of several agents with the least late", 1_000, |table, state, a| {
        let late = row(table, state, a).late;
        others(table, state, a).any(|(_, other)| other.late == late)
    }),
    ("at the clock, above the row's early", 1_000, |table, state, a| {
        state.clock > row(table, state, a).early
    }),
    ("at the row's early, above the clock", 1_000, |table, state, a| {
        state.clock < row(table, state, a).early
    }),
    ("beside an ended agent whose last row has a smaller late", 800, |table, state, a| {
        let late = row(table, state, a).late;
        let has_ended = |b: &usize| state.current_row(table, *b).is_none();
        let mut ended = (0..table.agents.len()).filter(has_ended);
        ended.any(|b| table.agents[b].rows.last().is_some_and(|last| last.late < late))
    }),
    ("over an agent whose row has a smaller early", 500, |table, state, a| {
        let early = row(table, state, a).early;
        others(table, state, a).any(|(_, other)| other.early < early)
    }),
    ("over an unfinished agent of a lower number", 1_000, |table, state, a| {
        others(table, state, a).any(|(b, _)| b < a)
    }),
];

/// What picks met.
#[derive(Clone, Debug, Default, PartialEq, Eq)]
pub struct Picks {
    met: [u64; MET.len()],
    /// Picks of states that fit, by where they come from.
    origins: [u64; Origin::ALL.len()],
    /// The table alone too short, and the state alone.
    short: [u64; 2],
    /// A table that is refused, with a clock that fits none.
    bad_both: u64,
    /// A state that does not fit though all agents have ended.
    bad_end: u64,
    /// Tables run by picks to their end: all, those of as many steps as rows, of fewer, and of 20
    /// steps or more.
    runs: [u64; 4],
}

impl Picks {
    /// Counts a pick of these words of a state of this origin.
    pub fn pick(
        &mut self,
        origin: Origin,
        table: &[u32],
        state: &[u32],
        (reply, agent, _): (u32, u32, u32),
    ) {
        match reply {
            BUFFER_TOO_SHORT => match (table.len() < TABLE_WORDS, state.len() < STATE_WORDS) {
                (true, false) => self.short[0] += 1,
                (false, true) => self.short[1] += 1,
                _ => {}
            },
            BAD_TABLE => {
                let clock_fits = (1..=LAST_TIME).contains(&state[layout::CLOCK]);
                self.bad_both += u64::from(!clock_fits);
            }
            BAD_STATE => {
                self.bad_end += u64::from(layout::all_have_ended(table, state));
            }
            AGENT_ENDED => self.origins[origin as usize] += 1,
            _ => {
                assert_eq!(reply, ACCEPTED, "a reply of no pick");
                self.origins[origin as usize] += 1;
                let table = Table::from_words(table).expect("accepted");
                let state = State::from_words(&table, state).expect("accepted");
                for (count, (_, _, meets)) in self.met.iter_mut().zip(MET) {
                    *count += u64::from(meets(&table, &state, agent as usize));
                }
            }
        }
    }

    /// Counts a table of so many rows that was run to its end by picks.
    pub fn run(&mut self, steps: usize, rows: usize) {
        let met = [true, steps == rows, steps < rows, steps >= 20];
        for (count, is_met) in self.runs.iter_mut().zip(met) {
            *count += u64::from(is_met);
        }
    }

    /// What was met, how often, and how often it must be at least.
    pub fn floors(&self) -> Vec<(String, u64, u64)> {
        let met = self.met.iter().zip(MET);
        let mut floors: Vec<(String, u64, u64)> =
            met.map(|(&count, (what, floor, _))| (format!("picks {what}"), count, floor)).collect();
        for (origin, count) in Origin::ALL.into_iter().zip(self.origins) {
            floors.push((format!("picks of {origin:?} states that fit"), count, 700));
        }
        let [short_table, short_state] = self.short;
        let [runs, of_all_rows, of_fewer, long] = self.runs;
        for (what, count, floor) in [
            ("picks with the table alone too short", short_table, 500),
            ("picks with the state alone too short", short_state, 500),
            ("picks of a refused table and a clock that fits none", self.bad_both, 10),
            ("picks of a state that does not fit though all agents have ended", self.bad_end, 300),
            ("tables run to their end by picks", runs, 1_500),
            ("tables run by picks in as many steps as rows", of_all_rows, 250),
            ("tables run by picks in fewer steps than rows", of_fewer, 500),
            ("tables run by picks in 20 steps or more", long, 500),
        ] {
            floors.push((what.to_string(), count, floor));
        }
        floors
    }
}
