//! Picks, on tables small enough to say by hand what is picked, and on those of the vectors, which are
//! run to their end.

use std::path::Path;

use reference::reader::table_of_text;
use reference::reply::*;
use reference::table::{JUMP, SET};
use reference::trace::split_table;
use reference::{pick, start, step, Agent, Row, State, Table, LAST_TIME, STATE_WORDS, TABLE_WORDS};

/// A table of agents whose rows are SETs with these windows.
fn table(agents: &[&[(u32, u32)]]) -> Table {
    let row = |&(early, late): &(u32, u32)| Row { op: SET, early, late, ..Row::default() };
    let agent = |windows: &&[(u32, u32)]| Agent {
        registers: [0; 4],
        rows: windows.iter().map(row).collect(),
    };
    Table { agents: agents.iter().map(agent).collect() }
}

/// A state of the table with this clock and these positions.
fn state(table: &Table, clock: u32, positions: &[usize]) -> Vec<u32> {
    let mut state = State::start(table);
    state.clock = clock;
    for (agent, &position) in state.agents.iter_mut().zip(positions) {
        agent.position = position;
    }
    state.to_words()
}

/// Demands what is picked of a state, and that it is stepped.
fn assert_picked(table: &Table, clock: u32, positions: &[usize], agent: u32, time: u32) {
    let (words, mut state) = (table.to_words(), state(table, clock, positions));
    assert_eq!(pick(&words, &state), (ACCEPTED, agent, time), "{clock}, {positions:?}");
    assert_eq!(step(&words, &mut state, agent, time), ACCEPTED, "{clock}, {positions:?}");
}

#[test]
fn the_least_late_is_picked_at_the_later_of_the_clock_and_its_early() {
    let table = table(&[&[(1, 9), (12, 20)], &[(3, 8), (3, 30)], &[(0, 10), (5, 40)]]);
    assert_picked(&table, 1, &[0, 0, 0], 1, 3);
    assert_picked(&table, 3, &[0, 0, 0], 1, 3);
    assert_picked(&table, 8, &[0, 0, 0], 1, 8);
    assert_picked(&table, 3, &[0, 1, 0], 0, 3);
    // Its early is above those of the others.
    assert_picked(&table, 2, &[1, 1, 1], 0, 12);
    assert_picked(&table, 20, &[1, 1, 1], 0, 20);
}

#[test]
fn an_ended_agent_has_no_window() {
    let table = table(&[&[(1, 2)], &[(5, 9)], &[(1, 20)]]);
    assert_picked(&table, 1, &[0, 0, 0], 0, 1);
    assert_picked(&table, 1, &[1, 0, 0], 1, 5);
    assert_picked(&table, 7, &[1, 1, 0], 2, 7);
}

#[test]
fn of_equal_lates_the_lowest_agent_is_picked() {
    let table = table(&[&[(1, 12)], &[(4, 9)], &[(2, 9)], &[(1, 9)]]);
    assert_picked(&table, 1, &[0, 0, 0, 0], 1, 4);
    assert_picked(&table, 1, &[0, 1, 0, 0], 2, 2);
    assert_picked(&table, 1, &[0, 1, 1, 0], 3, 1);
}

#[test]
fn the_last_times_are_picked() {
    let table = table(&[&[(LAST_TIME - 1, LAST_TIME)], &[(0, LAST_TIME)]]);
    assert_picked(&table, 1, &[0, 0], 0, LAST_TIME - 1);
    assert_picked(&table, LAST_TIME, &[0, 0], 0, LAST_TIME);
    assert_picked(&table, LAST_TIME, &[1, 0], 1, LAST_TIME);
}

#[test]
fn the_refusals_are_in_order_and_tell_no_choice() {
    let table = table(&[&[(1, 9)], &[(1, 9)]]);
    let good = table.to_words();
    let mut bad = good.clone();
    bad[0] = 3;
    let ended = state(&table, 4, &[1, 1]);
    let mut unfit = ended.clone();
    unfit[STATE_WORDS - 1] = 1;

    let short = (BUFFER_TOO_SHORT, 0, 0);
    assert_eq!(pick(&[], &[]), short);
    assert_eq!(pick(&good[..TABLE_WORDS - 1], &ended), short);
    assert_eq!(pick(&good, &ended[..STATE_WORDS - 1]), short);
    assert_eq!(pick(&bad, &unfit[..STATE_WORDS - 1]), short);
    assert_eq!(pick(&bad, &unfit), (BAD_TABLE, 0, 0));
    assert_eq!(pick(&bad, &ended), (BAD_TABLE, 0, 0));
    assert_eq!(pick(&good, &unfit), (BAD_STATE, 0, 0));
    assert_eq!(pick(&good, &ended), (AGENT_ENDED, 0, 0));
    assert_eq!(pick(&good, &state(&table, 4, &[1, 0])), (ACCEPTED, 1, 4));
    assert_eq!(pick(&good, &state(&table, 10, &[1, 0])), (BAD_STATE, 0, 0));
}

#[test]
fn words_past_the_table_and_the_state_are_not_read() {
    let table = table(&[&[(3, 9)]]);
    let (mut words, mut state) = (table.to_words(), state(&table, 1, &[0]));
    words.push(7);
    state.push(7);
    assert_eq!(pick(&words, &state), (ACCEPTED, 0, 3));
}

/// The number of steps in which picks end all agents. The table's words are accepted.
fn steps_to_the_end(words: &[u32]) -> usize {
    let mut state = [0; STATE_WORDS];
    assert_eq!(start(words, &mut state), ACCEPTED);
    let mut steps = 0;
    loop {
        match pick(words, &state) {
            (ACCEPTED, agent, time) => {
                assert_eq!(step(words, &mut state, agent, time), ACCEPTED);
                steps += 1;
            }
            last => {
                assert_eq!(last, (AGENT_ENDED, 0, 0));
                assert_eq!(state[1..17], words[1..17], "positions, and row counts");
                return steps;
            }
        }
    }
}

#[test]
fn rows_that_are_not_led_over_are_the_steps() {
    let mut straight = table(&[&[(1, 5), (1, 5), (2, 9)], &[(1, 5)], &[(0, 1_000), (8, 1_000)]]);
    assert_eq!(steps_to_the_end(&straight.to_words()), 6);
    straight.agents[0].rows[0] = Row { op: JUMP, n: 1, ..straight.agents[0].rows[0] };
    assert_eq!(steps_to_the_end(&straight.to_words()), 5);
}

#[test]
fn tables_of_the_vectors_are_run_to_their_end_in_no_more_steps_than_rows() {
    let listed = std::fs::read_dir(Path::new("../../crates/vectors/data")).unwrap();
    let mut run = 0;
    for entry in listed {
        let path = entry.unwrap().path();
        let input = std::fs::read(&path).unwrap();
        let Ok(table) = table_of_text(split_table(&input).0) else { continue };
        let rows = table.agents.iter().map(|agent| agent.rows.len()).sum();
        let steps = steps_to_the_end(&table.to_words());
        assert!(steps <= rows, "{}: {steps} steps, {rows} rows", path.display());
        run += 1;
    }
    assert!(run >= 100, "only {run} vectors have an accepted table");
}
