//! Picks of the archive: tables that are run to their end by them, and what they refuse.

use std::path::Path;

use tannoplex::{places, Picked, Reply, STATE_WORDS, TABLE_WORDS};

/// Document 01's example: agent 0 sends in 1 to 3, agent 1 receives in 4 to 8.
const EXAMPLE: &[u8] = b"000000000005000000000000000000000000
010020000000000000070000000100000003
000100000000000000000000000000000000
010130010000000000070000000400000008
FF
";

/// The table in a text that begins with one; none where it is refused.
fn table(bytes: &[u8]) -> Option<Vec<u32>> {
    let lines = bytes.split_inclusive(|&byte| byte == b'\n');
    let before_end: usize = lines.take_while(|line| *line != b"FF\n").map(<[u8]>::len).sum();
    let mut table = vec![0; TABLE_WORDS];
    let told = tannoplex::read(&bytes[..bytes.len().min(before_end + 3)], &mut table);
    told.reply.is_accepted().then_some(table)
}

/// A file of the repository: cargo runs a test in its package's folder.
fn file(name: &str) -> Vec<u8> {
    let path = Path::new("../..").join(name);
    std::fs::read(&path).unwrap_or_else(|error| panic!("{}: {error}", path.display()))
}

fn start(table: &[u32]) -> Vec<u32> {
    let mut state = vec![0; STATE_WORDS];
    assert_eq!(tannoplex::start(table, &mut state), Reply::Accepted);
    state
}

fn refused(reply: Reply) -> Picked {
    Picked { reply, agent: 0, time: 0 }
}

/// The choices that are picked up to the end of all agents, and the state there.
fn picked_to_the_end(table: &[u32]) -> (Vec<[u32; 2]>, Vec<u32>) {
    let mut state = start(table);
    let mut choices = Vec::new();
    loop {
        let Picked { reply, agent, time } = tannoplex::pick(table, &state);
        if reply != Reply::Accepted {
            assert_eq!(tannoplex::pick(table, &state), refused(Reply::AgentEnded));
            return (choices, state);
        }
        assert_eq!(tannoplex::step(table, &mut state, agent, time), Reply::Accepted);
        choices.push([agent, time]);
    }
}

/// The choices of lines `02`, agent, time.
fn stored_choices(name: &str) -> Vec<[u32; 2]> {
    let text = String::from_utf8(file(name)).unwrap();
    let number = |digits: &str| u32::from_str_radix(digits, 16).unwrap();
    text.lines().map(|line| [number(&line[2..4]), number(&line[4..])]).collect()
}

/// The stored lists take the agent that is picked each time, as early as it can be run.
#[test]
fn the_examples_are_picked_as_they_are_stored() {
    for (name, choices) in [
        ("shop/number-order.table", "shop/number-order-lowest-first.choices"),
        ("shop/text-order.table", "shop/text-order-lowest-first.choices"),
        ("arms/arms.table", "arms/power.choices"),
    ] {
        let table = table(&file(&format!("examples/{name}"))).unwrap();
        let (picked, state) = picked_to_the_end(&table);
        assert_eq!(picked, stored_choices(&format!("examples/{choices}")), "{name}");
        let mut by_run = vec![0; STATE_WORDS];
        let ran = tannoplex::run(&table, &mut by_run, picked.as_flattened());
        assert_eq!((ran.reply, ran.count as usize), (Reply::Accepted, picked.len()), "{name}");
        assert_eq!(by_run, state, "{name}");
    }
}

#[test]
fn tables_of_the_vectors_are_run_to_their_end_in_no_more_steps_than_rows() {
    let mut run = 0;
    for entry in std::fs::read_dir("../../crates/vectors/data").unwrap() {
        let path = entry.unwrap().path();
        let Some(table) = table(&std::fs::read(&path).unwrap()) else { continue };
        let (choices, state) = picked_to_the_end(&table);
        let agents = table[places::TABLE_AGENTS] as usize;
        let counts = &table[places::TABLE_ROW_COUNTS..][..agents];
        let rows = counts.iter().sum::<u32>() as usize;
        assert!(choices.len() <= rows, "{}: {} of {rows}", path.display(), choices.len());
        assert_eq!(&state[places::STATE_POSITIONS..][..agents], counts, "{}", path.display());
        run += 1;
    }
    assert!(run >= 100, "only {run} vectors have an accepted table");
}

#[test]
fn the_least_late_is_picked_at_the_later_of_the_clock_and_its_early() {
    let mut table = table(EXAMPLE).unwrap();
    let accepted = |agent, time| Picked { reply: Reply::Accepted, agent, time };
    let mut state = start(&table);
    assert_eq!(tannoplex::pick(&table, &state), accepted(0, 1));
    state[places::STATE_CLOCK] = 3;
    assert_eq!(tannoplex::pick(&table, &state), accepted(0, 3));
    // Agent 0 has ended: its late, which is the least, counts no more.
    state[places::state_position(0)] = 1;
    assert_eq!(tannoplex::pick(&table, &state), accepted(1, 4));
    state[places::STATE_CLOCK] = 7;
    assert_eq!(tannoplex::pick(&table, &state), accepted(1, 7));
    // A window of agent 0 with agent 1's late, and a greater one.
    state[places::state_position(0)] = 0;
    let late = places::table_row(0, 0) + places::ROW_LATE;
    table[late] = 8;
    assert_eq!(tannoplex::pick(&table, &state), accepted(0, 7));
    table[late] = 9;
    assert_eq!(tannoplex::pick(&table, &state), accepted(1, 7));
}

#[test]
fn the_refusals_are_in_order_tell_no_choice_and_change_nothing() {
    let good = table(EXAMPLE).unwrap();
    let mut bad = good.clone();
    bad[places::TABLE_AGENTS] = 3;
    let mut ended = start(&good);
    for agent in [0, 1] {
        ended[places::state_position(agent)] = 1;
    }
    let mut unfit = ended.clone();
    unfit[STATE_WORDS - 1] = 1;

    let short_table = &good[..TABLE_WORDS - 1];
    for (table, state, reply) in [
        (&[][..], &[][..], Reply::BufferTooShort),
        (short_table, &ended[..], Reply::BufferTooShort),
        (&good, &ended[..STATE_WORDS - 1], Reply::BufferTooShort),
        (&bad, &unfit[..STATE_WORDS - 1], Reply::BufferTooShort),
        (&bad, &unfit, Reply::BadTable),
        (&good, &unfit, Reply::BadState),
        (&good, &ended, Reply::AgentEnded),
    ] {
        let before = (table.to_vec(), state.to_vec());
        assert_eq!(tannoplex::pick(table, state), refused(reply));
        assert_eq!((table, state), (&before.0[..], &before.1[..]), "{reply:?}");
    }
}

#[test]
fn words_past_the_table_and_the_state_are_not_read() {
    let mut table = table(EXAMPLE).unwrap();
    let mut state = start(&table);
    let picked = tannoplex::pick(&table, &state);
    assert_eq!(picked.reply, Reply::Accepted);
    for word in [0, 1, u32::MAX] {
        table.resize(TABLE_WORDS, 0);
        state.resize(STATE_WORDS, 0);
        table.extend([word; 3]);
        state.extend([word; 3]);
        assert_eq!(tannoplex::pick(&table, &state), picked, "{word}");
    }
}
