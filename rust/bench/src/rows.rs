//! The rows of the table: a call, its inputs, and who does it.

use std::hint::black_box;

use reference::{Table, AGENTS, ROWS, STATE_WORDS, TABLE_WORDS};

use crate::inputs;
use crate::measure::Work;

/// One row: the same calls on the same inputs by the proved library and by `quick`, and a plain sum
/// over the same words.
pub struct Row {
    pub what: String,
    pub between: &'static str,
    pub calls: usize,
    pub proved: Box<dyn Work>,
    pub quick: Box<dyn Work>,
    /// `quick` with the narrow search, where the call searches.
    pub narrow: Option<Box<dyn Work>>,
    pub sum: Box<dyn Work>,
}

fn sum(words: &[u32]) -> u32 {
    words.iter().fold(0, |sum, word| sum.wrapping_add(*word))
}

fn sum_of_bytes(bytes: &[u8]) -> u32 {
    bytes.iter().fold(0, |sum, byte| sum.wrapping_add(u32::from(*byte)))
}

/// Calls in one timed turn, where the buffers need nothing in between.
const CALLS: usize = 50;

/// Work that makes the same call again and again.
fn again(mut call: impl FnMut() + 'static) -> Box<dyn Work> {
    Box::new(move || {
        for _ in 0..CALLS {
            call();
        }
    })
}

fn full_table() -> Table {
    inputs::table(AGENTS, ROWS, inputs::MANY_RECVS)
}

fn check() -> Row {
    let words = full_table().to_words();
    let proved = words.clone();
    let quick = words.clone();
    Row {
        what: "16 agents of 32 rows, accepted".to_string(),
        between: "nothing; no buffer is written",
        calls: CALLS,
        proved: again(move || assert!(tannoplex::check(black_box(&proved)).is_accepted())),
        quick: again(move || assert_eq!(quick::check(black_box(&quick)), 0)),
        narrow: None,
        sum: again(move || {
            black_box(sum(black_box(&words)));
        }),
    }
}

fn read() -> Row {
    let text = cases::texts::text(&full_table());
    let (proved, quick) = (text.clone(), text.clone());
    let mut proved_table = vec![0; TABLE_WORDS];
    let mut quick_table = vec![0; TABLE_WORDS];
    Row {
        what: format!("the same table, {} bytes of text", text.len()),
        between: "nothing; each call writes the same table over the last",
        calls: CALLS,
        proved: again(move || {
            assert!(tannoplex::read(black_box(&proved), &mut proved_table).reply.is_accepted());
        }),
        quick: again(move || {
            assert_eq!(quick::read(black_box(&quick), &mut quick_table), (0, 0));
        }),
        narrow: None,
        sum: again(move || {
            black_box(sum_of_bytes(black_box(&text)));
        }),
    }
}

fn write() -> Row {
    let table = full_table();
    let words = table.to_words();
    let length = cases::texts::text(&table).len();
    let (proved, quick) = (words.clone(), words.clone());
    let mut proved_text = vec![0; length];
    let mut quick_text = vec![0; length];
    Row {
        what: format!("the same table, to {length} bytes of text"),
        between: "nothing; each call writes the same text over the last",
        calls: CALLS,
        proved: again(move || {
            let wrote = tannoplex::write(black_box(&proved), black_box(&mut proved_text));
            assert!(wrote.reply.is_accepted() && wrote.length == length);
        }),
        quick: again(move || {
            let wrote = quick::write(black_box(&quick), black_box(&mut quick_text));
            assert_eq!(wrote, (0, length as u32));
        }),
        narrow: None,
        sum: again(move || {
            black_box(sum(black_box(&words)));
        }),
    }
}

/// One step from each state of a whole schedule. The states are put back before each turn.
struct Steps<F> {
    table: Vec<u32>,
    fresh: Vec<Vec<u32>>,
    states: Vec<Vec<u32>>,
    choices: Vec<[u32; 2]>,
    step: F,
}

impl<F: FnMut(&[u32], &mut [u32], u32, u32)> Work for Steps<F> {
    fn prepare(&mut self) {
        for (state, fresh) in self.states.iter_mut().zip(&self.fresh) {
            state.copy_from_slice(fresh);
        }
    }

    fn work(&mut self) {
        for (state, &[agent, time]) in self.states.iter_mut().zip(&self.choices) {
            (self.step)(black_box(&self.table), black_box(state), agent, time);
        }
    }
}

/// Some states of a whole schedule, each before the choice that it comes with: every so many steps,
/// few enough to stay in the cache, of every agent.
fn along_a_run(table: &Table, every: usize) -> Vec<(Vec<u32>, [u32; 2])> {
    let words = table.to_words();
    let choices = inputs::choices(table);
    let before = |at: usize| {
        let mut state = vec![0; STATE_WORDS];
        assert_eq!(reference::run(&words, &mut state, choices[..at].as_flattened()).0, 0);
        (state, choices[at])
    };
    (0..choices.len()).step_by(every).map(before).collect()
}

fn steps<F>(step: F) -> Box<dyn Work>
where
    F: FnMut(&[u32], &mut [u32], u32, u32) + 'static,
{
    let table = full_table();
    let (fresh, choices): (Vec<_>, Vec<_>) = along_a_run(&table, 17).into_iter().unzip();
    Box::new(Steps { table: table.to_words(), states: fresh.clone(), fresh, choices, step })
}

fn step() -> Row {
    Row {
        what: "the same table, 31 states along a run, half of them at a RECV".to_string(),
        between: "the states are put back before each turn, outside the time",
        calls: 31,
        proved: steps(|table, state, agent, time| {
            assert!(tannoplex::step(table, state, agent, time).is_accepted());
        }),
        quick: steps(|table, state, agent, time| {
            assert_eq!(quick::step(table, state, agent, time), 0);
        }),
        narrow: Some(steps(|table, state, agent, time| {
            assert_eq!(quick::step_narrow(table, state, agent, time), 0);
        })),
        sum: steps(|table, state, _, _| {
            black_box(sum(table).wrapping_add(sum(state)));
        }),
    }
}

/// One pick from each of these states.
fn picks<F>(table: &Table, states: &[Vec<u32>], mut pick: F) -> Box<dyn Work>
where
    F: FnMut(&[u32], &[u32]) + 'static,
{
    let (table, states) = (table.to_words(), states.to_vec());
    Box::new(move || states.iter().for_each(|state| pick(black_box(&table), black_box(state))))
}

/// A row for picks along a run of this table.
fn pick(what: &str, table: &Table, every: usize) -> Row {
    let states: Vec<Vec<u32>> =
        along_a_run(table, every).into_iter().map(|(state, _)| state).collect();
    Row {
        what: format!("{what}, {} states along a run", states.len()),
        between: "nothing; no buffer is written",
        calls: states.len(),
        proved: picks(table, &states, |table, state| {
            assert!(black_box(tannoplex::pick(table, state)).reply.is_accepted());
        }),
        quick: picks(table, &states, |table, state| {
            assert_eq!(black_box(quick::pick(table, state)).0, 0);
        }),
        narrow: None,
        sum: picks(table, &states, |table, state| {
            black_box(sum(table).wrapping_add(sum(state)));
        }),
    }
}

fn pick_16_agents() -> Row {
    pick("16 agents of 32 rows", &full_table(), 17)
}

fn pick_3_agents() -> Row {
    pick("3 agents of 32 rows", &inputs::table(3, ROWS, inputs::MANY_RECVS), 4)
}

/// Whole runs, each accepted to its end.
fn runs<F>(words: &[u32], choices: &[u32], mut run: F) -> Box<dyn Work>
where
    F: FnMut(&[u32], &mut [u32], &[u32]) -> (u32, u32) + 'static,
{
    let (words, choices) = (words.to_vec(), choices.to_vec());
    let mut state = vec![0; STATE_WORDS];
    let count = choices.len() as u32 / 2;
    again(move || assert_eq!(run(black_box(&words), &mut state, black_box(&choices)), (0, count)))
}

/// A row for whole runs of this table.
pub fn run(what: &str, table: &Table) -> Row {
    let words = table.to_words();
    let choices = inputs::choices(table);
    let count = choices.len() as u32;
    let choices = choices.as_flattened().to_vec();
    let sum_state = vec![0; STATE_WORDS];
    Row {
        what: format!("{what}, {count} accepted steps"),
        between: "nothing; each run begins at the start state and writes every word",
        calls: CALLS,
        proved: runs(&words, &choices, |table, state, choices| {
            let ran = tannoplex::run(table, state, choices);
            (ran.reply.number(), ran.count)
        }),
        quick: runs(&words, &choices, quick::run),
        narrow: Some(runs(&words, &choices, quick::run_narrow)),
        sum: again(move || {
            black_box(sum(black_box(&words)));
            black_box(sum(black_box(&choices)));
            black_box(sum(black_box(&sum_state)));
        }),
    }
}

fn run_many_recvs() -> Row {
    run("16 agents of 32 rows, every second a RECV", &full_table())
}

fn run_no_recvs() -> Row {
    let table = inputs::table(AGENTS, ROWS, inputs::NO_RECVS);
    run("16 agents of 32 rows, no RECV", &table)
}

fn run_3_agents() -> Row {
    let table = inputs::table(3, ROWS, inputs::MANY_RECVS);
    run("3 agents of 32 rows, every second a RECV", &table)
}

/// The trace of a whole run, from its input to its output.
fn trace() -> Row {
    let table = inputs::table(AGENTS, ROWS, inputs::NO_RECVS);
    let mut input = cases::texts::text(&table);
    for [agent, time] in inputs::choices(&table) {
        input.extend_from_slice(format!("02{agent:02X}{time:08X}\n").as_bytes());
    }
    let (proved, quick) = (input.clone(), input.clone());
    let mut proved_out = vec![0; tannoplex::TRACE_OUTPUT_BYTES];
    let mut quick_out = Box::new([0; quick::OUTPUT_BYTES]);
    let length = quick::trace(&input, &mut quick_out);
    Row {
        what: format!("the table with no RECV and its choices, {} bytes to {length}", input.len()),
        between: "nothing; each call writes the same output over the last",
        calls: CALLS,
        proved: again(move || {
            let traced = tannoplex::trace(black_box(&proved), &mut proved_out);
            assert!(traced.reply.is_accepted() && traced.length == length);
        }),
        quick: again(move || assert_eq!(quick::trace(black_box(&quick), &mut quick_out), length)),
        narrow: None,
        sum: again(move || {
            black_box(sum_of_bytes(black_box(&input)));
        }),
    }
}

/// A row's name, and how it is made.
pub type Named = (&'static str, fn() -> Row);

/// All rows of the table.
pub const ALL: [Named; 10] = [
    ("check", check),
    ("read", read),
    ("write", write),
    ("step", step),
    ("pick, 16 agents", pick_16_agents),
    ("pick, 3 agents", pick_3_agents),
    ("run, many RECVs", run_many_recvs),
    ("run, no RECVs", run_no_recvs),
    ("run, 3 agents", run_3_agents),
    ("trace", trace),
];
