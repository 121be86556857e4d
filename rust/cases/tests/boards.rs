//! The comparison, tried on boards that need no archive: the optimised implementation must pass,
//! and boards with a fault each must not.

mod faulty;

use cases::suite::Kind;
use cases::ways::Way;
use cases::{compare, layout, Board, Plan};
use faulty::{is_found, line_of, Faulty, Quick, GOOD};
use reference::trace::INPUT_BYTES;
use reference::{LAST_TIME, TABLE_WORDS};

#[test]
fn the_optimised_implementation_passes_and_the_floors_are_met() {
    let counts = compare(&Quick, &Plan::default(), 1).unwrap_or_else(|f| panic!("{f}"));
    println!("{counts}");
    assert_eq!(counts.below_floors(), Vec::<String>::new());
}

#[test]
fn the_narrow_search_passes() {
    let board = Faulty { step: &quick::step_narrow, run: &quick::run_narrow, ..GOOD };
    let plan = Plan(vec![(Kind::Step, 20_000), (Kind::LongRun, 10_000)]);
    compare(&board, &plan, 2).unwrap_or_else(|failure| panic!("{failure}"));
}

#[test]
fn a_comparison_of_nothing_is_below_every_floor() {
    let counts = compare(&Quick, &Plan(vec![]), 1).unwrap();
    let short = counts.below_floors();
    // Every floor there is: one that is taken away, or added, changes the number.
    assert_eq!(short.len(), 174);
    for kind in Kind::ALL {
        for what in ["written and read again", "that document 01 refused with 7"] {
            let what = format!("tables of {kind:?} cases {what}: 0, ");
            assert!(short.iter().any(|told| told.starts_with(&what)), "no floor: {what}");
        }
    }
    for way in Way::ALL {
        let what = format!("the way {way:?}");
        assert_eq!(short.iter().filter(|told| told.contains(&what)).count(), 6, "floors: {what}");
    }
}

#[test]
fn faults_of_the_reader_are_found() {
    let past = |text: &[u8], table: &mut [u32]| {
        let told = quick::read(text, table);
        if let (0, Some(word)) = (told.0, table.get_mut(TABLE_WORDS)) {
            *word = word.wrapping_add(1);
        }
        told
    };
    is_found("writes past 2,129", &Faulty { read: &past, ..GOOD }, Kind::Read);
    let before = |text: &[u8], table: &mut [u32]| {
        let told = quick::read(text, table);
        if told.0 == 7 {
            table[layout::AGENT_COUNT] ^= 1;
        }
        told
    };
    is_found(
        "writes before the last row is checked",
        &Faulty { read: &before, ..GOOD },
        Kind::Read,
    );
    let line = |text: &[u8], table: &mut [u32]| match quick::read(text, table) {
        (5, line) => (5, line + 1),
        told => told,
    };
    is_found("tells the wrong line", &Faulty { read: &line, ..GOOD }, Kind::Read);
    let lower = |text: &[u8], table: &mut [u32]| quick::read(&text.to_ascii_uppercase(), table);
    is_found("accepts lower case", &Faulty { read: &lower, ..GOOD }, Kind::Read);
    let after_end = |text: &[u8], table: &mut [u32]| match quick::read(text, table) {
        // Nowhere else is an empty line told with 3.
        (3, line) if line_of(text, line) == Some(b"\n") => (19, line),
        told => told,
    };
    is_found("looks at what follows the end", &Faulty { read: &after_end, ..GOOD }, Kind::Read);
}

#[test]
fn faults_of_the_check_are_found() {
    let unused = |table: &[u32]| {
        let mut table = table.to_vec();
        if let Some(last) = table.get_mut(TABLE_WORDS - 1) {
            *last = if *last == 1 { 0 } else { *last };
        }
        quick::check(&table)
    };
    is_found("leaves an unused word", &Faulty { check: &unused, ..GOOD }, Kind::Check);
    let million = |table: &[u32]| {
        let mut table = table.to_vec();
        let first = layout::row(0, 0) + layout::ROW_LATE;
        for late in table.iter_mut().skip(first).step_by(layout::ROW_WORDS) {
            if *late == LAST_TIME + 1 {
                *late = LAST_TIME;
            }
        }
        quick::check(&table)
    };
    is_found("takes late 1,000,001", &Faulty { check: &million, ..GOOD }, Kind::Check);
}

#[test]
fn faults_of_the_step_are_found() {
    let all = |_: &[u32], _: &mut [u32], _: u32, _: u32| 15;
    is_found("refuses everything", &Faulty { step: &all, ..GOOD }, Kind::Step);
    let early = |table: &[u32], state: &mut [u32], agent, time: u32| match quick::step(
        table, state, agent, time,
    ) {
        12 => quick::step(table, state, agent, time + 1),
        reply => reply,
    };
    is_found("takes the time before the clock", &Faulty { step: &early, ..GOOD }, Kind::Step);
}

#[test]
fn faults_of_the_run_are_found() {
    let echo = |table: &[u32], state: &mut [u32], choices: &[u32]| {
        let first = choices.len().min(2);
        let (reply, count) = quick::run(table, state, &choices[..first]);
        (reply, if reply == 0 { choices.len() as u32 / 2 } else { count })
    };
    is_found("does the first step and echoes", &Faulty { run: &echo, ..GOOD }, Kind::Run);
    let keep = |table: &[u32], state: &mut [u32], choices: &[u32]| {
        let before = state.to_vec();
        let (reply, count) = quick::run(table, state, choices);
        if reply == 15 {
            state.copy_from_slice(&before);
        }
        (reply, count)
    };
    is_found("leaves the state untouched at 15", &Faulty { run: &keep, ..GOOD }, Kind::Run);
    // The value of the message found depends on the order of the choices.
    let order = |table: &[u32], state: &mut [u32], choices: &[u32]| {
        let ran = quick::run(table, state, choices);
        if ran.1 >= 20 && choices[..2] > choices[2..4] {
            state[layout::register(0, 0)] ^= 1;
        }
        ran
    };
    is_found("depends on the order", &Faulty { run: &order, ..GOOD }, Kind::Pair);
}

#[test]
fn faults_of_the_trace_are_found() {
    let limit = |input: &[u8]| Quick.trace(&input[..input.len().min(INPUT_BYTES)]);
    is_found("takes more than 65,536 bytes", &Faulty { trace: &limit, ..GOOD }, Kind::Trace);
    let shorter = |input: &[u8]| match input.len() {
        INPUT_BYTES => b"FE110000\n".to_vec(),
        _ => Quick.trace(input),
    };
    is_found("17 at 65,536", &Faulty { trace: &shorter, ..GOOD }, Kind::Trace);
}
