//! The comparison itself: cases of each kind, each from random numbers of its own.

use std::fmt;

use reference::reader::lines;
use reference::reply::{ACCEPTED, BAD_TABLE, TEXT_TOO_LONG};
use reference::trace::split_table;
use reference::{State, Table, STATE_WORDS, TABLE_WORDS};

use crate::board::Board;
use crate::choices::{accepted, any, schedule, words, Choice, Order};
use crate::counts::{Call, Counts, LINE_REPLIES};
use crate::damage::{damage_state, damage_table};
use crate::layout;
use crate::lent::Lent;
use crate::lines::damage_text;
use crate::picks::{by_picks_case, pick_case};
use crate::rng::Rng;
use crate::tables::{fitting_state, table, Size};
use crate::texts::{choice_lines, damaged, text};

/// What a case is about.
#[derive(Clone, Copy, Debug, PartialEq, Eq)]
pub enum Kind {
    Read,
    Check,
    Start,
    Step,
    Run,
    LongRun,
    Pair,
    Trace,
    Write,
    Pick,
    ByPicks,
}

impl Kind {
    pub const ALL: [Kind; 11] = [
        Kind::Read,
        Kind::Check,
        Kind::Start,
        Kind::Step,
        Kind::Run,
        Kind::LongRun,
        Kind::Pair,
        Kind::Trace,
        Kind::Write,
        Kind::Pick,
        Kind::ByPicks,
    ];
}

/// How many cases of each kind a comparison has.
#[derive(Clone, Debug)]
pub struct Plan(pub Vec<(Kind, usize)>);

impl Default for Plan {
    /// Enough for every floor of [`Counts::below_floors`], with room.
    fn default() -> Plan {
        Plan(vec![
            (Kind::Read, 40_000),
            (Kind::Check, 20_000),
            (Kind::Start, 6_000),
            (Kind::Step, 30_000),
            (Kind::Run, 12_000),
            (Kind::LongRun, 12_000),
            (Kind::Pair, 2_000),
            (Kind::Trace, 2_000),
            (Kind::Write, 16_000),
            (Kind::Pick, 24_000),
            (Kind::ByPicks, 2_000),
        ])
    }
}

/// A case in which the board and the reference differ, or the board breaks demand 3 or what T-04
/// assures a loop.
#[derive(Debug)]
pub struct Failure {
    pub seed: u64,
    pub kind: Kind,
    pub index: usize,
    pub what: String,
}

impl fmt::Display for Failure {
    fn fmt(&self, f: &mut fmt::Formatter<'_>) -> fmt::Result {
        let Failure { seed, kind, index, what } = self;
        write!(f, "seed {seed}, case {index} of {kind:?}: {what}")
    }
}

/// Compares the board with the reference on all cases of the plan, up to the first failure.
pub fn compare(board: &dyn Board, plan: &Plan, seed: u64) -> Result<Counts, Failure> {
    let mut counts = Counts::default();
    for &(kind, cases) in &plan.0 {
        for index in 0..cases {
            compare_one(board, kind, index, seed, &mut counts)?;
        }
    }
    Ok(counts)
}

/// Compares one case, and then, whatever it is about, what the board writes of its table.
pub fn compare_one(
    board: &dyn Board,
    kind: Kind,
    index: usize,
    seed: u64,
    counts: &mut Counts,
) -> Result<(), Failure> {
    let rng = &mut Rng::of_case(seed, kind as usize, index);
    counts.cases += 1;
    // Each gives its table as it was lent, accepted or not.
    let table = match kind {
        Kind::Read => read_case(rng, board, counts),
        Kind::Check => check_case(rng, board, counts),
        Kind::Start => start_case(rng, board, counts),
        Kind::Step => step_case(rng, board, counts),
        Kind::Run => run_case(rng, board, counts),
        Kind::LongRun => long_run_case(rng, board, counts),
        Kind::Pair => pair_case(rng, board, counts),
        Kind::Trace => trace_case(rng, board, counts),
        Kind::Write => write_case(rng, board, counts),
        Kind::Pick => pick_case(rng, board, counts),
        Kind::ByPicks => by_picks_case(rng, board, counts),
    };
    table
        .and_then(|table| written_and_read(rng, board, counts, kind, &table))
        .map_err(|what| Failure { seed, kind, index, what })
}

pub(crate) type Outcome<T = ()> = Result<T, String>;

/// Demands that what the board gave is what was expected.
pub(crate) fn same<T: PartialEq + fmt::Debug + ?Sized>(
    what: &str,
    expected: &T,
    got: &T,
) -> Outcome {
    if expected == got {
        return Ok(());
    }
    Err(format!("{what}: expected {expected:?}, got {got:?}"))
}

/// Demands that the board left the reference's memory.
pub(crate) fn same_memory<T>(what: &str, expected: &Lent<T>, got: &Lent<T>) -> Outcome
where
    T: PartialEq + fmt::Display,
{
    match expected.difference(got) {
        None => Ok(()),
        Some(place) => Err(format!("{what} (expected, then got): {place}")),
    }
}

/// The words that are not 0, each after its place.
pub(crate) fn listed(words: &[u32]) -> String {
    let places = words.iter().enumerate().filter(|(_, &word)| word != 0);
    places.map(|(at, word)| format!("{at}:{word} ")).collect()
}

pub(crate) fn any_size(rng: &mut Rng) -> Size {
    rng.pick(&[Size::Small, Size::Small, Size::Small, Size::Any, Size::Long])
}

/// A table and its lent words, damaged in `parts` of 100.
pub(crate) fn lent_table(rng: &mut Rng, size: Size, parts: usize) -> (Table, Lent) {
    let table = table(rng, size);
    let mut words = table.to_words();
    if rng.percent(parts) {
        for _ in 0..rng.pick(&[1, 1, 1, 2]) {
            damage_table(rng, &table, &mut words);
        }
    }
    let lent = Lent::new(rng, &words, false);
    (table, lent)
}

/// The length of a table's text; none where the table is refused.
fn text_length(table: &Lent) -> Option<usize> {
    match reference::write(table.words(), &mut []) {
        (TEXT_TOO_LONG, length) => Some(length as usize),
        _ => None,
    }
}

/// Compares a write into a buffer of so many bytes, and gives the reply and the buffer.
fn compare_write(
    rng: &mut Rng,
    board: &dyn Board,
    table: &Lent,
    room: usize,
) -> Outcome<(u32, Lent<u8>)> {
    let before = table.clone();
    let mut expected = Lent::for_text(rng, room);
    let mut got = expected.clone();
    let told = reference::write(table.words(), expected.bytes_mut());
    same("reply and length", &told, &board.write(table.words(), got.bytes_mut()))
        .and_then(|()| same_memory("the text", &expected, &got))
        .and_then(|()| same_memory("the table", &before, table))
        .map_err(|what| {
            let table = listed(before.words());
            format!("write: {what}\na buffer of {room} bytes\ntable: {table}")
        })?;
    Ok((told.0, got))
}

/// Demands of a case's table, where it is accepted, that the board writes it as the reference does and
/// reads the same words again.
fn written_and_read(
    rng: &mut Rng,
    board: &dyn Board,
    counts: &mut Counts,
    kind: Kind,
    table: &Lent,
) -> Outcome {
    let Some(length) = text_length(table) else { return Ok(()) };
    let room = length + rng.pick(&[0, 0, 1, 40]);
    let (_, text) = compare_write(rng, board, table, room)?;
    let words = &table.words()[..TABLE_WORDS];
    let mut got = Lent::blank(rng, TABLE_WORDS, true);
    let mut expected = got.clone();
    expected.words_mut()[..TABLE_WORDS].copy_from_slice(words);
    let told = board.read(&text.bytes()[..length], got.words_mut());
    same("read of what was written", &(ACCEPTED, 0), &told)
        .and_then(|()| same_memory("the table read again", &expected, &got))
        .map_err(|what| format!("{what}\ntable: {}", listed(words)))?;
    counts.written(kind, words);
    Ok(())
}

/// Each table into buffers of several lengths.
fn write_case(rng: &mut Rng, board: &dyn Board, counts: &mut Counts) -> Outcome<Lent> {
    let size = any_size(rng);
    let (table, lent) = lent_table(rng, size, 30);
    // A damaged table may still be accepted, with another length.
    let length = text_length(&lent).unwrap_or_else(|| text(&table).len());
    for room in [0, rng.below(length), length - 1, length, length + rng.within(1, 40)] {
        let (reply, _) = compare_write(rng, board, &lent, room)?;
        counts.reply(Call::Write, reply);
    }
    Ok(lent)
}

fn read_case(rng: &mut Rng, board: &dyn Board, counts: &mut Counts) -> Outcome<Lent> {
    let size = any_size(rng);
    let table = table(rng, size);
    let good = text(&table);
    let text = if rng.percent(25) { good.clone() } else { damaged(rng, &table) };
    // What stands in memory after the text is not part of it, though it may look like the rest.
    let rest = good.strip_prefix(&text[..]).filter(|rest| !rest.is_empty()).unwrap_or(b"\nFF\n");
    let memory = [&text, rest].concat();
    let lent = &memory[..text.len()];

    let mut expected = Lent::blank(rng, TABLE_WORDS, false);
    let mut got = expected.clone();
    let told = reference::read(lent, expected.words_mut());
    let outcome = same("reply and line", &told, &board.read(lent, got.words_mut()))
        .and_then(|()| same_memory("the table", &expected, &got))
        .and_then(|()| match told.0 {
            ACCEPTED => accepted_text(board, lent, got.words()),
            _ => Ok(()),
        });
    counts.reply(Call::Read, told.0);
    if let (4..=7, Ok(read)) = (told.0, lines(lent)) {
        counts.rows_read(&read.table);
    }
    outcome.map_err(|what| format!("{what}\ntext:\n{}", String::from_utf8_lossy(lent)))?;
    Ok(got)
}

/// Demands of words that were read from a text that the check accepts them and that the text is theirs:
/// a board that writes as the reference does writes it out again byte for byte.
fn accepted_text(board: &dyn Board, text: &[u8], table: &[u32]) -> Outcome {
    same("check of what was read", &ACCEPTED, &board.check(table))?;
    let mut again = vec![0; text.len()];
    let told = (ACCEPTED, text.len() as u32);
    same("the reference's write of what was read", &told, &reference::write(table, &mut again))?;
    same("the reference's text of what was read", text, &again)
}

fn check_case(rng: &mut Rng, board: &dyn Board, counts: &mut Counts) -> Outcome<Lent> {
    let size = any_size(rng);
    let (_, lent) = lent_table(rng, size, 60);
    let before = lent.clone();
    let reply = reference::check(lent.words());
    let outcome = same("reply", &reply, &board.check(lent.words()))
        .and_then(|()| same_memory("the table", &before, &lent));
    counts.reply(Call::Check, reply);
    if reply == BAD_TABLE {
        Table::decoded(lent.words()).iter().for_each(|table| counts.rows_checked(table));
    }
    outcome.map_err(|what| format!("{what}\ntable: {}", listed(before.words())))?;
    Ok(lent)
}

fn start_case(rng: &mut Rng, board: &dyn Board, counts: &mut Counts) -> Outcome<Lent> {
    let size = any_size(rng);
    let (_, lent) = lent_table(rng, size, 30);
    let before = lent.clone();
    let mut expected = Lent::blank(rng, STATE_WORDS, false);
    let mut got = expected.clone();
    let reply = reference::start(lent.words(), expected.words_mut());
    let outcome = same("reply", &reply, &board.start(lent.words(), got.words_mut()))
        .and_then(|()| same_memory("the state", &expected, &got))
        .and_then(|()| same_memory("the table", &before, &lent));
    counts.reply(Call::Start, reply);
    outcome.map_err(|what| format!("{what}\ntable: {}", listed(before.words())))?;
    Ok(lent)
}

/// A state that some run reaches.
pub(crate) fn reached_state(rng: &mut Rng, table: &Table) -> State {
    let mut state = State::start(table);
    for _ in 0..rng.below(40) {
        let Some((agent, time)) = accepted(rng, table, &state, Order::Random) else { break };
        state.step(table, agent, time);
    }
    state
}

fn step_case(rng: &mut Rng, board: &dyn Board, counts: &mut Counts) -> Outcome<Lent> {
    let size = any_size(rng);
    let (table, lent) = lent_table(rng, size, 8);
    let before = lent.clone();
    let state =
        if rng.percent(60) { fitting_state(rng, &table) } else { reached_state(rng, &table) };
    let (agent, time) = any(rng, &table, &state);
    let mut words = state.to_words();
    if rng.percent(20) {
        damage_state(rng, &table, &state, &mut words);
    }
    let mut expected = Lent::new(rng, &words, false);
    let mut got = expected.clone();
    let reply = reference::step(lent.words(), expected.words_mut(), agent, time);
    let outcome = same("reply", &reply, &board.step(lent.words(), got.words_mut(), agent, time))
        .and_then(|()| same_memory("the state", &expected, &got))
        .and_then(|()| same_memory("the table", &before, &lent));
    counts.reply(Call::Step, reply);
    if reply == 0 {
        // A damaged table or state may still be accepted, so they are decoded again.
        let table = Table::from_words(lent.words()).expect("accepted");
        let state = State::from_words(&table, &words).expect("accepted");
        counts.receive(&table, &state, agent);
    }
    outcome.map_err(|what| {
        let (table, state) = (listed(before.words()), listed(&words));
        format!("{what}\nagent {agent}, time {time}\ntable: {table}\nstate: {state}")
    })?;
    Ok(lent)
}

/// Compares a run over these words.
fn compare_run(
    rng: &mut Rng,
    board: &dyn Board,
    counts: &mut Counts,
    lent: &Lent,
    whole: bool,
    choices: &[u32],
) -> Result<(u32, u32), String> {
    let before = lent.clone();
    let mut expected = Lent::blank(rng, STATE_WORDS, whole);
    let mut got = expected.clone();
    let ran = reference::run(lent.words(), expected.words_mut(), choices);
    same("reply and count", &ran, &board.run(lent.words(), got.words_mut(), choices))
        .and_then(|()| same_memory("the state", &expected, &got))
        .and_then(|()| same_memory("the table", &before, lent))
        .map_err(|what| {
            let table = listed(before.words());
            format!("{what}\nchoices: {choices:?}\ntable: {table}")
        })?;
    counts.reply(Call::Run, ran.0);
    if ran.1 > 0 {
        let table = Table::from_words(lent.words()).expect("accepted");
        let pairs: Vec<Choice> = choices.chunks_exact(2).map(|c| (c[0], c[1])).collect();
        counts.run(&table, &pairs, ran.1);
    }
    Ok(ran)
}

/// Mostly accepted choices, with some of any kind among them and after the first refused one.
fn mixed_choices(rng: &mut Rng, table: &Table) -> Vec<Choice> {
    let odd_ones = rng.pick(&[0, 3, 20, 50]);
    let mut state = State::start(table);
    let mut choices = Vec::new();
    for _ in 0..rng.pick(&[0, 1, 2, 5, 20, 60]) {
        let next = match accepted(rng, table, &state, Order::Random) {
            Some(next) if !rng.percent(odd_ones) => next,
            _ => any(rng, table, &state),
        };
        state.step(table, next.0, next.1);
        choices.push(next);
    }
    choices
}

fn run_case(rng: &mut Rng, board: &dyn Board, counts: &mut Counts) -> Outcome<Lent> {
    let size = any_size(rng);
    let (table, lent) = lent_table(rng, size, 10);
    let mut choices = words(&mixed_choices(rng, &table));
    if rng.percent(10) {
        choices.push(rng.word());
    }
    compare_run(rng, board, counts, &lent, false, &choices)?;
    Ok(lent)
}

fn long_run_case(rng: &mut Rng, board: &dyn Board, counts: &mut Counts) -> Outcome<Lent> {
    let table = table(rng, Size::Long);
    let order = rng.pick(&[Order::LowestFirst, Order::HighestFirst, Order::Random]);
    let mut choices = schedule(rng, &table, order);
    if rng.percent(30) {
        choices.push((rng.word(), rng.word()));
    }
    let lent = Lent::new(rng, &table.to_words(), true);
    compare_run(rng, board, counts, &lent, true, &words(&choices))?;
    Ok(lent)
}

/// Position and registers.
type AgentState = [u32; 5];

/// The states that each agent passes through, by the board's own steps, and the last record.
fn passed_through(
    board: &dyn Board,
    table: &[u32],
    choices: &[Choice],
) -> Result<(Vec<Vec<AgentState>>, Vec<u32>), String> {
    let mut state = vec![0; STATE_WORDS];
    same("reply of start", &0, &board.start(table, &mut state))?;
    let agent_state = |state: &[u32], a: usize| {
        let register = |r| state[layout::register(a, r)];
        [state[layout::position(a)], register(0), register(1), register(2), register(3)]
    };
    let agents = table[layout::AGENT_COUNT] as usize;
    let mut passed: Vec<_> = (0..agents).map(|a| vec![agent_state(&state, a)]).collect();
    for &(agent, time) in choices {
        same("reply of a step", &0, &board.step(table, &mut state, agent, time))?;
        passed[agent as usize].push(agent_state(&state, agent as usize));
    }
    Ok((passed, state))
}

/// Demands that for each agent one list of states is a beginning of the other.
fn prefixes(one: &[Vec<AgentState>], other: &[Vec<AgentState>]) -> Outcome {
    for (a, (one, other)) in one.iter().zip(other).enumerate() {
        let both = one.len().min(other.len());
        same(&format!("states of agent {a} in two schedules"), &one[..both], &other[..both])?;
    }
    Ok(())
}

/// Demand 3: two schedules of one table in different orders, both to the end of all agents, and a
/// third that stops on the way.
fn pair_case(rng: &mut Rng, board: &dyn Board, counts: &mut Counts) -> Outcome<Lent> {
    let size = rng.pick(&[Size::Small, Size::Long, Size::Any]);
    let table = table(rng, size);
    let table_words = table.to_words();
    let orders = rng.pick(&[
        [Order::LowestFirst, Order::HighestFirst],
        [Order::LowestFirst, Order::Random],
        [Order::HighestFirst, Order::Random],
        [Order::Random, Order::Random],
    ]);
    let [one, other] = orders.map(|order| schedule(rng, &table, order));
    let mut third = schedule(rng, &table, Order::Random);
    third.truncate(rng.below(third.len() + 1));

    let after_clock = layout::CLOCK + 1;
    let agents_of = |choices: &[Choice]| choices.iter().map(|c| c.0).collect::<Vec<_>>();
    let (states, record) = passed_through(board, &table_words, &one)?;
    let (other_states, other_record) = passed_through(board, &table_words, &other)?;
    let (third_states, _) = passed_through(board, &table_words, &third)?;
    let outcome = same("the agents' states", &states, &other_states)
        .and_then(|()| {
            let (one, other) = (&record[after_clock..], &other_record[after_clock..]);
            same("the records but the clock", one, other)
        })
        .and_then(|()| prefixes(&states, &third_states));
    outcome.map_err(|what| {
        format!("{what}\nchoices: {one:?}\nand: {other:?}\ntable: {}", listed(&table_words))
    })?;

    // The same by runs; further choices, all refused, change nothing.
    let lent = Lent::new(rng, &table_words, true);
    for (choices, record) in [(&one, &record), (&other, &other_record)] {
        let mut more = choices.clone();
        if rng.percent(50) {
            more.push((rng.below(table.agents.len()) as u32, rng.word()));
        }
        let (_, count) = compare_run(rng, board, counts, &lent, true, &words(&more))?;
        same("count of a whole schedule", &(choices.len() as u32), &count)?;
        let mut state = vec![0; STATE_WORDS];
        board.run(&table_words, &mut state, &words(&more));
        same("the record of the run and that of its steps", record, &state)?;
    }
    if agents_of(&one) != agents_of(&other) {
        counts.pair();
    }
    Ok(lent)
}

/// An input of the trace program of about the longest length: below, equal or above.
fn pad(rng: &mut Rng, input: &mut Vec<u8>) {
    let limit = reference::trace::INPUT_BYTES + rng.pick(&[1, 1, 2, 13, 5_000])
        - usize::from(rng.percent(10));
    let lines = if rng.percent(80) { choice_lines(&[(0, 1)]) } else { b"\n".to_vec() };
    while input.len() < limit {
        input.extend(&lines);
    }
    input.truncate(limit);
}

fn trace_case(rng: &mut Rng, board: &dyn Board, counts: &mut Counts) -> Outcome<Lent> {
    let size = any_size(rng);
    let table = table(rng, size);
    let mut input = if rng.percent(40) { damaged(rng, &table) } else { text(&table) };
    let mut choices = choice_lines(&mixed_choices(rng, &table));
    if rng.percent(30) {
        damage_text(rng, &mut choices);
    }
    input.extend(choices);
    if rng.percent(35) {
        pad(rng, &mut input);
    }
    let expected = reference::trace(&input);
    let got = board.trace(&input);
    let shown = |bytes: &[u8]| String::from_utf8_lossy(bytes).into_owned();
    let outcome = same("output", &shown(&expected), &shown(&got));
    let last = shown(&expected[expected.len() - 9..]);
    let reply = u32::from_str_radix(&last[2..4], 16).expect("digits");
    let is_of_a_line = LINE_REPLIES.contains(&(reply as usize));
    let mut words = Lent::blank(rng, TABLE_WORDS, true);
    let is_table_accepted = reference::read(split_table(&input).0, words.words_mut()).0 == ACCEPTED;
    let call = match is_of_a_line && is_table_accepted {
        true => Call::Choices,
        false => Call::Trace,
    };
    counts.reply(call, reply);
    outcome
        .map_err(|what| format!("{what}\ninput of {} bytes:\n{}", input.len(), shown(&input)))?;
    Ok(words)
}
