//! Damage to rows, to the words of tables and to the words of states.

use reference::{Row, State, Table, AGENTS, LAST_TIME, ROWS, STATE_WORDS, TABLE_WORDS};

use crate::layout;
use crate::rng::Rng;
use crate::ways::{is_reached, ways_of_rows, Way};

/// A field of a row becomes wrong, at an edge, or only different.
pub fn damage_row(rng: &mut Rng, row: &mut Row, before: Row) {
    match rng.below(18) {
        0 => row.op = rng.draw() as u8,
        1 => row.op = rng.pick(&[0x05, 0x0F, 0x12, 0x1F, 0x21, 0x2F, 0x31, 0x3F, 0x40, 0x80, 0xFF]),
        2 => row.op = rng.pick(&[0x00, 0x01, 0x02, 0x03, 0x04, 0x10, 0x11, 0x20, 0x30]),
        3 => row.x = rng.pick(&[0, 3, 4, 255]),
        4 => row.y = rng.pick(&[0, 3, 4, 255]),
        5 => row.n = rng.pick(&[0, 31, 32, 255]),
        6 => row.k = rng.word_not_0(),
        7..=10 => {
            // A row that names n, with a target that is often too far.
            row.op = rng.pick(&[0x10, 0x11]);
            (row.x, row.y, row.k) = (0, 0, 0);
            row.n = rng.below(32) as u8;
        }
        11 => row.early = row.late,
        12 => row.late = row.early,
        13 => row.late = rng.pick(&[LAST_TIME, LAST_TIME + 1, 1 << 31, u32::MAX]),
        14 => row.early = rng.word(),
        15 => row.early = before.early.saturating_sub(1),
        16 => (row.early, row.late) = (0, before.late.saturating_sub(1)),
        _ => row.late = before.late.saturating_sub(1),
    }
}

/// A way of these rows on which one may go back: of each kind as often as of another, and mostly of a
/// row that has n or that no path reaches, where there is one.
fn any_way(rng: &mut Rng, rows: &[Row]) -> Option<(usize, usize)> {
    let mut all = ways_of_rows(rows);
    if rng.percent(20) && all.iter().any(|&(p, ..)| !is_reached(rows, p)) {
        all.retain(|&(p, ..)| !is_reached(rows, p));
    } else if rng.percent(80) && all.iter().any(|&(_, way, _)| way != Way::Next) {
        all.retain(|&(_, way, _)| way != Way::Next);
    }
    let mut kinds = Way::ALL.to_vec();
    kinds.retain(|kind| all.iter().any(|(_, way, _)| way == kind));
    if kinds.is_empty() {
        return None;
    }
    let kind = rng.pick(&kinds);
    all.retain(|&(_, way, _)| way == kind);
    let (p, _, position) = rng.pick(&all);
    Some((p, position))
}

/// A row of an agent comes to go on to an earlier one, or just not: 7.
pub fn damage_way(rng: &mut Rng, rows: &mut [Row]) {
    let Some((p, position)) = any_way(rng, rows) else { return };
    let (from, to) = (rows[p], rows[position]);
    let below = |time: u32| time.saturating_sub(1);
    let above = |time: u32| time.saturating_add(1);
    match rng.below(9) {
        0 | 1 => rows[position].early = below(from.early),
        2 | 3 if to.early < below(from.late) => rows[position].late = below(from.late),
        2..=4 => rows[p].late = above(to.late),
        5 if above(to.early) < from.late => rows[p].early = above(to.early),
        5..=7 => {
            (rows[position].early, rows[position].late) = (below(from.early), below(from.late));
        }
        _ => (rows[position].early, rows[position].late) = (from.early, from.late),
    }
}

/// The words of a row.
fn row_words(row: Row) -> [u32; layout::ROW_WORDS] {
    let code = u32::from_be_bytes([row.op, row.x, row.y, row.n]);
    [code, row.k, row.early, row.late]
}

/// Damage to the words of this table.
pub fn damage_table(rng: &mut Rng, table: &Table, words: &mut [u32]) {
    let agents = table.agents.len();
    let a = rng.below(agents);
    let count = table.agents[a].rows.len();
    let unused_agent = agents..AGENTS;
    match rng.below(16) {
        0 => {
            let agents = agents as u32;
            words[layout::AGENT_COUNT] =
                rng.pick(&[0, 17, agents - 1, agents + 1, agents + (1 << 16), u32::MAX]);
        }
        1 => {
            let count = count as u32;
            words[layout::row_count(a)] =
                rng.pick(&[0, 33, count - 1, count + 1, count + (1 << 8), u32::MAX]);
        }
        2 if !unused_agent.is_empty() => {
            let agent = rng.within(agents, AGENTS - 1);
            let at = rng.pick(&[
                layout::row_count(agent),
                layout::register(agent, 0),
                layout::register(agent, 3),
            ]);
            words[at] = rng.word_not_0();
        }
        3 if !unused_agent.is_empty() => {
            let first = layout::row(agents, 0);
            let at = rng.within(first, TABLE_WORDS - 1);
            words[rng.pick(&[first, at, TABLE_WORDS - 1])] = rng.word_not_0();
        }
        4 if count < ROWS => {
            let first = layout::row(a, count);
            let last = layout::row(a, ROWS) - 1;
            let at = rng.within(first, last);
            words[rng.pick(&[first, at, last])] = rng.word_not_0();
        }
        5 => {
            let at = rng.below(TABLE_WORDS);
            words[at] ^= 1 << rng.below(32);
        }
        6 => words[rng.below(TABLE_WORDS)] = rng.word(),
        7..=10 => {
            let branching: Vec<usize> = (0..agents)
                .filter(|&a| table.agents[a].rows.iter().any(|row| row.n != 0))
                .collect();
            let a = if branching.is_empty() { a } else { rng.pick(&branching) };
            let mut rows = table.agents[a].rows.clone();
            damage_way(rng, &mut rows);
            let all: Vec<u32> = rows.into_iter().flat_map(row_words).collect();
            words[layout::row(a, 0)..][..all.len()].copy_from_slice(&all);
        }
        _ => {
            let i = rng.below(count);
            let rows = &table.agents[a].rows;
            let before = if i > 0 { rows[i - 1] } else { Row::default() };
            let mut row = rows[i];
            damage_row(rng, &mut row, before);
            words[layout::row(a, i)..][..layout::ROW_WORDS].copy_from_slice(&row_words(row));
        }
    }
}

/// Damage to the words of this state of this table.
pub fn damage_state(rng: &mut Rng, table: &Table, state: &State, words: &mut [u32]) {
    let agents = table.agents.len();
    let a = rng.below(agents);
    let count = table.agents[a].rows.len();
    let position = state.agents[a].position;
    let i = rng.below(ROWS);
    match rng.below(14) {
        0 => words[layout::CLOCK] = rng.pick(&[0, LAST_TIME, LAST_TIME + 1, u32::MAX]),
        1 | 2 => words[layout::CLOCK] = state.deadline(table).unwrap_or(LAST_TIME) + 1,
        3 => words[layout::position(a)] = rng.pick(&[count as u32 + 1, 33, 1 << 16, u32::MAX]),
        4 => words[layout::position(a)] = rng.below(count + 1) as u32,
        5 if agents < AGENTS => {
            let agent = rng.within(agents, AGENTS - 1);
            let at = rng.pick(&[
                layout::position(agent),
                layout::register(agent, 0),
                layout::register(agent, 3),
            ]);
            words[at] = rng.word_not_0();
        }
        6 if agents < AGENTS => {
            let place = rng.within(ROWS * agents, ROWS * AGENTS - 1);
            let (agent, i) = (place / ROWS, place % ROWS);
            words[rng.pick(&[layout::mark(agent, i), layout::value(agent, i)])] = rng.word_not_0();
        }
        7 => words[layout::mark(a, i)] = rng.pick(&[1, 2, u32::MAX]),
        8 => words[layout::value(a, i)] = rng.word_not_0(),
        9 => words[layout::mark(a, i)] ^= 1,
        10 if position < count => {
            // The row not yet run, or one after it, marked.
            words[layout::mark(a, rng.within(position, count - 1))] = 1;
        }
        11 => {
            let at = rng.below(STATE_WORDS);
            words[at] ^= 1 << rng.below(32);
        }
        12 => words[rng.below(STATE_WORDS)] = rng.word(),
        _ => words[layout::mark(a, i)] = 2,
    }
}
