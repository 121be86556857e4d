//! Random accepted tables and states that fit them.

use reference::executive::AgentState;
use reference::table::{ADD, JUMP, LOW, ONES, RECV, SEND, SET, SKIP, SUB};
use reference::{Agent, Row, State, Table, AGENTS, LAST_TIME, ROWS};

use crate::rng::Rng;
use crate::ways::ways;

/// How large a table is.
#[derive(Clone, Copy, PartialEq, Eq)]
pub enum Size {
    /// A few agents with a few rows.
    Small,
    /// Any numbers of agents and rows.
    Any,
    /// Enough rows that are not skipped for a run of 20 steps.
    Long,
}

/// What a table is made of.
struct Style {
    /// How far windows move from row to row.
    gap: u32,
    /// Windows are taken from a few phases that all agents share, so that lates are often equal.
    phased: bool,
    /// Parts of 100 in which a row is of a later phase than those before it.
    later: usize,
    /// Windows follow what rows go on to, and not the order of the rows: two arms of a branch may
    /// share the same time.
    shared: bool,
    /// Message numbers.
    numbers: Vec<u32>,
    /// Parts of 100 that are SEND and RECV rows.
    messages: usize,
    /// Parts of 100 in which a row with n goes further than the next.
    far: usize,
    /// Parts of 100 in which rows are made a branch of two arms, where there is room.
    arms: usize,
    /// The most rows of an arm.
    longest_arm: usize,
}

impl Style {
    fn new(rng: &mut Rng, size: Size) -> Style {
        let base = rng.word();
        let shared = rng.percent(60);
        Style {
            gap: rng.pick(&[1, 2, 3, 10, 400, 60_000]),
            phased: rng.percent(50),
            later: if shared { rng.pick(&[20, 50]) } else { 20 },
            shared,
            numbers: (0..rng.pick(&[1, 1, 1, 2, 3])).map(|i| base.wrapping_add(i)).collect(),
            messages: rng.pick(&[20, 60, 80, 95]),
            far: if size == Size::Long { 10 } else { 50 },
            arms: match (shared, size) {
                (false, _) => 0,
                (true, Size::Long) => 20,
                (true, _) => rng.pick(&[0, 30, 60]),
            },
            longest_arm: if size == Size::Long { 1 } else { rng.pick(&[1, 2, 5]) },
        }
    }
}

/// A window, and what another may not be below.
#[derive(Clone, Copy)]
struct Floor {
    phase: u32,
    early: u32,
    late: u32,
}

impl Floor {
    /// The window of a phase, which all agents of a table share.
    fn of_phase(phase: u32, style: &Style) -> Floor {
        Floor { phase, early: 10 * phase * style.gap + 1, late: (10 * phase + 9) * style.gap }
    }

    fn with(self, other: Floor) -> Floor {
        Floor {
            phase: self.phase.max(other.phase),
            early: self.early.max(other.early),
            late: self.late.max(other.late),
        }
    }

    /// A window not below this one.
    fn risen(self, rng: &mut Rng, style: &Style) -> Floor {
        let gap = style.gap as usize;
        if style.phased {
            return Floor::of_phase(self.phase + u32::from(rng.percent(style.later)), style);
        }
        let early = self.early + rng.below(gap + 1) as u32;
        let late = self.late.max(early + 1 + rng.below(3 * gap) as u32);
        Floor { early, late, ..self }
    }

    /// Gives this window to a row, as far as a window may reach.
    fn put(self, row: &mut Row) {
        row.early = self.early.min(LAST_TIME - 1);
        row.late = self.late.min(LAST_TIME);
    }
}

/// Gives an agent's rows their windows: each early and late not below that of the row before, or of
/// the rows that can go on to it.
fn put_windows(rng: &mut Rng, style: &Style, rows: &mut [Row]) {
    let gap = style.gap as usize;
    let first = if rng.percent(20) { 0 } else { rng.below(gap + 1) as u32 };
    let begin = Floor { phase: 0, early: first, late: first };
    // The end has a floor that nothing is held against.
    let mut floors = vec![begin; rows.len() + 1];
    for i in 0..rows.len() {
        let risen = floors[i].risen(rng, style);
        risen.put(&mut rows[i]);
        if !style.shared {
            floors[i + 1] = risen;
            continue;
        }
        for (_, position) in ways(rows[i], i) {
            floors[position] = floors[position].with(risen);
        }
    }
    if rng.percent(3) {
        // The last row goes on to the end alone.
        rows.last_mut().unwrap().late = LAST_TIME;
    }
}

fn op(rng: &mut Rng, style: &Style, progress: usize) -> u8 {
    if rng.percent(style.messages) {
        // Senders first and receivers later, so that there is something to see.
        return if rng.percent(80 - progress * 60 / 100) { SEND } else { RECV };
    }
    rng.pick(&[SET, ADD, SUB, ONES, LOW, SKIP, JUMP])
}

/// A row of this op, and of this n where it names one, without its window.
fn row(rng: &mut Rng, style: &Style, op: u8, n: usize) -> Row {
    let n = n as u8;
    let (x, y) = (rng.below(4) as u8, rng.below(4) as u8);
    let number = rng.pick(&style.numbers);
    let blank = Row { op, ..Row::default() };
    match op {
        SET => Row { x, k: rng.word(), ..blank },
        ADD | SUB | ONES | LOW => Row { x, y, ..blank },
        SKIP => Row { x, n, ..blank },
        JUMP => Row { n, ..blank },
        SEND => Row { x, k: number, ..blank },
        _ => Row { x, n, k: number, ..blank },
    }
}

/// Makes some rows branches: a SKIP or RECV over the first arm, whose last row is a JUMP over the
/// second. One may lie in an arm of another.
fn put_arms(rng: &mut Rng, style: &Style, rows: &mut [Row]) {
    let mut at = 0;
    while at + 3 <= rows.len() {
        if !rng.percent(style.arms) {
            at += 1;
            continue;
        }
        let room = rows.len() - at - 2;
        let second = rng.within(1, room.min(style.longest_arm));
        let first = 1 + rng.below((room - second + 1).min(style.longest_arm + 1));
        let branch = rng.pick(&[SKIP, RECV]);
        rows[at] = row(rng, style, branch, first);
        rows[at + first] = row(rng, style, JUMP, second);
        at += if rng.percent(20) { 1 } else { 1 + first + second };
    }
}

fn rows(rng: &mut Rng, style: &Style, count: usize) -> Vec<Row> {
    let mut rows: Vec<Row> = (0..count)
        .map(|i| {
            let op = op(rng, style, 100 * i / count);
            let room = count - i - 1;
            let n = match rng.percent(style.far) {
                true => rng.below(room + 1).min(rng.pick(&[1, 2, 31])),
                false => 0,
            };
            row(rng, style, op, n)
        })
        .collect();
    put_arms(rng, style, &mut rows);
    put_windows(rng, style, &mut rows);
    rows
}

/// The rows of a branch whose first arm sends later than its second, and of a RECV after both. A state
/// in which both have sent fits the table, though no run reaches it.
fn crossed_rows(rng: &mut Rng, style: &Style) -> Vec<Row> {
    let branch = rng.pick(&[SKIP, RECV]);
    let later = rng.time(1, 2);
    let ops =
        [(branch, 2, 0), (SEND, 0, later), (JUMP, 1, later), (SEND, 0, 0), (RECV, 0, later + 1)];
    ops.into_iter()
        .map(|(op, n, phase)| {
            let mut row = row(rng, style, op, n);
            Floor::of_phase(phase, style).put(&mut row);
            row
        })
        .collect()
}

/// A table that is accepted.
pub fn table(rng: &mut Rng, size: Size) -> Table {
    let style = Style::new(rng, size);
    let (agents, most_rows) = match size {
        Size::Small => (rng.within(1, 4), 6),
        Size::Any => (rng.pick(&[1, 2, 3, 5, 8, 15, AGENTS]), rng.pick(&[2, 8, 31, ROWS])),
        Size::Long => (rng.within(3, 9), 14),
    };
    let full = size == Size::Any && rng.percent(10);
    let agents = (0..agents).map(|_| {
        let count = match size {
            Size::Long => rng.within(9, most_rows),
            _ if full => most_rows,
            _ => rng.within(1, most_rows),
        };
        let rows = match style.shared && size != Size::Long && !full && rng.percent(15) {
            true => crossed_rows(rng, &style),
            false => rows(rng, &style, count),
        };
        Agent { registers: [(); 4].map(|()| rng.word()), rows }
    });
    Table { agents: agents.collect() }
}

/// A state that fits the table, mostly one that no run reaches.
pub fn fitting_state(rng: &mut Rng, table: &Table) -> State {
    let marked = rng.pick(&[0, 50, 90, 100]);
    // One agent alone is left, and often receives: whatever its window, it can be run.
    let left = rng.percent(30).then(|| rng.below(table.agents.len()));
    let mut state = State::start(table);
    for (a, agent) in table.agents.iter().enumerate() {
        let count = agent.rows.len();
        let any = match rng.below(4) {
            0 => rng.pick(&[0, count, count - 1]),
            _ => rng.within(count / 2, count),
        };
        let last_recv = agent.rows.iter().rposition(|row| row.op == RECV);
        let position = match left {
            Some(left) if left != a => count,
            Some(_) if rng.percent(70) => last_recv.unwrap_or(any),
            _ => any,
        };
        state.agents[a] = AgentState { position, registers: [(); 4].map(|()| rng.word()) };
        for (i, row) in agent.rows[..position].iter().enumerate() {
            if row.op == SEND && rng.percent(marked) {
                state.sent[a][i] = Some(rng.word());
            }
        }
    }
    let last = state.deadline(table).unwrap_or(LAST_TIME);
    state.clock = match rng.below(4) {
        0 => 1,
        1 => last,
        _ => rng.time(1, last),
    };
    state
}

#[cfg(test)]
mod tests {
    use super::*;
    use crate::ways::has_earlier_row_below;
    use reference::{fits, ROWS};

    #[test]
    fn tables_are_accepted_and_states_fit_them() {
        let rng = &mut Rng::new(1);
        for size in [Size::Small, Size::Any, Size::Long] {
            let mut shared = 0;
            let mut full = 0;
            for _ in 0..1_000 {
                let table = table(rng, size);
                assert_eq!(Table::from_words(&table.to_words()), Some(table.clone()));
                assert!(fits(&table, &fitting_state(rng, &table).to_words()));
                shared += usize::from(has_earlier_row_below(&table));
                let rows: usize = table.agents.iter().map(|agent| agent.rows.len()).sum();
                full += usize::from(rows == AGENTS * ROWS);
            }
            assert!((200..800).contains(&shared), "{shared} of 1,000 share a time");
            assert!(full > 0 || size != Size::Any, "no table of the most rows");
        }
    }
}
