//! Boards with a wrong rule for the windows of rows, reply 7, each of which the comparison must find:
//! in the reader, in the check, and in the calls that reply 8.

mod faulty;

use std::cmp::Reverse;

use cases::suite::Kind;
use cases::ways::{has_earlier_row_below, is_earlier_than_before, is_reached, ways, Way};
use cases::{compare, layout, Board, Plan};
use faulty::{is_found, Faulty, Quick, Told, GOOD};
use reference::executive::{Message, State};
use reference::reader::{lines, table_of_text};
use reference::reply::*;
use reference::table::{row_reply, window_reply, RowRefusal, JUMP, RECV};
use reference::trace::split_table;
use reference::{Row, Table, TABLE_WORDS};

/// All rows of a table, agent by agent.
fn places(table: &Table) -> Vec<(usize, usize)> {
    let agents = table.agents.iter().enumerate();
    agents.flat_map(|(a, agent)| (0..agent.rows.len()).map(move |i| (a, i))).collect()
}

/// The first row that is refused with 4 to 6.
fn first_of_4_to_6(table: &Table) -> Option<RowRefusal> {
    let refusals =
        places(table).into_iter().map(|(a, i)| (row_reply(&table.agents[a].rows, i), a, i));
    refusals.into_iter().find(|refusal| refusal.0 != ACCEPTED)
}

/// Whether a row, here its agent's rows and its position, is refused with 7.
type Rule = fn(&[Row], usize) -> bool;

/// The rows that a rule refuses.
fn refused_by(table: &Table, rule: Rule) -> Vec<(usize, usize)> {
    places(table).into_iter().filter(|&(a, i)| rule(&table.agents[a].rows, i)).collect()
}

/// The row that is refused where a rule for 7 stands in the place of the right one.
fn refused_with(table: &Table, rule: Rule) -> Option<RowRefusal> {
    let with_7 = || refused_by(table, rule).first().map(|&(a, i)| (WINDOW_GOES_BACK, a, i));
    first_of_4_to_6(table).or_else(with_7)
}

fn is_above(row: &Row, next: &Row) -> bool {
    row.early > next.early || row.late > next.late
}

/// Whether a row is above one of those at these positions.
fn is_above_any(rows: &[Row], i: usize, positions: &[usize]) -> bool {
    positions.iter().filter_map(|&p| rows.get(p)).any(|next| is_above(&rows[i], next))
}

/// The same over all ways but those of one kind.
fn without(rows: &[Row], i: usize, left_out: Way) -> bool {
    let all = ways(rows[i], i).into_iter().filter(|way| way.0 != left_out);
    is_above_any(rows, i, &all.map(|way| way.1).collect::<Vec<_>>())
}

/// Whether this holds of a row and some row that it can go on to.
fn any_next(rows: &[Row], i: usize, holds: impl Fn(&Row, &Row) -> bool) -> bool {
    let mut all = rows[i].goes_on_to(i).into_iter().filter_map(|p| rows.get(p));
    all.any(|next| holds(&rows[i], next))
}

const RIGHT: Rule = |rows, i| window_reply(rows, i) != ACCEPTED;

/// Wrong rules for one row, which the reader and the check may have.
const WRONG_RULES: [(&str, Rule); 17] = [
    ("the row below, whatever the row goes on to", |rows, i| is_above_any(rows, i, &[i + 1])),
    ("every row below", |rows, i| rows[i..].iter().any(|next| is_above(&rows[i], next))),
    ("a JUMP's p+1 too", |rows, i| {
        RIGHT(rows, i) || rows[i].op == JUMP && is_above_any(rows, i, &[i + 1])
    }),
    ("the end taken for a window of 0", |rows, i| {
        let end = Row::default();
        let all = rows[i].goes_on_to(i);
        all.into_iter().any(|p| is_above(&rows[i], rows.get(p).unwrap_or(&end)))
    }),
    ("only early", |rows, i| any_next(rows, i, |row, next| row.early > next.early)),
    ("only late", |rows, i| any_next(rows, i, |row, next| row.late > next.late)),
    ("early and late both above", |rows, i| {
        any_next(rows, i, |row, next| row.early > next.early && row.late > next.late)
    }),
    ("equal ones too", |rows, i| {
        any_next(rows, i, |row, next| row.early >= next.early || row.late >= next.late)
    }),
    ("no row that goes on to p+1 alone", |rows, i| without(rows, i, Way::Next)),
    ("not a SKIP's p+1", |rows, i| without(rows, i, Way::SkipNear)),
    ("not a SKIP's p+1+n", |rows, i| without(rows, i, Way::SkipFar)),
    ("not a RECV's p+1", |rows, i| without(rows, i, Way::RecvNear)),
    ("not a RECV's p+1+n", |rows, i| without(rows, i, Way::RecvFar)),
    ("not a JUMP's p+1+n", |rows, i| without(rows, i, Way::Jump)),
    ("p+n for p+1+n", |rows, i| {
        let all = ways(rows[i], i).into_iter().map(|(way, position)| match way {
            Way::SkipFar | Way::RecvFar | Way::Jump => position - 1,
            _ => position,
        });
        is_above_any(rows, i, &all.collect::<Vec<_>>())
    }),
    ("only rows that a path reaches", |rows, i| RIGHT(rows, i) && is_reached(rows, i)),
    ("no windows at all", |_, _| false),
];

/// What a wrong reader finds in the rows of a text.
type WrongOrder = (&'static str, fn(&Table) -> Option<RowRefusal>);

/// Right rules in a wrong order, or with a wrong row told: a wrong reader may have these.
const WRONG_ORDERS: [WrongOrder; 5] = [
    ("document 01's rule, row by row", |table| {
        places(table).into_iter().find_map(|(a, i)| {
            let rows = &table.agents[a].rows;
            match row_reply(rows, i) {
                ACCEPTED => is_earlier_than_before(rows, i).then_some((WINDOW_GOES_BACK, a, i)),
                reply => Some((reply, a, i)),
            }
        })
    }),
    ("7 told before a later row's 4 to 6", |table| {
        let first_back = || refused_by(table, RIGHT).into_iter().next();
        let with_7 = || first_back().map(|(a, i)| (WINDOW_GOES_BACK, a, i));
        let all = [first_of_4_to_6(table), with_7()];
        all.into_iter().flatten().min_by_key(|&(reply, a, i)| (a, i, reply))
    }),
    ("7 told before a later agent's 4 to 6", |table| {
        (0..table.agents.len()).find_map(|a| {
            let one = Table { agents: vec![table.agents[a].clone()] };
            refused_with(&one, RIGHT).map(|(reply, _, i)| (reply, a, i))
        })
    }),
    ("the row gone on to told", |table| {
        let (reply, a, i) = refused_with(table, RIGHT)?;
        let rows = &table.agents[a].rows;
        let target = (i + 1..rows.len())
            .find(|&p| rows[i].goes_on_to(i).contains(&p) && is_above(&rows[i], &rows[p]));
        Some((reply, a, if reply == WINDOW_GOES_BACK { target? } else { i }))
    }),
    ("the last row that goes back told", |table| {
        let last = || refused_by(table, RIGHT).last().map(|&(a, i)| (WINDOW_GOES_BACK, a, i));
        first_of_4_to_6(table).or_else(last)
    }),
];

/// A reader that finds the refused row so.
fn read_with(
    text: &[u8],
    table: &mut [u32],
    refused: impl Fn(&Table) -> Option<RowRefusal>,
) -> Told {
    let Some(table) = table.get_mut(..TABLE_WORDS) else { return (BUFFER_TOO_SHORT, 0) };
    let read = match lines(text) {
        Err(refusal) => return refusal,
        Ok(read) => read,
    };
    if let Some((reply, a, i)) = refused(&read.table) {
        return (reply, read.row_lines[a][i]);
    }
    table.copy_from_slice(&read.table.to_words());
    (ACCEPTED, 0)
}

/// A check that finds the refused row so.
fn check_with(table: &[u32], refused: impl Fn(&Table) -> Option<RowRefusal>) -> u32 {
    match table.get(..TABLE_WORDS).map(Table::decoded) {
        None => BUFFER_TOO_SHORT,
        Some(Some(table)) if refused(&table).is_none() => ACCEPTED,
        _ => BAD_TABLE,
    }
}

#[test]
fn wrong_rules_are_found_and_the_right_one_is_not() {
    for (fault, rule) in WRONG_RULES {
        let refused = |table: &Table| refused_with(table, rule);
        let read = |text: &[u8], table: &mut [u32]| read_with(text, table, refused);
        is_found(fault, &Faulty { read: &read, ..GOOD }, Kind::Read);
        let check = |table: &[u32]| check_with(table, refused);
        is_found(fault, &Faulty { check: &check, ..GOOD }, Kind::Check);
    }
    let right = |table: &Table| refused_with(table, RIGHT);
    let read = |text: &[u8], table: &mut [u32]| read_with(text, table, right);
    let check = |table: &[u32]| check_with(table, right);
    let board = Faulty { read: &read, check: &check, ..GOOD };
    let plan = Plan(vec![(Kind::Read, 12_000), (Kind::Check, 12_000)]);
    compare(&board, &plan, 1).unwrap_or_else(|failure| panic!("{failure}"));
}

#[test]
fn wrong_orders_and_wrong_rows_are_found() {
    for (fault, refused) in WRONG_ORDERS {
        let read = |text: &[u8], table: &mut [u32]| read_with(text, table, refused);
        is_found(fault, &Faulty { read: &read, ..GOOD }, Kind::Read);
    }
}

/// Whether the words are those of a table that document 01 refused with 7 and that is accepted now.
fn is_accepted_since(table: &[u32]) -> bool {
    let words = table.get(..TABLE_WORDS);
    words.and_then(Table::from_words).is_some_and(|table| has_earlier_row_below(&table))
}

/// Whether the words are those of a table that is refused for its windows alone.
fn is_refused_with_7(table: &[u32]) -> bool {
    let refused = |table: Table| table.first_refused_row();
    let words = table.get(..TABLE_WORDS);
    words.and_then(Table::decoded).and_then(refused).is_some_and(|row| row.0 == WINDOW_GOES_BACK)
}

/// What a call does that does not follow: for these tables it has this reply in the place of 8 or 0.
type NotFollowing = (&'static str, fn(&[u32]) -> bool, u32);
const NOT_FOLLOWING: [NotFollowing; 2] = [
    ("refuses what document 01 refused", is_accepted_since, BAD_TABLE),
    ("accepts what goes back", is_refused_with_7, ACCEPTED),
];

#[test]
fn calls_that_do_not_follow_are_found() {
    for (fault, is_met, wrong) in NOT_FOLLOWING {
        let start = |table: &[u32], state: &mut [u32]| match quick::start(table, state) {
            ACCEPTED | BAD_TABLE if is_met(table) => wrong,
            reply => reply,
        };
        is_found(fault, &Faulty { start: &start, ..GOOD }, Kind::Start);
        let step = |table: &[u32], state: &mut [u32], agent, time| match quick::step(
            table, state, agent, time,
        ) {
            ACCEPTED | BAD_TABLE if is_met(table) => wrong,
            reply => reply,
        };
        is_found(fault, &Faulty { step: &step, ..GOOD }, Kind::Step);
        let run = |table: &[u32], state: &mut [u32], choices: &[u32]| match quick::run(
            table, state, choices,
        ) {
            (ACCEPTED | BAD_TABLE, _) if is_met(table) => (wrong, 0),
            ran => ran,
        };
        is_found(fault, &Faulty { run: &run, ..GOOD }, Kind::Run);
        let write = |table: &[u32], text: &mut [u8]| match quick::write(table, text) {
            (ACCEPTED | BAD_TABLE, _) if is_met(table) => (wrong, 0),
            wrote => wrote,
        };
        is_found(fault, &Faulty { write: &write, ..GOOD }, Kind::Write);
    }
    let trace = |input: &[u8]| match table_of_text(split_table(input).0) {
        Ok(table) if has_earlier_row_below(&table) => b"FE070002\n".to_vec(),
        _ => Quick.trace(input),
    };
    is_found("refuses what document 01 refused", &Faulty { trace: &trace, ..GOOD }, Kind::Trace);
}

/// A step that takes of each agent's visible messages the one of its highest row, which has the
/// greatest late where windows are in the order of the rows.
fn step_by_rows(table: &[u32], state: &mut [u32], agent: u32, time: u32) -> u32 {
    let before = state.to_vec();
    let reply = quick::step(table, state, agent, time);
    if reply != ACCEPTED {
        return reply;
    }
    let decoded = Table::from_words(table).unwrap();
    let record = State::from_words(&decoded, &before).unwrap();
    let a = agent as usize;
    let row = record.current_row(&decoded, a).unwrap();
    let visible = record.visible(&decoded, row);
    let highest = |m: &&Message| !visible.iter().any(|n| n.agent == m.agent && n.row > m.row);
    let taken = visible.iter().filter(highest).max_by_key(|m| (m.late, Reverse(m.agent)));
    if let (RECV, Some(message)) = (row.op, taken) {
        state[layout::register(a, usize::from(row.x))] = message.value;
    }
    reply
}

#[test]
fn a_search_that_relies_on_the_order_of_the_rows_is_found() {
    let fault = "takes the highest row of an agent";
    is_found(fault, &Faulty { step: &step_by_rows, ..GOOD }, Kind::Step);
}
