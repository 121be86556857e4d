//! Windows over what a row goes on to: reply 7 as change request T-03 asks, in the reader and, as 8,
//! in the check.

use reference::reply::*;
use reference::table::{JUMP, RECV, SEND, SET, SKIP};
use reference::{check, read, run, write, Agent, Row, Table, STATE_WORDS, TABLE_WORDS};

/// A row with this op, n and window, and all else 0.
fn row(op: u8, n: u8, (early, late): (u32, u32)) -> Row {
    Row { op, n, early, late, ..Row::default() }
}

/// A row that goes on to the next.
fn set(window: (u32, u32)) -> Row {
    row(SET, 0, window)
}

/// The text of a table, in which agent 0 has line 1, its row 0 line 2, and so on.
fn text(agents: &[Vec<Row>]) -> String {
    let mut text = String::new();
    for (a, rows) in agents.iter().enumerate() {
        text += &format!("00{a:02X}{}\n", "0".repeat(32));
        for Row { op, x, y, n, k, early, late } in rows {
            text += &format!("01{a:02X}{op:02X}{x:02X}{y:02X}{n:02X}");
            text += &format!("{k:08X}{early:08X}{late:08X}\n");
        }
    }
    text + "FF\n"
}

/// The words of a table.
fn words(agents: &[Vec<Row>]) -> Vec<u32> {
    let agents = agents.iter().map(|rows| Agent { registers: [0; 4], rows: rows.clone() });
    Table { agents: agents.collect() }.to_words()
}

/// Demands of a text that it is told so, and of its words that the check goes with it.
fn assert_told(agents: &[Vec<Row>], told: (u32, u32)) {
    let mut table = vec![7; TABLE_WORDS];
    assert_eq!(read(text(agents).as_bytes(), &mut table), told, "{agents:?}");
    if told.0 == ACCEPTED {
        assert_eq!((table, check(&words(agents))), (words(agents), ACCEPTED), "{agents:?}");
    } else {
        assert_eq!((table, check(&words(agents))), (vec![7; TABLE_WORDS], BAD_TABLE), "{agents:?}");
    }
}

fn assert_accepted(rows: &[Row]) {
    assert_told(&[rows.to_vec()], (ACCEPTED, 0));
}

/// Demands 7 for this row of the one agent, which stands two lines further.
fn assert_goes_back(rows: &[Row], i: u32) {
    assert_told(&[rows.to_vec()], (WINDOW_GOES_BACK, i + 2));
}

#[test]
fn two_arms_of_a_branch_may_share_the_same_time() {
    let arms = |first: (u32, u32), second: (u32, u32)| {
        [row(SKIP, 2, (1, 3)), set(first), row(JUMP, 1, first), set(second)]
    };
    // The second arm in the time of the first, starting earlier, ending earlier, and before it.
    assert_accepted(&arms((5, 8), (5, 8)));
    assert_accepted(&arms((5, 8), (4, 8)));
    assert_accepted(&arms((5, 8), (5, 7)));
    assert_accepted(&arms((5, 8), (2, 4)));
    assert_accepted(&arms((5, 8), (1, 3)));
    // No arm before the branch.
    assert_goes_back(&arms((5, 8), (0, 3)), 0);
    assert_goes_back(&arms((5, 8), (1, 2)), 0);
    assert_goes_back(&arms((0, 8), (2, 4)), 0);
    // Nor what follows both before one of them: it is the last row of that arm that goes back.
    let with = |after: (u32, u32)| [&arms((5, 8), (2, 4))[..], &[set(after)]].concat();
    assert_accepted(&with((5, 8)));
    assert_goes_back(&with((4, 8)), 2);
    assert_goes_back(&with((5, 7)), 2);
    assert_goes_back(&with((1, 9)), 2);
    let mut second_later = with((5, 8));
    second_later[3] = set((6, 8));
    assert_goes_back(&second_later, 3);
}

#[test]
fn an_accepted_arm_is_run_and_written() {
    let branch = Row { x: 1, ..row(SKIP, 2, (1, 3)) };
    let arm = |k, window| Row { k, ..set(window) };
    let agents = [vec![branch, arm(1, (5, 8)), row(JUMP, 1, (5, 8)), arm(2, (2, 4))]];
    let mut table = words(&agents);
    let mut state = vec![0; STATE_WORDS];
    // Register 1 is 0: the second arm, whose time has passed at 5. Then it is 1: the first, which
    // has not begun at 4.
    assert_eq!(run(&table, &mut state, &[0, 1, 0, 4]), (ACCEPTED, 2));
    assert_eq!((state[1], state[17]), (4, 2));
    assert_eq!(run(&table, &mut state, &[0, 1, 0, 5]), (TIME_ABOVE_LATE, 1));
    table[18] = 1;
    assert_eq!(run(&table, &mut state, &[0, 1, 0, 4]), (TIME_BELOW_EARLY, 1));
    assert_eq!(run(&table, &mut state, &[0, 1, 0, 5, 0, 5]), (ACCEPTED, 3));
    assert_eq!((state[1], state[17]), (4, 1));
    table[18] = 0;
    let expected = text(&agents);
    let mut written = vec![0; expected.len()];
    assert_eq!(write(&table, &mut written), (ACCEPTED, expected.len() as u32));
    assert_eq!(String::from_utf8(written).unwrap(), expected);
}

#[test]
fn p12_is_7_at_the_row_that_goes_on() {
    assert_accepted(&[set((4, 9)), set((4, 9))]);
    assert_told(&[vec![set((4, 9)), set((3, 9))]], (WINDOW_GOES_BACK, 2));
    assert_accepted(&[set((3, 9)), set((4, 9))]);
    // Of the early and the late each is tested.
    assert_goes_back(&[set((4, 9)), set((4, 8))], 0);
    assert_goes_back(&[set((4, 9)), set((5, 8))], 0);
    assert_goes_back(&[set((4, 9)), set((3, 10))], 0);
    // The earliest of two.
    assert_goes_back(&[set((2, 9)), set((4, 9)), set((3, 9)), set((2, 9))], 1);
}

#[test]
fn each_row_is_tested_against_what_it_can_go_on_to() {
    // Of each op: whether its row is tested against p+1, and against p+1+n, which is p+3.
    for (op, near, far) in
        [(SKIP, true, true), (RECV, true, true), (JUMP, false, true), (SET, true, false)]
    {
        let n = if op == SET { 0 } else { 2 };
        for earlier in [(3, 9), (4, 8), (3, 8), (0, 1)] {
            let (same, later) = ((4, 9), (5, 10));
            let assert_if = |goes_back: bool, rows: &[Row]| match goes_back {
                true => assert_goes_back(rows, 0),
                false => assert_accepted(rows),
            };
            assert_if(near, &[row(op, n, same), set(earlier), set(same), set(later)]);
            // The row before the far one jumps over it, so that it goes back nowhere.
            let over = [row(op, n, same), set(same), row(JUMP, 1, same), set(earlier)];
            assert_if(far, &over);
            assert_accepted(&[row(op, n, same), set(same), set(same), set(same)]);
        }
    }
}

#[test]
fn a_row_that_is_jumped_over_is_tested_as_one_that_goes_on() {
    let over = |window| [row(JUMP, 1, (5, 9)), set(window), set((5, 9))];
    assert_accepted(&over((4, 8)));
    assert_accepted(&over((5, 9)));
    assert_goes_back(&over((6, 9)), 1);
    assert_goes_back(&over((5, 10)), 1);
    // A JUMP by 0 goes on to the next row.
    assert_goes_back(&[row(JUMP, 0, (5, 9)), set((4, 9))], 0);
    // Also where no path reaches it from row 0, be it the last row or not.
    assert_accepted(&[row(JUMP, 2, (5, 9)), set((3, 4)), set((3, 4))]);
    assert_goes_back(&[row(JUMP, 2, (5, 9)), set((3, 4)), set((2, 4))], 1);
}

#[test]
fn the_end_has_no_window() {
    for op in [SET, SEND, SKIP, JUMP, RECV] {
        assert_accepted(&[row(op, 0, (999_999, 1_000_000))]);
        assert_accepted(&[set((0, 1)), row(op, 0, (5, 9))]);
    }
    // By n, over rows of an earlier time; and of another agent, whose rows are no rows of this one.
    assert_accepted(&[row(JUMP, 2, (5, 9)), set((1, 2)), set((1, 2))]);
    assert_accepted(&[row(SKIP, 1, (5, 9)), set((5, 9))]);
    assert_accepted(&[row(RECV, 1, (5, 9)), set((5, 9))]);
    assert_told(&[vec![set((5, 9))], vec![set((1, 2))]], (ACCEPTED, 0));
    // Thirty-two rows: what stands after the last in the words is the next agent's.
    let full = vec![set((5, 9)); 32];
    assert_told(&[full.clone(), vec![set((1, 2))]], (ACCEPTED, 0));
    assert_told(&vec![full; 16], (ACCEPTED, 0));
}

#[test]
fn all_rows_of_all_agents_pass_4_to_6_before_7() {
    let bad = [
        (BAD_FIELD, row(0x09, 0, (3, 9))),
        (BAD_TARGET, row(JUMP, 31, (3, 9))),
        (BAD_WINDOW, set((9, 9))),
    ];
    let back = [set((4, 9)), set((3, 9))];
    for (reply, row) in bad {
        // A later row of the same agent, the row gone on to itself, and a row of another agent.
        assert_told(&[[&back[..], &[row]].concat()], (reply, 4));
        assert_told(&[vec![set((4, 9)), row]], (reply, 3));
        assert_told(&[back.to_vec(), vec![row]], (reply, 5));
        assert_told(&[back.to_vec(), vec![set((1, 2))], vec![set((1, 2)), row]], (reply, 8));
        // An earlier one.
        assert_told(&[vec![row], back.to_vec()], (reply, 2));
    }
    // With all rows good the 7 is told, of the earlier agent where two have one.
    assert_told(&[vec![set((1, 2))], back.to_vec()], (WINDOW_GOES_BACK, 4));
    assert_told(&[back.to_vec(), back.to_vec()], (WINDOW_GOES_BACK, 2));
    // 4 to 6 are told for the first row, whichever it is.
    let [field, target, window] = bad.map(|(_, row)| row);
    assert_told(&[vec![window, field]], (BAD_WINDOW, 2));
    assert_told(&[vec![target], vec![field]], (BAD_TARGET, 2));
}

#[test]
fn a_target_above_the_row_count_is_5_and_not_looked_for() {
    assert_told(&[vec![row(SKIP, 1, (5, 9))]], (BAD_TARGET, 2));
    // In the words, p+1+n of the one agent's row would be a row of the next.
    let rows = vec![row(JUMP, 31, (5, 9)); 2];
    assert_told(&[rows, vec![set((1, 2)); 32]], (BAD_TARGET, 2));
}
