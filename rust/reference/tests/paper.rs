//! The paper's own cases that no trace shows: buffers, words and fits.

use reference::reply::*;
use reference::*;

const EXAMPLE: &[u8] = b"000000000005000000000000000000000000
010020000000000000070000000100000003
000100000000000000000000000000000000
010130010000000000070000000400000008
FF
";

fn example() -> Vec<u32> {
    let mut table = vec![7; TABLE_WORDS + 3];
    assert_eq!(read(EXAMPLE, &mut table), (ACCEPTED, 0));
    assert_eq!(table[TABLE_WORDS..], [7, 7, 7]);
    table
}

#[test]
fn the_example_in_words() {
    let table = example();
    assert_eq!(table[..3], [2, 1, 1]);
    assert_eq!(table[17], 5);
    assert_eq!(table[81..85], [0x2000_0000, 7, 1, 3]);
    assert_eq!(table[81 + 4 * 32..][..4], [0x3001_0000, 7, 4, 8]);
    assert_eq!(check(&table), ACCEPTED);
    let mut state = vec![9; STATE_WORDS + 1];
    assert_eq!(run(&table, &mut state, &[0, 3, 1, 4]), (ACCEPTED, 2));
    assert_eq!(state[..3], [4, 1, 1]);
    assert_eq!(state[17 + 4 + 1], 5);
    assert_eq!((state[81], state[81 + 512]), (1, 5));
    assert_eq!(state[STATE_WORDS], 9);
}

#[test]
fn short_buffers_come_first() {
    let table = example();
    let mut short = vec![3; STATE_WORDS - 1];
    assert_eq!(read(b"x", &mut short), (BUFFER_TOO_SHORT, 0));
    assert_eq!(check(&table[..TABLE_WORDS - 1]), BUFFER_TOO_SHORT);
    assert_eq!(run(&table, &mut short, &[0]), (BUFFER_TOO_SHORT, 0));
    assert_eq!(short, vec![3; STATE_WORDS - 1]);
}

#[test]
fn order_of_a_runs_refusals() {
    let bad = vec![0; TABLE_WORDS];
    let mut state = vec![3; STATE_WORDS];
    assert_eq!(run(&bad, &mut state, &[0]), (ODD_CHOICES, 0));
    assert_eq!(run(&bad, &mut state, &[0, 1]), (BAD_TABLE, 0));
    assert_eq!(state, vec![3; STATE_WORDS]);
    assert_eq!(run(&example(), &mut state, &[0, 3, 5, 5]), (NO_SUCH_AGENT, 1));
    assert_eq!(state[0], 3);
}

#[test]
fn states_that_do_not_fit() {
    let table = example();
    let mut good = vec![0; STATE_WORDS];
    assert_eq!(start(&table, &mut good), ACCEPTED);
    // Clock 0, clock above a late, position above the rows, a mark not yet passed, a mark of 2, a
    // value without its mark, an unused place.
    for (at, value) in [(0, 0), (0, 4), (1, 2), (81, 1), (81, 2), (593, 1), (1104, 1)] {
        let mut state = good.clone();
        state[at] = value;
        let before = state.clone();
        assert_eq!(step(&table, &mut state, 0, 3), BAD_STATE, "word {at} is {value}");
        assert_eq!(state, before);
    }
    assert_eq!(step(&table, &mut good, 0, 3), ACCEPTED);
}
