//! Tables written out, as change request T-02 asks.

use reference::reply::*;
use reference::trace::split_table;
use reference::{read, write, TABLE_WORDS};

/// The table of document 01's example.
const EXAMPLE: &str = "000000000005000000000000000000000000
010020000000000000070000000100000003
000100000000000000000000000000000000
010130010000000000070000000400000008
FF
";

/// The same in words, put together by hand.
fn example() -> Vec<u32> {
    let mut table = vec![0; TABLE_WORDS];
    table[..3].copy_from_slice(&[2, 1, 1]);
    table[17] = 5;
    table[81..85].copy_from_slice(&[0x2000_0000, 7, 1, 3]);
    table[81 + 4 * 32..][..4].copy_from_slice(&[0x3001_0000, 7, 4, 8]);
    table
}

/// Sixteen agents of 32 rows, in which every word that may be is as great as it may be: RECVs, the
/// registers and k of all ones, the last window of all.
fn greatest() -> Vec<u32> {
    let mut table = vec![0; TABLE_WORDS];
    table[0] = 16;
    table[1..17].fill(32);
    table[17..81].fill(u32::MAX);
    for row in table[81..].chunks_mut(4) {
        row.copy_from_slice(&[0x3003_0000, u32::MAX, 999_999, 1_000_000]);
    }
    table
}

/// What is told, and the buffer afterwards, of `length` bytes that were `*`.
fn written(table: &[u32], length: usize) -> ((u32, u32), String) {
    let mut text = vec![b'*'; length];
    let told = write(table, &mut text);
    (told, String::from_utf8(text).unwrap())
}

#[test]
fn the_example_is_written() {
    let length = EXAMPLE.len() as u32;
    assert_eq!(length, 37 * 4 + 3);
    let told = (ACCEPTED, length);
    assert_eq!(written(&example(), EXAMPLE.len()), (told, EXAMPLE.to_string()));
    for more in [1, 36, 37, 20_000] {
        let after = EXAMPLE.to_string() + &"*".repeat(more);
        assert_eq!(written(&example(), EXAMPLE.len() + more), (told, after));
    }
}

#[test]
fn a_text_that_does_not_fit_is_20_with_its_length_and_nothing_is_written() {
    for length in 0..EXAMPLE.len() {
        let told = (TEXT_TOO_LONG, EXAMPLE.len() as u32);
        assert_eq!(written(&example(), length), (told, "*".repeat(length)));
    }
}

#[test]
fn the_refusals_are_in_order_and_1_and_8_tell_no_length() {
    let mut bad = example();
    // An unused word, the last of all.
    bad[TABLE_WORDS - 1] = 1;
    for length in [0, EXAMPLE.len() - 1, EXAMPLE.len(), 20_000] {
        let nothing = "*".repeat(length);
        let short = ((BUFFER_TOO_SHORT, 0), nothing.clone());
        assert_eq!(written(&[], length), short);
        assert_eq!(written(&example()[..TABLE_WORDS - 1], length), short);
        assert_eq!(written(&bad[..TABLE_WORDS - 1], length), short);
        assert_eq!(written(&bad, length), ((BAD_TABLE, 0), nothing));
    }
}

#[test]
fn words_past_the_table_are_not_read() {
    let longer = [example(), vec![u32::MAX; 3]].concat();
    let told = (ACCEPTED, EXAMPLE.len() as u32);
    assert_eq!(written(&longer, EXAMPLE.len()), (told, EXAMPLE.to_string()));
}

#[test]
fn the_longest_text() {
    let (told, text) = written(&greatest(), 19_539);
    assert_eq!(told, (ACCEPTED, 19_539));
    assert_eq!(written(&greatest(), 19_538).0, (TEXT_TOO_LONG, 19_539));
    let lines: Vec<&str> = text.split_terminator('\n').collect();
    assert_eq!(lines.len(), 16 * 33 + 1);
    for (agent, lines) in "0123456789ABCDEF".chars().zip(lines.chunks(33)) {
        assert_eq!(lines[0], format!("000{agent}FFFFFFFFFFFFFFFFFFFFFFFFFFFFFFFF"));
        for row in &lines[1..] {
            assert_eq!(*row, format!("010{agent}30030000FFFFFFFF000F423F000F4240"));
        }
    }
    assert_eq!(lines[16 * 33], "FF");
}

#[test]
fn what_was_written_is_read_to_the_same_words() {
    for table in [example(), greatest()] {
        let (told, text) = written(&table, 19_539);
        let mut again = vec![7; TABLE_WORDS];
        assert_eq!(read(&text.as_bytes()[..told.1 as usize], &mut again), (ACCEPTED, 0));
        assert_eq!(again, table);
    }
}

/// The texts are those of the vectors that the reader accepts.
#[test]
fn what_the_reader_accepts_is_written_again_byte_for_byte() {
    let mut accepted = 0;
    for entry in std::fs::read_dir("../../crates/vectors/data").unwrap() {
        let path = entry.unwrap().path();
        let input = std::fs::read(&path).unwrap();
        let (text, _) = split_table(&input);
        let mut table = vec![7; TABLE_WORDS];
        if read(text, &mut table).0 == ACCEPTED {
            let mut again = vec![b'*'; text.len()];
            let told = write(&table, &mut again);
            assert_eq!(told, (ACCEPTED, text.len() as u32), "{}", path.display());
            assert_eq!(String::from_utf8_lossy(&again), String::from_utf8_lossy(text));
            accepted += 1;
        }
    }
    assert!(accepted >= 100, "only {accepted} vectors have an accepted table");
}
