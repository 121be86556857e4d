//! What is wrong with a line: replies 2, 18 and 19 of change request T-01, in tables and in choices.

use reference::reply::*;
use reference::{read, trace, TABLE_WORDS};

const OPENS: &str = "000000000005000000000000000000000000";
const ROW: &str = "010020000000000000070000000100000003";
/// A table of one agent with one row, which sends.
const LINES: [&str; 3] = [OPENS, ROW, "FF"];

/// These lines, each with its newline.
fn text(lines: &[&str]) -> String {
    lines.iter().map(|line| format!("{line}\n")).collect()
}

fn told(text: &str) -> (u32, u32) {
    read(text.as_bytes(), &mut vec![0; TABLE_WORDS])
}

/// The table with this text in the place of a line, counted from 1, and of that line's newline.
fn with(line: usize, changed: &str) -> String {
    text(&LINES[..line - 1]) + changed + &text(&LINES[line..])
}

/// The reply for this line in the place of each line of the table.
fn assert_in_table(line: &str, reply: u32) {
    for at in 1..=LINES.len() {
        assert_eq!(
            told(&with(at, &format!("{line}\n"))),
            (reply, at as u32),
            "{line:?}, line {at}"
        );
    }
}

/// The reply for this line between two good choice lines: told with its number, before any step.
fn assert_in_choices(line: &str, reply: u32) {
    let choice = "020000000003";
    let input = text(&LINES) + &text(&[choice, line, choice]);
    let output = trace(input.as_bytes());
    assert_eq!(String::from_utf8_lossy(&output), format!("FE{reply:02X}0005\n"), "{line:?}");
}

/// Each digit of a line in turn becomes this character.
fn with_each_digit(line: &str, character: char) -> impl Iterator<Item = String> + '_ {
    (0..line.len()).map(move |at| format!("{}{character}{}", &line[..at], &line[at + 1..]))
}

#[test]
fn another_character_is_2_wherever_it_stands() {
    for character in ['/', ':', '@', 'G', '`', 'a', 'f', 'g', ' ', '\r', '\t', '\0', '\u{7f}', 'ß']
    {
        for line in [OPENS, ROW, "FF", "02", "0", "FF00", "020000000003"] {
            for bad in with_each_digit(line, character) {
                assert_in_table(&bad, BAD_CHARACTER);
                assert_in_choices(&bad, BAD_CHARACTER);
            }
        }
    }
    for line in [OPENS, ROW, "FF", "020000000003", ""] {
        assert_in_table(&format!("{line}\r"), BAD_CHARACTER);
        assert_in_choices(&format!("{line}\r"), BAD_CHARACTER);
    }
}

#[test]
fn a_length_that_is_wrong_for_a_known_first_byte_is_18() {
    for line in [OPENS, ROW] {
        for length in (2..36).chain(37..80).chain([36 + 256, 1000]) {
            assert_in_table(&line.repeat(28)[..length], BAD_LENGTH);
        }
    }
    for line in ["FF0", "FF00", "FFFF", &ROW.replace("010", "FF0")] {
        assert_in_table(line, BAD_LENGTH);
    }
    for length in (2..12).chain(13..40).chain([12 + 256, 1000]) {
        assert_in_choices(&"020000000003".repeat(84)[..length], BAD_LENGTH);
    }
}

#[test]
fn an_unknown_first_byte_is_19_whatever_the_length() {
    for line in ["", "0", "1", "2", "F"] {
        assert_in_table(line, UNKNOWN_FIRST_BYTE);
        assert_in_choices(line, UNKNOWN_FIRST_BYTE);
    }
    for first in 0..=0xFF_u8 {
        for length in [2, 3, 4, 12, 18, 36, 37] {
            let line = format!("{first:02X}{}", "0".repeat(length - 2));
            if ![0x00, 0x01, 0xFF].contains(&first) {
                assert_in_table(&line, UNKNOWN_FIRST_BYTE);
            }
            if first != 0x02 {
                assert_in_choices(&line, UNKNOWN_FIRST_BYTE);
            }
        }
    }
}

#[test]
fn a_line_without_its_newline_is_2_whatever_else_is_wrong() {
    for line in [OPENS, ROW, "FF", "FF00", "00", "0", "02", "020000000003", "x", "\r"] {
        for before in 0..=2 {
            let begun = text(&LINES[..before]);
            assert_eq!(told(&(begun + line)), (BAD_CHARACTER, before as u32 + 1), "{line:?}");
        }
        let output = trace((text(&LINES) + line).as_bytes());
        assert_eq!(output, b"FE020004\n", "{line:?}");
    }
    // Where nothing stands after the last newline there is no line.
    assert_eq!(told(&text(&[OPENS, ROW])), (LINE_OUT_OF_PLACE, 3));
    assert_eq!(told(""), (LINE_OUT_OF_PLACE, 1));
    assert_eq!(trace(text(&LINES).as_bytes()), b"FE000000\n");
}

#[test]
fn of_a_line_the_form_counts_before_the_place_and_the_earliest_line_first() {
    // A row with no open agent, and an end with none.
    assert_eq!(told(&text(&[ROW])), (LINE_OUT_OF_PLACE, 1));
    assert_eq!(told(&text(&[&ROW[..35]])), (BAD_LENGTH, 1));
    assert_eq!(told(&text(&["FF"])), (LINE_OUT_OF_PLACE, 1));
    assert_eq!(told(&text(&["FF00"])), (BAD_LENGTH, 1));
    assert_eq!(told(&text(&["00"])), (BAD_LENGTH, 1));
    assert_eq!(told(&text(&["001"])), (BAD_LENGTH, 1));

    // An agent that is opened twice is out of place in line 2.
    for (third, reply) in [("x", BAD_CHARACTER), ("00", BAD_LENGTH), ("", UNKNOWN_FIRST_BYTE)] {
        assert_eq!(told(&text(&[OPENS, OPENS, third])), (LINE_OUT_OF_PLACE, 2));
        assert_eq!(told(&text(&[OPENS, ROW, third, "x", "00", ""])), (reply, 3));
    }
    // Rows are looked at after all lines: op 05 stands in line 2.
    let unknown_op = ROW.replace("010020", "010005");
    assert_eq!(told(&text(&[OPENS, &unknown_op, "FF"])), (BAD_FIELD, 2));
    assert_eq!(told(&text(&[OPENS, &unknown_op, "FF00"])), (BAD_LENGTH, 3));
}

#[test]
fn after_the_end_line_a_reader_looks_at_nothing() {
    for rest in ["x\n", "x", "FF00\n", "0\n", "\n", "\r\n", "FF\n", "020000000003\n"] {
        assert_eq!(told(&(text(&LINES) + rest)), (LINE_OUT_OF_PLACE, 4), "{rest:?}");
    }
}

#[test]
fn choice_lines_are_looked_at_once_the_table_is_accepted() {
    let unknown_op = ROW.replace("010020", "010005");
    for line in ["x", "02", ""] {
        let output = trace(text(&[OPENS, &unknown_op, "FF", line]).as_bytes());
        assert_eq!(output, b"FE040002\n", "{line:?}");
    }
    // A choice line before the end line is a line of the table.
    let output = trace(text(&[OPENS, ROW, "020000000003", "FF"]).as_bytes());
    assert_eq!(output, b"FE130003\n");
}
