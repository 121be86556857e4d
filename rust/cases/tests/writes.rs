//! Boards that write a table out wrongly, each of which the comparison must find.

mod faulty;

use std::cell::{Cell, RefCell};

use cases::suite::Kind;
use cases::{compare, layout, Plan};
use faulty::{is_found, Faulty, Told, GOOD};
use reference::TABLE_WORDS;

/// Bytes of a line of an agent or a row, and of the end line.
const LINE: usize = 37;
const END_LINE: usize = 3;
/// Bytes of the longest text: 16 agents of 32 rows.
const LONGEST: usize = LINE * (16 + 512) + END_LINE;

/// What is wrong with a text, and how it comes of the right one.
type WrongText = (&'static str, fn(Vec<u8>) -> Vec<u8>);
const WRONG_TEXTS: [WrongText; 10] = [
    ("lower-case digits", |text| text.to_ascii_lowercase()),
    ("a row left out", |text| [&text[..LINE], &text[2 * LINE..]].concat()),
    ("an agent's line after its first row", |text| {
        [&text[LINE..2 * LINE], &text[..LINE], &text[2 * LINE..]].concat()
    }),
    ("the end line missing", |text| text[..text.len() - END_LINE].to_vec()),
    ("the end line without its newline", |text| text[..text.len() - 1].to_vec()),
    ("a zero byte after the text", |text| [&text[..], b"\0"].concat()),
    ("lines ended by CR and newline", |text| {
        text.split_inclusive(|&byte| byte == b'\n')
            .flat_map(|line| [&line[..line.len() - 1], b"\r\n"].concat())
            .collect()
    }),
    ("the low byte of a number first", |text| {
        with_lines(text, |line| {
            // k of a row, register 1 of an agent.
            line[12..20].reverse();
            line[12..20].chunks_exact_mut(2).for_each(|byte| byte.reverse());
        })
    }),
    ("agents counted from 1", |text| with_agents(text, |agent| format!("{:02X}", agent + 1))),
    ("agents numbered in decimal", |text| with_agents(text, |agent| format!("{agent:02}"))),
];

/// The text with each line of an agent or a row changed.
fn with_lines(mut text: Vec<u8>, change: impl Fn(&mut [u8])) -> Vec<u8> {
    text.chunks_exact_mut(LINE).for_each(change);
    text
}

/// The text with other digits for each agent's number.
fn with_agents(text: Vec<u8>, digits: fn(u8) -> String) -> Vec<u8> {
    with_lines(text, |line| {
        let agent = std::str::from_utf8(&line[2..4]).unwrap();
        let agent = u8::from_str_radix(agent, 16).unwrap();
        line[2..4].copy_from_slice(digits(agent).as_bytes());
    })
}

/// Writes a good table's text as it comes out of this, and tells its length.
fn write_wrong(table: &[u32], text: &mut [u8], wrong: impl Fn(Vec<u8>) -> Vec<u8>) -> Told {
    let mut right = vec![0; LONGEST];
    let (reply, length) = quick::write(table, &mut right);
    if reply != 0 {
        return (reply, length);
    }
    right.truncate(length as usize);
    let wrong = wrong(right);
    let length = wrong.len() as u32;
    match text.get_mut(..wrong.len()) {
        None => (20, length),
        Some(text) => {
            text.copy_from_slice(&wrong);
            (0, length)
        }
    }
}

/// What a faulty writer tells or leaves, and how it writes.
type WrongWrite = (&'static str, fn(&[u32], &mut [u8]) -> Told);
const WRONG_WRITES: [WrongWrite; 12] = [
    ("a byte past the text touched", |table, text| {
        let told = quick::write(table, text);
        if let (0, Some(byte)) = (told.0, text.get_mut(told.1 as usize)) {
            *byte = !*byte;
        }
        told
    }),
    ("20 told with the buffer's length", |table, text| match quick::write(table, text) {
        (20, _) => (20, text.len() as u32),
        told => told,
    }),
    ("20 told with no length", |table, text| match quick::write(table, text) {
        (20, _) => (20, 0),
        told => told,
    }),
    ("20 told with the bytes that are missing", |table, text| match quick::write(table, text) {
        (20, length) => (20, length - text.len() as u32),
        told => told,
    }),
    ("a length told with 8", |table, text| match quick::write(table, text) {
        (8, _) => (8, LINE as u32 + END_LINE as u32),
        told => told,
    }),
    ("a length told with 1", |table, text| match quick::write(table, text) {
        (1, _) => (1, table.len() as u32),
        told => told,
    }),
    ("a buffer of exactly the length refused", |table, text| match quick::write(table, text) {
        (0, length) if length as usize == text.len() => (20, length),
        told => told,
    }),
    ("a buffer without room for the end line taken", |table, text| {
        match quick::write(table, text) {
            (20, length) if text.len() + END_LINE >= length as usize => {
                fill(table, text);
                (0, length)
            }
            told => told,
        }
    }),
    ("as much written as there is room for", |table, text| match quick::write(table, text) {
        (20, length) => {
            fill(table, text);
            (20, length)
        }
        told => told,
    }),
    ("the buffer before the table", |table, text| match quick::write(table, text) {
        (8, _) if text.is_empty() => (20, 0),
        told => told,
    }),
    ("a bad table written as one without agents", |table, text| match quick::write(table, text) {
        (8, _) if text.len() >= END_LINE => {
            text[..END_LINE].copy_from_slice(b"FF\n");
            (0, END_LINE as u32)
        }
        told => told,
    }),
    ("words past the table read", |table, text| match table.get(TABLE_WORDS) {
        Some(word) if *word != 0 => (8, 0),
        _ => quick::write(table, text),
    }),
];

/// Puts the beginning of a table's text into a buffer that is too short for all of it.
fn fill(table: &[u32], text: &mut [u8]) {
    let mut whole = [0; LONGEST];
    quick::write(table, &mut whole);
    text.copy_from_slice(&whole[..text.len()]);
}

#[test]
fn faults_of_the_text_that_is_written_are_found() {
    for (fault, wrong) in WRONG_TEXTS {
        let write = |table: &[u32], text: &mut [u8]| write_wrong(table, text, wrong);
        is_found(fault, &Faulty { write: &write, ..GOOD }, Kind::Write);
    }
}

#[test]
fn a_case_of_every_kind_has_its_table_written_and_read_again() {
    // Any fault of a text will do.
    let (fault, wrong) = WRONG_TEXTS[0];
    let write = |table: &[u32], text: &mut [u8]| write_wrong(table, text, wrong);
    let last = RefCell::new(None);
    let write_and_keep = |table: &[u32], text: &mut [u8]| {
        let told = quick::write(table, text);
        if told.0 == 0 {
            last.replace(Some(text[..told.1 as usize].to_vec()));
        }
        told
    };
    let refuse_the_last = |text: &[u8], table: &mut [u32]| match last.borrow().as_deref() {
        Some(last) if last == text => (3, 1),
        _ => quick::read(text, table),
    };
    for kind in Kind::ALL {
        is_found(fault, &Faulty { write: &write, ..GOOD }, kind);
        let board = Faulty { write: &write_and_keep, read: &refuse_the_last, ..GOOD };
        is_found("refuses the text that it wrote last", &board, kind);
    }
}

/// Cases of reads and writes alone do not find it: until a step is made it writes as it must.
#[test]
fn a_writer_that_keeps_a_register_of_a_step_is_found_in_cases_of_steps() {
    let kept = Cell::new(None);
    let step = |table: &[u32], state: &mut [u32], agent: u32, time: u32| {
        let reply = quick::step(table, state, agent, time);
        if reply == 0 {
            kept.set(Some(state[layout::register(0, 0)]));
        }
        reply
    };
    let write = |table: &[u32], text: &mut [u8]| {
        let mut table = table.to_vec();
        let first = table.get_mut(layout::register(0, 0));
        if let (Some(register), Some(value)) = (first, kept.get()) {
            *register = value;
        }
        quick::write(&table, text)
    };
    let board = Faulty { step: &step, write: &write, ..GOOD };
    let plan = Plan(vec![(Kind::Read, 2_000), (Kind::Write, 2_000)]);
    compare(&board, &plan, 1).unwrap_or_else(|failure| panic!("{failure}"));
    is_found("writes the register of a step", &board, Kind::Step);
}

#[test]
fn faults_in_what_is_told_or_left_are_found() {
    for (fault, write) in WRONG_WRITES {
        is_found(fault, &Faulty { write: &write, ..GOOD }, Kind::Write);
    }
}

#[test]
fn a_reader_that_gives_other_words_back_is_found() {
    let read = |text: &[u8], table: &mut [u32]| {
        let told = quick::read(text, table);
        if told.0 == 0 {
            table[TABLE_WORDS - 1] ^= 1;
        }
        told
    };
    is_found("reads another last word", &Faulty { read: &read, ..GOOD }, Kind::Write);
}

#[test]
fn a_fault_that_the_reader_undoes_is_found() {
    let exchanged = |text: Vec<u8>| {
        with_lines(text, |line| {
            let (early, late) = line[20..36].split_at_mut(8);
            early.swap_with_slice(late);
        })
    };
    let write = |table: &[u32], text: &mut [u8]| write_wrong(table, text, exchanged);
    let read = |text: &[u8], table: &mut [u32]| quick::read(&exchanged(text.to_vec()), table);
    let board = Faulty { write: &write, read: &read, ..GOOD };
    is_found("early and late exchanged", &board, Kind::Write);
}
