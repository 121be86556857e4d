//! The trace program's work.

use crate::digits::digits;
use crate::reader::{digit_line, line_refusal, read};
use crate::reply::*;
use crate::steps::{take, State};
use crate::table::Table;
use crate::{STATE_WORDS, TABLE_WORDS};

/// Bytes of a step's line and of the last line.
const STEP_LINE: usize = 47;
const LAST_LINE: usize = 9;
/// The longest output: 512 steps and the last line.
pub const OUTPUT_BYTES: usize = 512 * STEP_LINE + LAST_LINE;
const INPUT_BYTES: usize = 65_536;
/// Bytes of a choice line, and its first byte.
const CHOICE_LINE: usize = 13;
const CHOICE: u8 = 0x02;

/// Writes hexadecimal digits into a buffer that has room for the longest output.
struct Writer<'a> {
    output: &'a mut [u8; OUTPUT_BYTES],
    length: usize,
}

impl Writer<'_> {
    fn room(&mut self, bytes: usize) -> &mut [u8] {
        let room = &mut self.output[self.length..][..bytes];
        self.length += bytes;
        room
    }

    fn step(&mut self, agent: u32, time: u32, (position, registers): (u32, [u32; 4])) {
        let [.., agent_high, agent_low] = digits(agent);
        let [.., position_high, position_low] = digits(position);
        let (head, rest) = self.room(STEP_LINE).split_first_chunk_mut().unwrap();
        let (numbers, newline) = rest.as_chunks_mut();
        *head = [b'0', b'3', agent_high, agent_low, position_high, position_low];
        numbers[0] = digits(time);
        numbers[1..].copy_from_slice(&registers.map(digits));
        newline[0] = b'\n';
    }

    fn end(mut self, reply: u32, told: u32) -> usize {
        let [.., high, low] = digits(reply);
        let [.., a, b, c, d] = digits(told);
        self.room(LAST_LINE).copy_from_slice(&[b'F', b'E', high, low, a, b, c, d, b'\n']);
        self.length
    }
}

/// Where the table part ends: after the first line that is exactly `FF`, or at the end.
fn table_end(input: &[u8]) -> usize {
    let mut left = input;
    loop {
        if let Some(rest) = left.strip_prefix(b"FF\n") {
            return input.len() - rest.len();
        }
        let Some(newline) = left.iter().position(|&byte| byte == b'\n') else {
            return input.len();
        };
        left = &left[newline + 1..];
    }
}

/// The agent and time of a choice line of 13 bytes.
fn choice(line: &[u8]) -> Option<(u32, u32)> {
    let [kind, agent, time @ ..] = digit_line::<6>(line)?;
    (kind == CHOICE).then(|| (agent.into(), u32::from_be_bytes(time)))
}

/// Traces an input. Gives the length of the output.
pub fn trace(input: &[u8], output: &mut [u8; OUTPUT_BYTES]) -> usize {
    let mut writer = Writer { output, length: 0 };
    if input.len() > INPUT_BYTES {
        return writer.end(INPUT_TOO_LONG, 0);
    }
    let (text, choices) = input.split_at(table_end(input));
    let mut words = [0; TABLE_WORDS];
    let (reply, line) = read(text, &mut words);
    if reply != ACCEPTED {
        return writer.end(reply, line);
    }
    let table = Table::of(&words);
    // An accepted table has a line for each agent and each row, and the end line.
    let table_lines = words[..17].iter().sum::<u32>() + 1;
    for (i, line) in choices.chunks(CHOICE_LINE).enumerate() {
        if choice(line).is_none() {
            let reply = line_refusal(&choices[CHOICE_LINE * i..], &[CHOICE]);
            return writer.end(reply, table_lines + 1 + i as u32);
        }
    }
    let mut state = [0; STATE_WORDS];
    let mut state = State::start(&mut state, &table);
    let mut lates = state.lates(&table);
    let mut count = 0;
    for (agent, time) in choices.chunks(CHOICE_LINE).filter_map(choice) {
        let reply = take::<false>(&table, &mut state, &mut lates, agent, time);
        if reply != ACCEPTED {
            return writer.end(reply, count);
        }
        count += 1;
        writer.step(agent, time, state.agent(agent as usize));
    }
    writer.end(ACCEPTED, count)
}
