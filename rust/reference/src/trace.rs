//! The trace program's work, from input bytes to output bytes.

use crate::executive::State;
use crate::lines::{first_line, number, split_line, Known};
use crate::reader::{table_of_text, Refusal};
use crate::reply::*;
use crate::table::Table;

/// The longest input.
pub const INPUT_BYTES: usize = 65_536;

/// The first byte that is known in choice lines.
const KNOWN: [Known; 1] = [(0x02, 12)];

/// The input's table part, which ends with the first line that is exactly `FF` (the whole input
/// where there is none), and what comes after it.
pub fn split_table(input: &[u8]) -> (&[u8], &[u8]) {
    let mut left = input;
    while let Some((line, rest)) = split_line(left) {
        left = rest;
        if line == b"FF" {
            return input.split_at(input.len() - rest.len());
        }
    }
    (input, &[])
}

/// An agent and a time.
type Choice = (u32, u32);

/// The choices of lines, the first of which has this number.
fn choices(text: &[u8], first: u32) -> Result<Vec<Choice>, Refusal> {
    let mut found = Vec::new();
    let mut left = text;
    let mut line = first;
    while !left.is_empty() {
        let (bytes, rest) = first_line(left, &KNOWN).map_err(|reply| (reply, line))?;
        found.push((bytes[1].into(), number(&bytes[2..])));
        left = rest;
        line += 1;
    }
    Ok(found)
}

/// The table and choices of an input.
fn read_input(input: &[u8]) -> Result<(Table, Vec<Choice>), Refusal> {
    if input.len() > INPUT_BYTES {
        return Err((INPUT_TOO_LONG, 0));
    }
    let (table_text, rest) = split_table(input);
    let table = table_of_text(table_text)?;
    let table_lines = table_text.iter().filter(|&&byte| byte == b'\n').count() as u32;
    Ok((table, choices(rest, table_lines + 1)?))
}

/// The whole output of the trace program for this input.
pub fn trace(input: &[u8]) -> Vec<u8> {
    let mut output = String::new();
    let (reply, told) = match read_input(input) {
        Err(refusal) => refusal,
        Ok((table, choices)) => {
            let mut state = State::start(&table);
            let mut reply = ACCEPTED;
            let mut count = 0;
            for (agent, time) in choices {
                reply = state.step(&table, agent, time);
                if reply != ACCEPTED {
                    break;
                }
                count += 1;
                let after = state.agents[agent as usize];
                let [r0, r1, r2, r3] = after.registers;
                let position = after.position;
                output += &format!("03{agent:02X}{position:02X}{time:08X}");
                output += &format!("{r0:08X}{r1:08X}{r2:08X}{r3:08X}\n");
            }
            (reply, count)
        }
    };
    output += &format!("FE{reply:02X}{told:04X}\n");
    output.into_bytes()
}
