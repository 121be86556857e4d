//! Frames: a table from text.

use crate::lines::{first_line, number, Known};
use crate::reply::*;
use crate::table::{Agent, Row, Table};
use crate::{AGENTS, ROWS, TABLE_WORDS};

const OPENS: u8 = 0x00;
const NEXT: u8 = 0x01;
const END: u8 = 0xFF;

/// The first bytes that are known in a table.
const KNOWN: [Known; 3] = [(OPENS, 36), (NEXT, 36), (END, 2)];

enum Frame {
    Opens { agent: u8, registers: [u32; 4] },
    Next { agent: u8, row: Row },
    End,
}

/// The frame of the bytes of a line, which is known and of its length.
fn frame(bytes: &[u8]) -> Frame {
    match bytes[0] {
        OPENS => Frame::Opens {
            agent: bytes[1],
            registers: [2, 6, 10, 14].map(|at| number(&bytes[at..])),
        },
        NEXT => Frame::Next {
            agent: bytes[1],
            row: Row {
                op: bytes[2],
                x: bytes[3],
                y: bytes[4],
                n: bytes[5],
                k: number(&bytes[6..]),
                early: number(&bytes[10..]),
                late: number(&bytes[14..]),
            },
        },
        END => Frame::End,
        other => unreachable!("{other:02X} is not known"),
    }
}

/// A reply and the line that it is told with.
pub type Refusal = (u32, u32);

/// What the lines gave, whatever the rows are, with the line of each row.
#[derive(Default)]
pub struct Lines {
    pub table: Table,
    pub row_lines: Vec<Vec<u32>>,
}

/// Reads all lines for 2, 18, 19 and 3.
pub fn lines(text: &[u8]) -> Result<Lines, Refusal> {
    let mut read = Lines::default();
    let mut left = text;
    let mut line = 1;
    loop {
        if left.is_empty() {
            return Err((LINE_OUT_OF_PLACE, line));
        }
        let (bytes, rest) = first_line(left, &KNOWN).map_err(|reply| (reply, line))?;
        let frame = frame(&bytes);
        let agents = &mut read.table.agents;
        let open_without_rows = agents.last().is_some_and(|agent| agent.rows.is_empty());
        let out_of_place = match &frame {
            Frame::Opens { agent, .. } => {
                open_without_rows || agents.len() == AGENTS || usize::from(*agent) != agents.len()
            }
            Frame::Next { agent, .. } => match agents.last() {
                None => true,
                Some(open) => open.rows.len() == ROWS || usize::from(*agent) + 1 != agents.len(),
            },
            Frame::End => open_without_rows || agents.is_empty(),
        };
        if out_of_place {
            return Err((LINE_OUT_OF_PLACE, line));
        }
        match frame {
            Frame::Opens { registers, .. } => {
                agents.push(Agent { registers, rows: Vec::new() });
                read.row_lines.push(Vec::new());
            }
            Frame::Next { row, .. } => {
                agents.last_mut().unwrap().rows.push(row);
                read.row_lines.last_mut().unwrap().push(line);
            }
            Frame::End if rest.is_empty() => return Ok(read),
            Frame::End => return Err((LINE_OUT_OF_PLACE, line + 1)),
        }
        left = rest;
        line += 1;
    }
}

/// The table of a text.
pub fn table_of_text(text: &[u8]) -> Result<Table, Refusal> {
    let Lines { table, row_lines } = lines(text)?;
    match table.first_refused_row() {
        Some((reply, a, i)) => Err((reply, row_lines[a][i])),
        None => Ok(table),
    }
}

/// Reads a text into a lent table: the reply, and its line or 0.
pub fn read(text: &[u8], table: &mut [u32]) -> (u32, u32) {
    if table.len() < TABLE_WORDS {
        return (BUFFER_TOO_SHORT, 0);
    }
    match table_of_text(text) {
        Err(refusal) => refusal,
        Ok(read) => {
            table[..TABLE_WORDS].copy_from_slice(&read.to_words());
            (ACCEPTED, 0)
        }
    }
}
