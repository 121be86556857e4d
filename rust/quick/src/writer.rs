//! Frames: the text of a table.

use crate::digits::digits;
use crate::reply::*;
use crate::table::checked;

/// Bytes of a line that opens an agent and of a row's.
const LINE: usize = 37;
const END_LINE: &[u8; 3] = b"FF\n";

/// A line: its kind, an agent and four words.
fn put_line(line: &mut [u8; LINE], kind: u8, agent: usize, words: &[u32; 4]) {
    let (head, rest) = line.split_first_chunk_mut().unwrap();
    let (numbers, newline) = rest.as_chunks_mut();
    let [.., high, low] = digits(agent as u32);
    *head = [b'0', b'0' + kind, high, low];
    numbers.copy_from_slice(&words.map(digits));
    newline[0] = b'\n';
}

/// Writes a table into a lent buffer.
pub fn write(table: &[u32], text: &mut [u8]) -> (u32, u32) {
    let Some(words) = table.first_chunk() else {
        return (BUFFER_TOO_SHORT, 0);
    };
    let Some(table) = checked(words) else {
        return (BAD_TABLE, 0);
    };
    // Word 0 is the number of agents, and the row counts follow it.
    let lines = words[..17].iter().sum::<u32>() as usize;
    let length = LINE * lines + END_LINE.len();
    let Some(text) = text.get_mut(..length) else {
        return (TEXT_TOO_LONG, length as u32);
    };
    let (lines, end) = text.split_at_mut(LINE * lines);
    let mut left = lines.as_chunks_mut().0;
    let registers = table.registers.as_chunks().0;
    for (a, &count) in table.counts[..table.agents].iter().enumerate() {
        let rows = &table.places(a)[..count as usize];
        let ([opens, its_rows @ ..], rest) = left.split_at_mut(1 + rows.len()) else {
            unreachable!("a line for each agent")
        };
        put_line(opens, 0, a, &registers[a]);
        for (line, row) in its_rows.iter_mut().zip(rows) {
            put_line(line, 1, a, row);
        }
        left = rest;
    }
    end.copy_from_slice(END_LINE);
    (ACCEPTED, length as u32)
}
