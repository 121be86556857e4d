//! Frames: the text of a table, which change request T-02 asks for.

use crate::reply::*;
use crate::table::{Row, Table};
use crate::TABLE_WORDS;

/// The text of a table.
fn text_of_table(table: &Table) -> String {
    let mut text = String::new();
    for (a, agent) in table.agents.iter().enumerate() {
        let [r0, r1, r2, r3] = agent.registers;
        text += &format!("00{a:02X}{r0:08X}{r1:08X}{r2:08X}{r3:08X}\n");
        for Row { op, x, y, n, k, early, late } in &agent.rows {
            text += &format!("01{a:02X}{op:02X}{x:02X}{y:02X}{n:02X}");
            text += &format!("{k:08X}{early:08X}{late:08X}\n");
        }
    }
    text + "FF\n"
}

/// Writes a table into a lent buffer: 1, 8, then 20, else 0; and the length of its text, which is 0
/// with 1 and 8.
pub fn write(table: &[u32], text: &mut [u8]) -> (u32, u32) {
    if table.len() < TABLE_WORDS {
        return (BUFFER_TOO_SHORT, 0);
    }
    let Some(table) = Table::from_words(table) else {
        return (BAD_TABLE, 0);
    };
    let written = text_of_table(&table);
    let length = written.len() as u32;
    if written.len() > text.len() {
        return (TEXT_TOO_LONG, length);
    }
    text[..written.len()].copy_from_slice(written.as_bytes());
    (ACCEPTED, length)
}
