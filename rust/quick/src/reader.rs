//! Frames: a table from text.

use crate::reply::*;
use crate::table::Table;
use crate::{AGENTS, ROWS, TABLE_WORDS};

/// The first bytes that are known in a table.
const KNOWN: [u8; 3] = [0x00, 0x01, 0xFF];

/// The N bytes that `2 * N` upper-case hexadecimal digits stand for.
pub fn bytes_of_digits<const N: usize>(digits: &[[u8; 2]; N]) -> Option<[u8; N]> {
    let nibble = |c: u8| {
        let digit = c.wrapping_sub(b'0');
        let letter = c.wrapping_sub(b'A');
        let value = if digit < 10 { digit } else { letter.wrapping_add(10) };
        (value, (digit >= 10) & (letter >= 6))
    };
    let mut bytes = [0; N];
    let mut bad = false;
    for (byte, &[high, low]) in bytes.iter_mut().zip(digits) {
        let (high, bad_high) = nibble(high);
        let (low, bad_low) = nibble(low);
        *byte = high << 4 | low & 15;
        bad |= bad_high | bad_low;
    }
    (!bad).then_some(bytes)
}

/// The first line where it is `2 * N` hexadecimal digits and a newline.
pub fn digit_line<const N: usize>(text: &[u8]) -> Option<[u8; N]> {
    let (digits, rest) = text.split_at_checked(2 * N)?;
    if rest.first() != Some(&b'\n') {
        return None;
    }
    bytes_of_digits(digits.as_chunks().0.try_into().unwrap())
}

/// Why the first line of a text is refused. It is looked at once, so that a line without end takes
/// no more than its length, and a good text never comes here.
#[cold]
pub fn line_refusal(text: &[u8], known: &[u8]) -> u32 {
    let is_digit = |c: u8| c.is_ascii_digit() || (b'A'..=b'F').contains(&c);
    let end = text.iter().position(|&c| !is_digit(c));
    let Some(length) = end.filter(|&at| text[at] == b'\n') else {
        return BAD_CHARACTER;
    };
    let first = text[..length].first_chunk().and_then(|&pair| bytes_of_digits(&[pair]));
    match first {
        // It would not be refused if its length were right.
        Some([byte]) if known.contains(&byte) => BAD_LENGTH,
        _ => UNKNOWN_FIRST_BYTE,
    }
}

fn number(bytes: &[u8; 18], at: usize) -> u32 {
    u32::from_be_bytes(bytes[at..at + 4].try_into().unwrap())
}

/// Reads all lines for 2, 18, 19 and 3 into blank words. A refusal is a reply and its line.
fn lines(text: &[u8], words: &mut [u32; TABLE_WORDS]) -> Result<(), (u32, u32)> {
    let mut left = text;
    let mut agents = 0;
    let mut rows = 0;
    for line in 1.. {
        if left.is_empty() {
            return Err((LINE_OUT_OF_PLACE, line));
        }
        let Some(bytes) = digit_line::<18>(left) else {
            let Some(rest) = left.strip_prefix(b"FF\n") else {
                return Err((line_refusal(left, &KNOWN), line));
            };
            if agents == 0 || rows == 0 {
                return Err((LINE_OUT_OF_PLACE, line));
            }
            if !rest.is_empty() {
                return Err((LINE_OUT_OF_PLACE, line + 1));
            }
            words[agents] = rows as u32;
            words[0] = agents as u32;
            return Ok(());
        };
        let agent = usize::from(bytes[1]);
        match bytes[0] {
            0 => {
                if agent != agents || agents == AGENTS || (agents > 0 && rows == 0) {
                    return Err((LINE_OUT_OF_PLACE, line));
                }
                // Before the first agent this writes word 0, which the end line sets.
                words[agents] = rows as u32;
                for register in 0..4 {
                    words[17 + 4 * agents + register] = number(&bytes, 2 + 4 * register);
                }
                agents += 1;
                rows = 0;
            }
            1 => {
                if agent + 1 != agents || rows == ROWS {
                    return Err((LINE_OUT_OF_PLACE, line));
                }
                let row: &mut [u32; 4] = words[81 + 4 * (ROWS * agent + rows)..]
                    .first_chunk_mut()
                    .expect("at most 32 rows of at most 16 agents");
                *row = [2, 6, 10, 14].map(|at| number(&bytes, at));
                rows += 1;
            }
            _ => return Err((line_refusal(left, &KNOWN), line)),
        }
        left = &left[37..];
    }
    unreachable!()
}

/// Reads a text into a lent table.
pub fn read(text: &[u8], table: &mut [u32]) -> (u32, u32) {
    let Some(table) = table.first_chunk_mut() else {
        return (BUFFER_TOO_SHORT, 0);
    };
    let mut words = [0; TABLE_WORDS];
    if let Err(refusal) = lines(text, &mut words) {
        return refusal;
    }
    // The rows of a good text are gone through once, and of another again for what is told.
    let read = Table::of(&words);
    if !read.is_good() {
        return read.first_refusal().expect("a row is bad");
    }
    *table = words;
    (ACCEPTED, 0)
}
