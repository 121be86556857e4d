//! Lines of digits: the bytes of a good one, and what is wrong with another.

use crate::reply::*;

/// A first byte that is known, and how many digits a line that begins with it has.
pub type Known = (u8, usize);

/// The text up to its first newline, where it has one, and what comes after that.
pub fn split_line(text: &[u8]) -> Option<(&[u8], &[u8])> {
    let end = text.iter().position(|&byte| byte == b'\n')?;
    Some((&text[..end], &text[end + 1..]))
}

/// What an upper-case hexadecimal digit stands for.
fn value(digit: u8) -> Option<u8> {
    match digit {
        b'0'..=b'9' => Some(digit - b'0'),
        b'A'..=b'F' => Some(digit - b'A' + 10),
        _ => None,
    }
}

/// The bytes of the first line of a text, and what comes after that line; or the line's first
/// refusal of 2, 18 and 19, in this order.
pub fn first_line<'t>(text: &'t [u8], known: &[Known]) -> Result<(Vec<u8>, &'t [u8]), u32> {
    let (line, rest) = split_line(text).ok_or(BAD_CHARACTER)?;
    let digits: Option<Vec<u8>> = line.iter().map(|&character| value(character)).collect();
    let digits = digits.ok_or(BAD_CHARACTER)?;
    // A last digit without a second is no byte, so a line of one digit has no first byte.
    let bytes: Vec<u8> = digits.chunks_exact(2).map(|pair| 16 * pair[0] + pair[1]).collect();
    let its_kind = known.iter().find(|(first, _)| bytes.first() == Some(first));
    let (_, length) = its_kind.ok_or(UNKNOWN_FIRST_BYTE)?;
    if digits.len() != *length {
        return Err(BAD_LENGTH);
    }
    Ok((bytes, rest))
}

/// The number in four bytes, high byte first.
pub fn number(bytes: &[u8]) -> u32 {
    u32::from_be_bytes(bytes[..4].try_into().unwrap())
}
