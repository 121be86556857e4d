//! Damage to the characters and the lines of a text, be it of a table or of choices: 2, 18 and 19.

use crate::rng::Rng;

/// Bytes change, or a line does.
pub fn damage_text(rng: &mut Rng, text: &mut Vec<u8>) {
    if rng.percent(50) {
        damage_bytes(rng, text);
    } else {
        damage_line(rng, text);
    }
}

/// Bytes change anywhere: mostly 2.
fn damage_bytes(rng: &mut Rng, text: &mut Vec<u8>) {
    if text.is_empty() {
        return text.push(rng.pick(b"\nF0 "));
    }
    let at = rng.below(text.len());
    let line_end = at + text[at..].iter().position(|&byte| byte == b'\n').unwrap_or(0);
    match rng.below(16) {
        0 => text[at] = rng.draw() as u8,
        1 => text[at] = rng.pick(b"/:@GagZ\n\r \0\x80\xFF"),
        2 => text[at] = rng.pick(b"0123456789ABCDEF"),
        3 => text.insert(at, rng.pick(b"0FG\n")),
        4 => drop(text.remove(at)),
        5 => text.truncate(at),
        6 => drop(text.pop()),
        7 => text.insert(line_end, b'\r'),
        8 => text.insert(line_end, b'\n'),
        9 => drop(text.splice(line_end..line_end, *b"00")),
        10 => drop(text.splice(at..(at + 2).min(text.len()), [])),
        11 => text.extend(rng.pick(&[&b"\n"[..], b"F", b"x", b"FF\n", b"020000000001\n"])),
        12 => text.push(rng.draw() as u8),
        13 => text.insert(0, rng.pick(b"\n0F")),
        14 => text[at] = text[at].to_ascii_lowercase(),
        _ => {
            let begin = text[..at].iter().rposition(|&byte| byte == b'\n').map_or(0, |i| i + 1);
            text[begin] = rng.pick(b"0123456789ABCDEF");
        }
    }
}

/// Short lines: of no byte, of a first byte alone, and of a little more.
const SHORT: [&[u8]; 15] = [
    b"", b"", b"0", b"2", b"F", b"00", b"01", b"02", b"04", b"FF", b"001", b"020", b"FF0", b"FF00",
    b"0200",
];
/// Lines of each kind, in tables, in choices and in the outputs of traces.
const KINDS: [&[u8]; 6] = [
    b"000000000005000000000000000000000000",
    b"010020000000000000070000000100000003",
    b"020000000003",
    b"040000000A00000002",
    b"FE000002",
    b"FF",
];

/// A line is cut, joined, lengthened, emptied or of another kind: 18 and 19; and 2 where a character
/// of it is wrong too, or its newline is missing.
fn damage_line(rng: &mut Rng, text: &mut Vec<u8>) {
    if text.is_empty() {
        text.push(b'\n');
    }
    let end_from = |text: &[u8], at: usize| {
        text[at..].iter().position(|&byte| byte == b'\n').map_or(text.len(), |i| at + i)
    };
    let at = rng.below(text.len());
    let begin = text[..at].iter().rposition(|&byte| byte == b'\n').map_or(0, |i| i + 1);
    let mut end = end_from(text, at);
    let mut line = text[begin..end].to_vec();
    match rng.below(8) {
        0 | 1 => {
            let kept = rng.below(line.len() + 1);
            line.truncate(rng.pick(&[1, 2, kept, kept]));
        }
        2 if end < text.len() => {
            // Joined to the next.
            let next = end_from(text, end + 1);
            line.extend(&text[end + 1..next]);
            end = next;
        }
        2 | 3 => line.extend(vec![b'0'; rng.pick(&[1, 2, 24, 256])]),
        4 => drop(line.splice(..line.len().min(2), format!("{:02X}", rng.draw() as u8).bytes())),
        5 => drop(line.splice(..line.len().min(2), rng.pick(&KINDS)[..2].iter().copied())),
        6 => line = rng.pick(&KINDS).to_vec(),
        _ => line = rng.pick(&SHORT).to_vec(),
    }
    match rng.below(12) {
        0 => line.push(b'\r'),
        1 => line.make_ascii_lowercase(),
        2 => line.insert(rng.below(line.len() + 1), rng.pick(b" /:@G`ag\0\x80")),
        _ => {}
    }
    let written = begin + line.len();
    text.splice(begin..end, line);
    if rng.percent(10) {
        text.truncate(written);
    }
}
