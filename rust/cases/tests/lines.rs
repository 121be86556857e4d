//! Boards that tell a wrong reply for a line that is refused, each of which the comparison must find:
//! in a table and in choices.

mod faulty;

use cases::suite::Kind;
use cases::Board;
use faulty::{is_found, line_of, Faulty, Quick, Told, GOOD};
use reference::reader::table_of_text;
use reference::trace::split_table;

/// A first byte that is known, and the digits of a line that begins with it.
type Known = (&'static [u8], usize);
const IN_TABLES: [Known; 3] = [(b"00", 36), (b"01", 36), (b"FF", 2)];
const IN_CHOICES: [Known; 1] = [(b"02", 12)];

/// A line that is refused with 2, 18 or 19.
struct Refused<'t> {
    reply: u32,
    characters: &'t [u8],
    has_newline: bool,
    /// The digits that it should have, where its first byte is known.
    length: Option<usize>,
}

impl<'t> Refused<'t> {
    fn of(text: &'t [u8], (reply, line): Told, known: &[Known]) -> Option<Refused<'t>> {
        if ![2, 18, 19].contains(&reply) {
            return None;
        }
        let line = line_of(text, line)?;
        let before_newline = line.strip_suffix(b"\n");
        let characters = before_newline.unwrap_or(line);
        let its_kind = known.iter().find(|(first, _)| characters.starts_with(first));
        let (has_newline, length) = (before_newline.is_some(), its_kind.map(|&(_, length)| length));
        Some(Refused { reply, characters, has_newline, length })
    }

    /// Whether the characters up to this place are digits.
    fn is_of_digits(&self, end: usize) -> bool {
        self.characters[..end].iter().all(|c| b"0123456789ABCDEF".contains(c))
    }

    /// Where the newline is all that it lacks to be told with 18 or 19.
    fn lacks_its_newline(&self) -> bool {
        !self.has_newline && self.is_of_digits(self.characters.len())
    }
}

/// What a faulty reader does, the lines that it does it to, and its reply for them.
type WrongReply = (&'static str, fn(&Refused) -> bool, u32);
const WRONG_REPLIES: [WrongReply; 12] = [
    ("tells every line with 2", |_| true, 2),
    ("tells every wrong length with 19", |line| line.reply == 18, 19),
    (
        "looks at the length before the characters",
        |line| line.has_newline && line.length.is_some_and(|right| line.characters.len() != right),
        18,
    ),
    (
        "looks at the first byte before the characters",
        |line| line.has_newline && line.length.is_none(),
        19,
    ),
    (
        "looks at no character past the length",
        |line| {
            let right = line.length.filter(|&right| line.characters.len() > right);
            line.has_newline && right.is_some_and(|right| line.is_of_digits(right))
        },
        18,
    ),
    (
        "tells a length without its newline",
        |line| line.lacks_its_newline() && line.length.is_some(),
        18,
    ),
    (
        "tells a first byte without its newline",
        |line| line.lacks_its_newline() && line.length.is_none(),
        19,
    ),
    ("takes an empty line to be short", |line| line.characters.is_empty(), 18),
    ("takes one digit to be short", |line| line.reply == 19 && line.characters.len() == 1, 18),
    ("knows no first byte alone", |line| line.reply == 18 && line.characters.len() == 2, 19),
    (
        "knows in choices what is known in tables, and the reverse",
        |line| {
            let known = IN_TABLES.iter().chain(&IN_CHOICES);
            line.reply == 19 && known.clone().any(|(first, _)| line.characters.starts_with(first))
        },
        18,
    ),
    ("knows every first byte", |line| line.reply == 19 && line.characters.len() > 1, 18),
];

#[test]
fn faults_in_telling_what_is_wrong_with_a_line_are_found() {
    for (fault, is_met, wrong) in WRONG_REPLIES {
        let retold = |text: &[u8], told: Told, known: &[Known]| match Refused::of(text, told, known)
        {
            Some(line) if is_met(&line) => (wrong, told.1),
            _ => told,
        };
        let read =
            |text: &[u8], table: &mut [u32]| retold(text, quick::read(text, table), &IN_TABLES);
        is_found(fault, &Faulty { read: &read, ..GOOD }, Kind::Read);
        // In choice lines alone: those of an input whose table is accepted.
        let trace = |input: &[u8]| {
            let output = Quick.trace(input);
            if table_of_text(split_table(input).0).is_err() {
                return output;
            }
            let (steps, last) = output.split_at(output.len() - 9);
            let number =
                u32::from_str_radix(std::str::from_utf8(&last[2..8]).unwrap(), 16).unwrap();
            let (reply, line) = retold(input, (number >> 16, number & 0xFFFF), &IN_CHOICES);
            [steps, format!("FE{reply:02X}{line:04X}\n").as_bytes()].concat()
        };
        is_found(fault, &Faulty { trace: &trace, ..GOOD }, Kind::Trace);
    }
}
