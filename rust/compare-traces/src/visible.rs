//! Bytes of others, for a terminal: what would steer it, or is no text at all, becomes an escape.

/// As many characters as are shown of a line: more than the longest good one has.
const MOST_SHOWN: usize = 60;

/// A file's name.
pub fn visible(bytes: &[u8]) -> String {
    pieces(bytes).collect()
}

/// A line, cut where it is long.
pub fn cut(line: &[u8]) -> String {
    let mut shown = String::new();
    for piece in pieces(line) {
        if shown.len() + piece.len() > MOST_SHOWN {
            return shown + "..";
        }
        shown += &piece;
    }
    shown
}

/// Each character, and each byte that is in none.
fn pieces(bytes: &[u8]) -> impl Iterator<Item = String> + '_ {
    bytes.utf8_chunks().flat_map(|chunk| {
        let characters = chunk.valid().chars().map(|character| match character {
            '\'' | '"' => character.to_string(),
            _ => character.escape_debug().to_string(),
        });
        characters.chain(chunk.invalid().iter().map(|byte| format!("\\x{byte:02x}")))
    })
}

#[cfg(test)]
mod tests {
    use super::*;

    #[test]
    fn text_stays_and_the_rest_is_escaped() {
        assert_eq!(visible("it's FE00, größer".as_bytes()), "it's FE00, größer");
        assert_eq!(visible(b"a\x1b[2Jb\r\t\0\x7f"), "a\\u{1b}[2Jb\\r\\t\\0\\u{7f}");
        assert_eq!(visible(b"\xff\xc3("), "\\xff\\xc3(");
        assert_eq!(visible("\u{202e}\u{85}\\".as_bytes()), "\\u{202e}\\u{85}\\\\");
    }

    #[test]
    fn a_long_line_is_cut_between_its_pieces() {
        assert_eq!(cut(&[b'0'; 60]), "0".repeat(60));
        assert_eq!(cut(&[b'0'; 61]), "0".repeat(60) + "..");
        assert_eq!(cut(&[0xff; 20_000]), "\\xff".repeat(15) + "..");
    }
}
