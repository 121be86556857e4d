//! This crate and the C header say the same: sizes, places, ops, numbers and names of the replies,
//! which the proved code has too, the version; and the words of the replies, and of the number that is
//! reserved, are alike wherever they stand.

use std::collections::BTreeMap;
use std::fs;
use std::path::Path;

use header::{ops, places, Reply};

/// A file of the repository: cargo runs a test in its package's folder.
fn file(name: &str) -> String {
    let path = Path::new("../..").join(name);
    fs::read_to_string(path).unwrap_or_else(|error| panic!("{name}: {error}"))
}

/// The macros of the header without arguments: name after `TANNOPLEX_`, and all that follows it up
/// to the next directive, comment of its own or blank line, since a comment may go on below.
fn macros() -> Vec<(String, String)> {
    let header = file("include/tannoplex.h");
    let mut macros: Vec<(String, String)> = Vec::new();
    let mut goes_on = false;
    for line in header.lines() {
        if let Some(defined) = line.strip_prefix("#define TANNOPLEX_") {
            let end = defined.find(|c: char| !c.is_ascii_alphanumeric() && c != '_');
            let (name, rest) = defined.split_at(end.unwrap_or(defined.len()));
            goes_on = !rest.starts_with('(') && !rest.is_empty();
            if goes_on {
                macros.push((name.to_string(), rest.trim().to_string()));
            }
        } else if line.starts_with(['#', '/']) || line.trim().is_empty() {
            goes_on = false;
        } else if goes_on {
            let (_, rest) = macros.last_mut().expect("one goes on");
            *rest = format!("{rest} {}", line.trim());
        }
    }
    macros
}

/// The number that a macro stands for, where it is one.
fn number(rest: &str) -> Option<u64> {
    let value = rest.split_whitespace().next()?;
    match value.strip_prefix("0x") {
        Some(digits) => u64::from_str_radix(digits, 16).ok(),
        None => value.parse().ok(),
    }
}

/// `AGENT_ENDED` for `AgentEnded`.
fn in_capitals(variant: &str) -> String {
    let mut name = String::new();
    for letter in variant.chars() {
        if letter.is_ascii_uppercase() && !name.is_empty() {
            name.push('_');
        }
        name.push(letter.to_ascii_uppercase());
    }
    name
}

fn macro_name(reply: Reply) -> String {
    in_capitals(&format!("{reply:?}"))
}

/// The words without what is said in parentheses at their end.
fn without_remark(words: &str) -> &str {
    words.split_once(" (").map_or(words, |(words, _)| words)
}

#[test]
fn every_number_of_the_header_is_here_and_none_is_missing() {
    let version = env!("CARGO_PKG_VERSION").split('.').map(|part| part.parse().unwrap());
    let [major, minor, patch] = version.collect::<Vec<u64>>().try_into().unwrap();
    let mut expected: BTreeMap<String, u64> = [
        ("VERSION_MAJOR", major),
        ("VERSION_MINOR", minor),
        ("VERSION_PATCH", patch),
        ("TABLE_WORDS", header::TABLE_WORDS as u64),
        ("STATE_WORDS", header::STATE_WORDS as u64),
        ("AGENTS", header::AGENTS as u64),
        ("ROWS", header::ROWS as u64),
        ("REGISTERS", header::REGISTERS as u64),
        ("LAST_TIME", header::LAST_TIME.into()),
        ("TABLE_TEXT_BYTES", header::TABLE_TEXT_BYTES as u64),
        ("TRACE_INPUT_BYTES", header::TRACE_INPUT_BYTES as u64),
        ("TRACE_OUTPUT_BYTES", header::TRACE_OUTPUT_BYTES as u64),
        ("TRACE_STACK_BYTES", header::TRACE_STACK_BYTES as u64),
        ("READ_STACK_BYTES", header::READ_STACK_BYTES as u64),
        ("STACK_BYTES", header::STACK_BYTES as u64),
        ("TABLE_AGENTS", places::TABLE_AGENTS as u64),
        ("TABLE_ROW_COUNTS", places::TABLE_ROW_COUNTS as u64),
        ("TABLE_REGISTERS", places::TABLE_REGISTERS as u64),
        ("TABLE_ROWS", places::TABLE_ROWS as u64),
        ("ROW_WORDS", places::ROW_WORDS as u64),
        ("ROW_CODE", places::ROW_CODE as u64),
        ("ROW_K", places::ROW_K as u64),
        ("ROW_EARLY", places::ROW_EARLY as u64),
        ("ROW_LATE", places::ROW_LATE as u64),
        ("STATE_CLOCK", places::STATE_CLOCK as u64),
        ("STATE_POSITIONS", places::STATE_POSITIONS as u64),
        ("STATE_REGISTERS", places::STATE_REGISTERS as u64),
        ("STATE_MARKS", places::STATE_MARKS as u64),
        ("STATE_VALUES", places::STATE_VALUES as u64),
        ("SET", ops::SET.into()),
        ("ADD", ops::ADD.into()),
        ("SUB", ops::SUB.into()),
        ("ONES", ops::ONES.into()),
        ("LOW", ops::LOW.into()),
        ("SKIP", ops::SKIP.into()),
        ("JUMP", ops::JUMP.into()),
        ("SEND", ops::SEND.into()),
        ("RECV", ops::RECV.into()),
    ]
    .map(|(name, number)| (name.to_string(), number))
    .into();
    for reply in Reply::ALL {
        let before = expected.insert(macro_name(reply), reply.number().into());
        assert_eq!(before, None, "{reply:?} has the name of something else");
    }

    // The text of the version is the one macro that is no number.
    let mut texts = Vec::new();
    let mut defined = BTreeMap::new();
    for (name, rest) in macros() {
        match number(&rest) {
            Some(number) => {
                let before = defined.insert(name.clone(), number);
                assert_eq!(before, None, "the header defines TANNOPLEX_{name} twice");
            }
            None => texts.push((name, rest)),
        }
    }
    assert_eq!(defined, expected, "the header, then this crate");
    let version = format!("\"{}\"", env!("CARGO_PKG_VERSION"));
    assert_eq!(texts, [("VERSION".to_string(), version)]);
}

#[test]
fn the_proved_code_calls_the_replies_by_the_same_names() {
    let replies = file("crates/tables/src/replies.rt");
    // The accepted call's is a constant, and each refusal's the number of its variant.
    let accepted = replies.lines().filter_map(|line| {
        let (name, number) = line.strip_prefix("pub const ")?.split_once(": u32 = ")?;
        Some((name.to_string(), number.trim_end_matches(';')))
    });
    let refusals = replies.lines().filter_map(|line| {
        let (name, number) = line.trim().strip_suffix(',')?.split_once(" = ")?;
        Some((in_capitals(name), number))
    });
    let in_code: Vec<(String, String)> =
        accepted.chain(refusals).map(|(name, number)| (name, number.to_string())).collect();
    let expected = Reply::ALL.map(|reply| (macro_name(reply), reply.number().to_string()));
    assert_eq!(in_code, expected, "the proved code, then this crate");
}

#[test]
fn the_changelog_begins_with_this_version() {
    let changelog = file("CHANGELOG.md");
    let newest = changelog.lines().find_map(|line| line.strip_prefix("## ")).expect("an entry");
    let version = newest.split_whitespace().next();
    assert_eq!(version, Some(env!("CARGO_PKG_VERSION")), "## {newest}");
}

/// The words for the number that is reserved, wherever there are words for the replies.
const RESERVED: &str = "reserved: no call gives it";

/// Each number with its words: the replies, and the one that is reserved in its place.
fn numbers_and_words() -> Vec<(u32, String)> {
    let mut all: Vec<(u32, String)> =
        Reply::ALL.iter().map(|reply| (reply.number(), reply.to_string())).collect();
    all.push((Reply::RESERVED, RESERVED.to_string()));
    all.sort();
    all
}

/// The words that a file gives for each number, in the order of its lines.
fn listed<'a>(lines: impl Iterator<Item = Option<(&'a str, &'a str)>>) -> Vec<(u32, String)> {
    lines
        .flatten()
        .filter_map(|(number, words)| Some((number.parse().ok()?, words.to_string())))
        .collect()
}

#[test]
fn the_replies_are_in_the_same_words_everywhere() {
    let expected = numbers_and_words();
    let numbers: Vec<u32> = expected.iter().map(|(number, _)| *number).collect();
    assert_eq!(numbers, (0..=20).collect::<Vec<u32>>(), "each number has words, and once");

    let texts = file("include/tannoplex_replies.c");
    let in_c = listed(
        texts
            .lines()
            .map(|line| line.strip_prefix("    /* ")?.strip_suffix("\",")?.split_once(" */ \"")),
    );
    assert_eq!(in_c, expected, "include/tannoplex_replies.c, then this crate");

    let readme = file("README.md");
    let (_, replies) = readme.split_once("\n## Replies\n").expect("a section on replies");
    let in_readme = listed(replies.lines().map(|line| {
        let (number, words) = line.strip_prefix("| ")?.strip_suffix(" |")?.split_once(" | ")?;
        Some((number, without_remark(words)))
    }));
    assert_eq!(in_readme, expected, "README.md, then this crate");

    let macros = macros();
    for reply in Reply::ALL {
        let name = macro_name(reply);
        let (_, rest) = macros.iter().find(|(other, _)| *other == name).expect("in the header");
        let (_, comment) = rest.split_once("/* ").unwrap_or_else(|| panic!("{name}: no words"));
        let words = comment.strip_suffix(" */").expect("a comment ends");
        assert_eq!(without_remark(words), reply.to_string(), "TANNOPLEX_{name}, then this crate");
    }
}

/// In the header a number that is reserved has a comment where its macro would stand.
#[test]
fn the_reserved_number_has_its_words_in_the_header_and_no_name() {
    let header = file("include/tannoplex.h");
    let (before, rest) = header.split_once("\n/* 14 ").expect("a comment on 14");
    let (comment, after) = rest.split_once(" */\n").expect("a comment ends");
    let words = comment.split_whitespace().collect::<Vec<_>>().join(" ");
    assert_eq!((Reply::RESERVED, without_remark(&words)), (14, RESERVED));
    assert!(before.lines().last().unwrap().starts_with("#define TANNOPLEX_TIME_BELOW_EARLY 13 "));
    assert!(after.starts_with("#define TANNOPLEX_TIME_ABOVE_LATE 15 "));
    assert!(!header.contains("TANNOPLEX_STUCK"));
}

#[test]
fn places_end_where_the_next_part_begins() {
    let (agent, row, register) = (header::AGENTS - 1, header::ROWS - 1, header::REGISTERS - 1);
    assert_eq!(places::table_row_count(agent) + 1, places::TABLE_REGISTERS);
    assert_eq!(places::table_register(agent, register) + 1, places::TABLE_ROWS);
    assert_eq!(places::table_row(agent, row) + places::ROW_WORDS, header::TABLE_WORDS);
    assert_eq!(places::state_position(agent) + 1, places::STATE_REGISTERS);
    assert_eq!(places::state_register(agent, register) + 1, places::STATE_MARKS);
    assert_eq!(places::state_mark(agent, row) + 1, places::STATE_VALUES);
    assert_eq!(places::state_value(agent, row) + 1, header::STATE_WORDS);
    // As document 01 counts them.
    assert_eq!(places::table_row(2, 3), 81 + 4 * (32 * 2 + 3));
    assert_eq!(places::table_register(1, 2), 23);
    assert_eq!(places::state_value(2, 3), 593 + 32 * 2 + 3);
}

#[test]
fn places_of_no_agent_row_or_register_panic() {
    let places: [fn() -> usize; 7] = [
        || places::table_row_count(16),
        || places::table_register(0, 4),
        || places::table_row(0, 32),
        || places::state_position(16),
        || places::state_register(16, 0),
        || places::state_mark(0, 32),
        || places::state_value(16, 0),
    ];
    for (i, place) in places.into_iter().enumerate() {
        assert!(std::panic::catch_unwind(place).is_err(), "place {i}");
    }
}
