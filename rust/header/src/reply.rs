//! The replies, by number and in words.

use std::fmt;

/// What a call answers. Every case but [`Reply::Accepted`] is a refusal.
#[derive(Clone, Copy, Debug, PartialEq, Eq, PartialOrd, Ord, Hash)]
#[repr(u32)]
#[must_use]
pub enum Reply {
    /// 0: accepted.
    Accepted = 0,
    /// 1: table, state or output buffer too short.
    BufferTooShort = 1,
    /// 2: a line has a character other than 0 to 9 and A to F, or lacks its newline.
    BadCharacter = 2,
    /// 3: a line out of its place, or too many agents or rows.
    LineOutOfPlace = 3,
    /// 4: unknown op, register above 3, n above 31, or an unused field not 0.
    BadField = 4,
    /// 5: a target above the row count.
    BadTarget = 5,
    /// 6: early not below late, or late above 1,000,000.
    BadWindow = 6,
    /// 7: early or late above that of a row that it goes on to.
    WindowGoesBack = 7,
    /// 8: the table words break a rule.
    BadTable = 8,
    /// 9: the state words do not fit the table.
    BadState = 9,
    /// 10: no such agent.
    NoSuchAgent = 10,
    /// 11: the agent has ended, or all have where one is to be picked.
    AgentEnded = 11,
    /// 12: time below the clock.
    TimeBelowClock = 12,
    /// 13: time below the row's early.
    TimeBelowEarly = 13,
    // 14 is reserved.
    /// 15: time above some unfinished agent's late.
    TimeAboveLate = 15,
    /// 16: the list of choices has an odd number of words.
    OddChoices = 16,
    /// 17: the input of a trace is above 65,536 bytes.
    InputTooLong = 17,
    /// 18: a line of digits has too few or too many of them for its first byte.
    BadLength = 18,
    /// 19: a line of digits has no first byte, or one that is not known where the line stands.
    UnknownFirstByte = 19,
    /// 20: the table's text is longer than the buffer.
    TextTooLong = 20,
}

impl Reply {
    /// The number that is reserved: no call gives it. It stood for "stuck", which is proved never to be
    /// met.
    pub const RESERVED: u32 = 14;

    /// All replies, in the order of their numbers.
    pub const ALL: [Reply; 20] = [
        Reply::Accepted,
        Reply::BufferTooShort,
        Reply::BadCharacter,
        Reply::LineOutOfPlace,
        Reply::BadField,
        Reply::BadTarget,
        Reply::BadWindow,
        Reply::WindowGoesBack,
        Reply::BadTable,
        Reply::BadState,
        Reply::NoSuchAgent,
        Reply::AgentEnded,
        Reply::TimeBelowClock,
        Reply::TimeBelowEarly,
        Reply::TimeAboveLate,
        Reply::OddChoices,
        Reply::InputTooLong,
        Reply::BadLength,
        Reply::UnknownFirstByte,
        Reply::TextTooLong,
    ];

    /// The reply's number.
    #[must_use]
    pub fn number(self) -> u32 {
        self as u32
    }

    /// Whether this is [`Reply::Accepted`].
    #[must_use]
    pub fn is_accepted(self) -> bool {
        self == Reply::Accepted
    }
}

impl TryFrom<u32> for Reply {
    type Error = u32;

    /// The reply with this number, or the number itself where there is none, as of
    /// [`Reply::RESERVED`].
    fn try_from(number: u32) -> Result<Reply, u32> {
        Reply::ALL.into_iter().find(|reply| reply.number() == number).ok_or(number)
    }
}

impl fmt::Display for Reply {
    fn fmt(&self, f: &mut fmt::Formatter<'_>) -> fmt::Result {
        f.write_str(match self {
            Reply::Accepted => "accepted",
            Reply::BufferTooShort => "table, state or output buffer too short",
            Reply::BadCharacter => {
                "a character other than 0 to 9 and A to F, or no newline: \
                 look for changed letters, spaces, a CR or a cut end"
            }
            Reply::LineOutOfPlace => "a line out of its place, or too many agents or rows",
            Reply::BadField => "unknown op, register above 3, n above 31, or an unused field not 0",
            Reply::BadTarget => "a target above the row count",
            Reply::BadWindow => "early not below late, or late above 1,000,000",
            Reply::WindowGoesBack => "early or late above that of a row that it goes on to",
            Reply::BadTable => "the table words break a rule",
            Reply::BadState => "the state words do not fit the table",
            Reply::NoSuchAgent => "no such agent",
            Reply::AgentEnded => "the agent has ended, or all have where one is to be picked",
            Reply::TimeBelowClock => "time below the clock",
            Reply::TimeBelowEarly => "time below the row's early",
            Reply::TimeAboveLate => "time above some unfinished agent's late",
            Reply::OddChoices => "the list of choices has an odd number of words",
            Reply::InputTooLong => "the trace program's input is above 65,536 bytes",
            Reply::BadLength => {
                "too few or too many digits for the line's first byte: \
                 look for a line that was cut or joined to the next"
            }
            Reply::UnknownFirstByte => {
                "no known first byte: look for an empty or cut line, one of another kind, or a \
                 missing end line before it"
            }
            Reply::TextTooLong => {
                "the table's text is longer than the buffer: lend one of the length told"
            }
        })
    }
}

#[cfg(test)]
mod tests {
    use super::*;

    #[test]
    fn each_number_but_the_reserved_one_has_its_reply() {
        let numbers = (0..).filter(|&number| number != Reply::RESERVED);
        for (number, reply) in numbers.zip(Reply::ALL) {
            assert_eq!((reply.number(), Reply::try_from(number)), (number, Ok(reply)));
        }
        for number in [Reply::RESERVED, 21] {
            assert_eq!(Reply::try_from(number), Err(number));
        }
    }
}
