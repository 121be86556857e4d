//! What an output of the trace program shows. The steps are those of `stepsShown` in
//! `crates/demands/specs/Traces.antt`, a line's fields those of `stepIn`. That parse passes over a
//! line that shows no step; here it is malformed, as are fields that no step has, so that a file of
//! another kind does not pass for a trace. Whether the steps are those of a table is not looked at.

use header::{Reply, AGENTS, LAST_TIME, REGISTERS, ROWS, TRACE_OUTPUT_BYTES};

use crate::visible::cut;

/// An agent's state.
#[derive(Clone, Copy, Debug, PartialEq, Eq)]
pub struct State {
    pub position: u32,
    pub registers: [u32; REGISTERS],
}

/// The state after a step, and the line that shows it.
#[derive(Clone, Copy, Debug, PartialEq, Eq)]
pub struct Shown {
    pub state: State,
    pub line: usize,
}

/// What the `FE` line tells.
#[derive(Clone, Copy, Debug, PartialEq, Eq)]
pub struct Last {
    pub reply: Reply,
    /// The line of the input that is refused, with replies 2 to 7, 18 and 19.
    pub refused_line: Option<u32>,
}

/// An output: the states of each agent after its steps, and how it ended.
#[derive(Debug, PartialEq, Eq)]
pub struct Trace {
    pub agents: [Vec<Shown>; AGENTS],
    pub last: Last,
}

/// Why bytes are no output of the trace program, and the line where one is to blame.
#[derive(Debug, PartialEq, Eq)]
pub struct Malformed {
    pub line: Option<usize>,
    pub what: String,
}

impl Trace {
    /// What these bytes show: lines `03`, and the line `FE` last.
    pub fn of(bytes: &[u8]) -> Result<Trace, Malformed> {
        if bytes.len() > TRACE_OUTPUT_BYTES {
            let most = TRACE_OUTPUT_BYTES;
            let what = format!("longer than the longest trace, which has {most} bytes");
            return Err(Malformed { line: None, what });
        }
        // The clock starts at 1.
        let mut steps = Steps { agents: Default::default(), clock: 1 };
        let mut last = None;
        for (line, number) in bytes.split_inclusive(|&byte| byte == b'\n').zip(1..) {
            let taken = match last {
                None => steps.take(line, number),
                Some(_) => Err("a line after the FE line".to_string()),
            };
            last = taken.map_err(|what| {
                let shown = cut(line.strip_suffix(b"\n").unwrap_or(line));
                Malformed { line: Some(number), what: format!("{what}: \"{shown}\"") }
            })?;
        }
        match last {
            Some(last) => Ok(Trace { agents: steps.agents, last }),
            None => Err(Malformed { line: None, what: "the FE line is missing".to_string() }),
        }
    }

    /// How many steps it shows.
    pub fn steps(&self) -> usize {
        self.agents.iter().map(Vec::len).sum()
    }
}

/// The steps of the lines so far.
struct Steps {
    agents: [Vec<Shown>; AGENTS],
    clock: u32,
}

impl Steps {
    /// Takes the next line, and gives what it tells where it is an `FE` line.
    fn take(&mut self, line: &[u8], number: usize) -> Result<Option<Last>, String> {
        let Some(digits) = line.strip_suffix(b"\n") else {
            return Err("the newline is missing".to_string());
        };
        if let Some([0x03, agent, position, time, r0, r1, r2, r3]) =
            numbers(digits, [2, 2, 2, 8, 8, 8, 8, 8])
        {
            let state = State { position, registers: [r0, r1, r2, r3] };
            self.step(agent, time, Shown { state, line: number })?;
            Ok(None)
        } else if let Some([0xFE, reply, told]) = numbers(digits, [2, 2, 4]) {
            let steps = self.agents.iter().map(Vec::len).sum();
            last(reply, told, steps).map(Some)
        } else {
            Err("neither an 03 nor an FE line".to_string())
        }
    }

    fn step(&mut self, agent: u32, time: u32, shown: Shown) -> Result<(), String> {
        let Some(states) = self.agents.get_mut(agent as usize) else {
            return Err("agent above 15".to_string());
        };
        if shown.state.position as usize > ROWS {
            return Err("position above 32".to_string());
        }
        if time < self.clock {
            return Err(format!("time below the clock, which is {:08X}", self.clock));
        }
        if time > LAST_TIME {
            return Err("time above 1,000,000".to_string());
        }
        self.clock = time;
        states.push(shown);
        Ok(())
    }
}

/// The numbers of a line that are so many digits wide; none where it has another form.
fn numbers<const N: usize>(line: &[u8], widths: [usize; N]) -> Option<[u32; N]> {
    let is_digit = |c: &u8| c.is_ascii_digit() || (b'A'..=b'F').contains(c);
    if line.len() != widths.iter().sum() || !line.iter().all(is_digit) {
        return None;
    }
    let mut left = std::str::from_utf8(line).ok()?;
    Some(widths.map(|width| {
        let (number, rest) = left.split_at(width);
        left = rest;
        u32::from_str_radix(number, 16).expect("at most 8 digits")
    }))
}

/// What an `FE` line after so many steps tells.
fn last(reply: u32, told: u32, steps: usize) -> Result<Last, String> {
    let Ok(reply) = Reply::try_from(reply) else {
        return Err(format!("there is no reply {reply}"));
    };
    let (refused_line, fits) = match reply {
        // Refused before any step, and lines are counted from 1.
        Reply::BadCharacter
        | Reply::LineOutOfPlace
        | Reply::BadField
        | Reply::BadTarget
        | Reply::BadWindow
        | Reply::WindowGoesBack
        | Reply::BadLength
        | Reply::UnknownFirstByte => (Some(told), steps == 0 && told > 0),
        Reply::InputTooLong => (None, steps == 0 && told == 0),
        // A trace without room writes nothing, and it runs its own words, so 8, 9 and 16 cannot be; it
        // writes no table out, so 20 cannot.
        Reply::BufferTooShort
        | Reply::BadTable
        | Reply::BadState
        | Reply::OddChoices
        | Reply::TextTooLong => {
            return Err(format!("no trace ends with reply {}", reply.number()));
        }
        Reply::Accepted
        | Reply::NoSuchAgent
        | Reply::AgentEnded
        | Reply::TimeBelowClock
        | Reply::TimeBelowEarly
        | Reply::TimeAboveLate => (None, told as usize == steps),
    };
    if !fits {
        let number = reply.number();
        return Err(format!("reply {number} with {told} does not fit the {steps} steps before it"));
    }
    Ok(Last { reply, refused_line })
}

#[cfg(test)]
mod tests {
    use super::*;

    const ONE: &str = "0300010000000300000005000000000000000000000000
0301010000000400000000000000050000000000000000
FE000002
";

    fn altered(from: &str, to: &str) -> Vec<u8> {
        assert!(ONE.contains(from));
        ONE.replace(from, to).into_bytes()
    }

    #[test]
    fn the_papers_example_is_read() {
        let trace = Trace::of(ONE.as_bytes()).unwrap();
        let zero = State { position: 1, registers: [5, 0, 0, 0] };
        let one = State { position: 1, registers: [0, 5, 0, 0] };
        assert_eq!(trace.agents[0], [Shown { state: zero, line: 1 }]);
        assert_eq!(trace.agents[1], [Shown { state: one, line: 2 }]);
        assert_eq!(trace.last, Last { reply: Reply::Accepted, refused_line: None });
        assert_eq!(trace.steps(), 2);
    }

    #[test]
    fn each_field_has_its_place() {
        let trace =
            Trace::of(b"030F20000F42400000000189ABCDEFFFFFFFFF00000004\nFE0F0001\n").unwrap();
        let state = State { position: 32, registers: [1, 0x89AB_CDEF, 0xFFFF_FFFF, 4] };
        assert_eq!(trace.agents[15], [Shown { state, line: 1 }]);
        assert_eq!(trace.last.reply, Reply::TimeAboveLate);
    }

    #[test]
    fn malformed_lines_are_told_and_shown() {
        for (from, to, line, what) in [
            ("FE000002\n", "FE000002", 3, "the newline is missing: \"FE000002\""),
            ("FE000002", "FE000002\nFE000002", 4, "a line after the FE line: \"FE000002\""),
            ("FE000002", "FE00000", 3, "neither an 03 nor an FE line: \"FE00000\""),
            ("FE000002", "\x1b[2J", 3, "neither an 03 nor an FE line: \"\\u{1b}[2J\""),
            ("FE000002", "fe000002", 3, "neither an 03 nor an FE line: \"fe000002\""),
            ("FE000002", "FE00000+", 3, "neither an 03 nor an FE line: \"FE00000+\""),
            ("0301", "\n0301", 2, "neither an 03 nor an FE line: \"\""),
            ("0301", "030g", 2, "neither an 03 nor an FE line: \"030g"),
            ("0301", "0201", 2, "neither an 03 nor an FE line: \"0201"),
            ("0301", "03010", 2, "neither an 03 nor an FE line: \"03010"),
            ("0300010000", "0310010000", 1, "agent above 15: \"0310"),
            ("030001", "030021", 1, "position above 32: \"030021"),
            (
                "030101000000040",
                "030101000000020",
                2,
                "time below the clock, which is 00000003: \"",
            ),
            (
                "030001000000030",
                "030001000000000",
                1,
                "time below the clock, which is 00000001: \"",
            ),
            ("03010100000004", "030101000F4241", 2, "time above 1,000,000: \"030101000F4241"),
            ("FE000002", "FE0E0002", 3, "there is no reply 14: \"FE0E0002\""),
            ("FE000002", "FE100002", 3, "no trace ends with reply 16: \"FE100002\""),
            ("FE000002", "FE140002", 3, "no trace ends with reply 20: \"FE140002\""),
            ("FE000002", "FE150002", 3, "there is no reply 21: \"FE150002\""),
            ("FE000002", "FEFF0002", 3, "there is no reply 255: \"FEFF0002\""),
        ] {
            let error = Trace::of(&altered(from, to)).unwrap_err();
            assert_eq!(error.line, Some(line), "{from:?} to {to:?}: {error:?}");
            assert!(error.what.starts_with(what), "{from:?} to {to:?}: {error:?}");
        }
    }

    #[test]
    fn a_trace_cut_short_or_too_long_is_refused() {
        for short in ["", "0300010000000300000005000000000000000000000000\n"] {
            let error = Trace::of(short.as_bytes()).unwrap_err();
            assert_eq!((error.line, &error.what[..]), (None, "the FE line is missing"));
        }
        let step = "0300010000000300000005000000000000000000000000\n";
        assert_eq!(Trace::of((step.repeat(512) + "FE000200\n").as_bytes()).unwrap().steps(), 512);
        let error = Trace::of((step.repeat(513) + "FE000201\n").as_bytes()).unwrap_err();
        assert_eq!(error.line, None);
        assert!(error.what.contains("24073"), "{error:?}");
    }

    #[test]
    fn the_last_line_fits_the_steps() {
        for good in ["FE000002", "FE0A0002", "FE0D0002", "FE0F0002"] {
            assert!(Trace::of(&altered("FE000002", good)).is_ok(), "{good}");
        }
        for bad in [
            "FE000003", "FE000001", "FE0F0000", "FE020002", "FE110000", "FE110002", "FE010002",
            "FE080002", "FE090002", "FE0E0002", "FE100002", "FE120002", "FE130002", "FE140002",
        ] {
            let error = Trace::of(&altered("FE000002", bad)).unwrap_err();
            assert_eq!(error.line, Some(3), "{bad}");
        }
    }

    #[test]
    fn the_last_line_alone() {
        for (line, reply, refused_line) in [
            ("FE000000\n", Reply::Accepted, None),
            ("FE020001\n", Reply::BadCharacter, Some(1)),
            ("FE0713B1\n", Reply::WindowGoesBack, Some(0x13B1)),
            ("FE0A0000\n", Reply::NoSuchAgent, None),
            ("FE110000\n", Reply::InputTooLong, None),
            ("FE120001\n", Reply::BadLength, Some(1)),
            ("FE1313B1\n", Reply::UnknownFirstByte, Some(0x13B1)),
        ] {
            let trace = Trace::of(line.as_bytes()).unwrap();
            assert_eq!((trace.last, trace.steps()), (Last { reply, refused_line }, 0));
        }
        for bad in [
            "FE010000\n",
            "FE020000\n",
            "FE080000\n",
            "FE0E0000\n",
            "FE100000\n",
            "FE110001\n",
            "FE120000\n",
            "FE130000\n",
            "FE140000\n",
        ] {
            assert!(Trace::of(bad.as_bytes()).is_err(), "{bad}");
        }
    }
}
