//! A comparison in words: the two sides, how far each agent is, and the verdict in the last line.

use std::fmt::{self, Display, Formatter};

use crate::comparison::{Agent, Comparison, Difference, Side, Verdict};
use crate::trace::{Last, State};

/// What is printed of a comparison, with the names of the two files.
pub struct Report<'t> {
    pub names: [&'t str; 2],
    pub comparison: &'t Comparison<'t>,
    pub verdict: Verdict<'t>,
}

impl Display for Report<'_> {
    fn fmt(&self, f: &mut Formatter<'_>) -> fmt::Result {
        self.sides(f)?;
        if !self.comparison.agents.is_empty() {
            writeln!(f, "\nagent   first  second  agree")?;
        }
        for agent in &self.comparison.agents {
            let (first, second) = (agent.first.len(), agent.second.len());
            writeln!(f, "{:>5}  {first:>6}  {second:>6}  {}", agent.number, agreement(agent))?;
        }
        writeln!(f)?;
        self.last_line(f)
    }
}

impl Report<'_> {
    fn sides(&self, f: &mut Formatter<'_>) -> fmt::Result {
        let [first, second] = self.names;
        let width = ["file", first, second].map(length).into_iter().max().unwrap_or(0);
        writeln!(f, "side    {:width$}  steps  reply", "file")?;
        for (side, name, trace) in
            [("first", first, self.comparison.first), ("second", second, self.comparison.second)]
        {
            writeln!(f, "{side:6}  {name:width$}  {:>5}  {}", trace.steps(), trace.last)?;
        }
        Ok(())
    }

    /// The verdict, after the two states where they differ.
    fn last_line(&self, f: &mut Formatter<'_>) -> fmt::Result {
        match self.verdict {
            Verdict::Difference(Difference { agent, step, first, second }) => {
                let [one, other] = self.names;
                let (one, other) =
                    (format!("{one}:{}", first.line), format!("{other}:{}", second.line));
                let width = length(&one).max(length(&other));
                writeln!(f, "{one:width$}  {}\n{other:width$}  {}", first.state, second.state)?;
                writeln!(f, "difference: agent {agent} after its step {step}")
            }
            Verdict::Refused(side) => {
                let side = match side {
                    Side::First => "first",
                    Side::Second => "second",
                };
                write!(f, "refusal, not a difference: only the {side} was refused; ")?;
                writeln!(f, "{}", self.compared())
            }
            Verdict::NothingCompared => {
                write!(f, "refusal, not a difference: nothing can be compared, since no agent ")?;
                writeln!(f, "has a step on both sides")
            }
            Verdict::NotWhole(Agent { number, first, second }) => {
                let (first, second) = (first.len(), second.len());
                write!(f, "not whole, not a difference: agent {number} is shown to step {first} ")?;
                writeln!(f, "in the first, {second} in the second; {}", self.compared())
            }
            Verdict::Agreement => {
                let ends = if self.comparison.both_refused() { "; both were refused" } else { "" };
                writeln!(f, "{}{ends}", self.compared())
            }
        }
    }

    /// What was compared, where no difference was found.
    fn compared(&self) -> String {
        let (agents, states) = self.comparison.compared();
        let agents = match agents {
            0 => return "nothing was compared".to_string(),
            1 => "1 agent agrees".to_string(),
            _ => format!("{agents} agents agree"),
        };
        match states {
            1 => format!("{agents} in the 1 state that both show"),
            _ => format!("{agents} in all {states} states that both show"),
        }
    }
}

/// Whether the two sides agree on an agent, as far as both show it.
fn agreement(agent: &Agent) -> &'static str {
    match (agent.first.len(), agent.second.len()) {
        _ if agent.difference().is_some() => "no",
        (_, 0) => "only in the first",
        (0, _) => "only in the second",
        (first, second) if first == second => "yes",
        _ => "yes, as far as both go",
    }
}

/// Characters of a text, which is what a column is filled up to.
fn length(text: &str) -> usize {
    text.chars().count()
}

impl Display for Last {
    fn fmt(&self, f: &mut Formatter<'_>) -> fmt::Result {
        write!(f, "{}: {}", self.reply.number(), self.reply)?;
        match self.refused_line {
            Some(line) => write!(f, " (line {line} of its input)"),
            None => Ok(()),
        }
    }
}

/// In the digits of the trace.
impl Display for State {
    fn fmt(&self, f: &mut Formatter<'_>) -> fmt::Result {
        let State { position, registers: [r0, r1, r2, r3] } = self;
        write!(f, "position {position:02X}, registers {r0:08X} {r1:08X} {r2:08X} {r3:08X}")
    }
}

#[cfg(test)]
mod tests {
    use super::*;
    use crate::trace::Trace;

    const STEP_2: &str = "0302010000000300000005000000000000000000000000\n";
    const STEP_12: &str = "030C0100000003000000000000000500000000FFFFFFF6\n";
    const NEXT_12: &str = "030C1000000003000000000000000600000000FFFFFFF6\n";

    fn report(first: &[&str], second: &[&str], whole: bool) -> String {
        let trace = |lines: &[&str]| Trace::of(lines.concat().as_bytes()).unwrap();
        let (first, second) = (trace(first), trace(second));
        let comparison = &Comparison::of(&first, &second);
        let verdict = comparison.verdict(whole);
        Report { names: ["one", "the other"], comparison, verdict }.to_string()
    }

    fn assert_verdict(first: &[&str], second: &[&str], whole: bool, expected: &str) {
        assert_eq!(report(first, second, whole).lines().last(), Some(expected));
    }

    #[test]
    fn sides_and_agents_are_in_two_tables() {
        let shown = report(
            &[STEP_2, STEP_12, NEXT_12, "FE000003\n"],
            &[STEP_12, "030001000000030000000000000000000000000000000A\n", "FE0F0002\n"],
            false,
        );
        let expected = "\
side    file       steps  reply
first   one            3  0: accepted
second  the other      2  15: time above some unfinished agent's late

agent   first  second  agree
    0       0       1  only in the second
    2       1       0  only in the first
   12       2       1  yes, as far as both go

refusal, not a difference: only the second was refused; 1 agent agrees in the 1 state that both show
";
        assert_eq!(shown, expected);
    }

    #[test]
    fn a_difference_is_told_once_by_file_and_line() {
        let shown = report(
            &[STEP_12, NEXT_12, "FE000002\n"],
            &[STEP_2, STEP_12, &NEXT_12.replace("00000006", "ABCDEF01"), "FE000003\n"],
            false,
        );
        let expected = "\
side    file       steps  reply
first   one            2  0: accepted
second  the other      3  0: accepted

agent   first  second  agree
    2       0       1  only in the second
   12       2       2  no

one:2        position 10, registers 00000000 00000006 00000000 FFFFFFF6
the other:3  position 10, registers 00000000 ABCDEF01 00000000 FFFFFFF6
difference: agent 12 after its step 2
";
        assert_eq!(shown, expected);
    }

    #[test]
    fn where_no_step_is_shown_there_is_no_table_of_agents() {
        let expected = "\
side    file       steps  reply
first   one            0  19: no known first byte: look for an empty or cut line, one of another kind, or a missing end line before it (line 7 of its input)
second  the other      0  0: accepted

refusal, not a difference: only the first was refused; nothing was compared
";
        assert_eq!(report(&["FE130007\n"], &["FE000000\n"], false), expected);
    }

    #[test]
    fn the_verdict_says_what_was_compared() {
        let both = [STEP_2, STEP_12, "FE000002\n"];
        let agree = "2 agents agree in all 2 states that both show";
        assert_verdict(&both, &both, false, agree);
        assert_verdict(&both, &both, true, agree);
        let refused = [STEP_12, NEXT_12, "FE0B0002\n"];
        let agree = "1 agent agrees in all 2 states that both show; both were refused";
        assert_verdict(&refused, &refused, true, agree);
        let nothing =
            "refusal, not a difference: nothing can be compared, since no agent has a step on both sides";
        assert_verdict(&["FE000000\n"], &["FE000000\n"], false, nothing);
        let not_whole = "not whole, not a difference: agent 2 is shown to step 1 in the first, \
                         0 in the second; 1 agent agrees in the 1 state that both show";
        assert_verdict(&both, &[STEP_12, "FE000001\n"], true, not_whole);
    }
}
