//! Two traces, agent by agent and state by state; times and the order of the steps are left out.

use crate::trace::{Shown, Trace};

/// The steps of an agent that at least one side shows, on both sides.
#[derive(Clone, Copy, Debug, PartialEq, Eq)]
pub struct Agent<'t> {
    pub number: usize,
    pub first: &'t [Shown],
    pub second: &'t [Shown],
}

impl Agent<'_> {
    /// How many of its states both sides show.
    pub fn in_both(&self) -> usize {
        self.first.len().min(self.second.len())
    }

    /// The first of these that differ.
    pub fn difference(&self) -> Option<Difference> {
        let mut pairs = self.first.iter().zip(self.second).zip(1..);
        pairs
            .find(|((first, second), _)| first.state != second.state)
            .map(|((&first, &second), step)| Difference { agent: self.number, step, first, second })
    }
}

/// Two states of an agent after the same step of it, counted from 1, which differ.
#[derive(Clone, Copy, Debug, PartialEq, Eq)]
pub struct Difference {
    pub agent: usize,
    pub step: usize,
    pub first: Shown,
    pub second: Shown,
}

/// Which of the two.
#[derive(Clone, Copy, Debug, PartialEq, Eq)]
pub enum Side {
    First,
    Second,
}

/// What the comparison comes to; of several the first in this order.
#[derive(Clone, Copy, Debug, PartialEq, Eq)]
pub enum Verdict<'t> {
    /// The first difference, by agents and then by states.
    Difference(Difference),
    /// This side was refused before its end, and the other was not.
    Refused(Side),
    /// No agent has a step on both sides.
    NothingCompared,
    /// The first agent that is not shown equally far, where that was asked.
    NotWhole(Agent<'t>),
    /// What both sides show agrees.
    Agreement,
}

/// Two traces, side by side.
#[derive(Debug)]
pub struct Comparison<'t> {
    pub first: &'t Trace,
    pub second: &'t Trace,
    /// By number.
    pub agents: Vec<Agent<'t>>,
}

impl<'t> Comparison<'t> {
    pub fn of(first: &'t Trace, second: &'t Trace) -> Comparison<'t> {
        let agents = first.agents.iter().zip(&second.agents).enumerate();
        let agents = agents
            .map(|(number, (first, second))| Agent { number, first, second })
            .filter(|agent| !(agent.first.is_empty() && agent.second.is_empty()))
            .collect();
        Comparison { first, second, agents }
    }

    /// How many agents have a step on both sides, and how many of their states both show.
    pub fn compared(&self) -> (usize, usize) {
        let in_both = self.agents.iter().map(Agent::in_both);
        (in_both.clone().filter(|&states| states > 0).count(), in_both.sum())
    }

    pub fn both_refused(&self) -> bool {
        !self.first.last.reply.is_accepted() && !self.second.last.reply.is_accepted()
    }

    /// The verdict, where `whole` asks that each agent is shown equally far on both sides.
    pub fn verdict(&self, whole: bool) -> Verdict<'t> {
        if let Some(difference) = self.agents.iter().find_map(Agent::difference) {
            return Verdict::Difference(difference);
        }
        match (self.first.last.reply.is_accepted(), self.second.last.reply.is_accepted()) {
            (false, true) => return Verdict::Refused(Side::First),
            (true, false) => return Verdict::Refused(Side::Second),
            _ => {}
        }
        if self.compared() == (0, 0) {
            return Verdict::NothingCompared;
        }
        match self.agents.iter().find(|agent| agent.first.len() != agent.second.len()) {
            Some(&agent) if whole => Verdict::NotWhole(agent),
            _ => Verdict::Agreement,
        }
    }
}

#[cfg(test)]
mod tests {
    use super::*;

    const STEP_0: &str = "0300010000000300000005000000000000000000000000\n";
    const STEP_1: &str = "0301010000000300000000000000050000000000000000\n";
    const NEXT_1: &str = "0301020000000300000000000000060000000000000000\n";

    fn trace(lines: &[&str]) -> Trace {
        Trace::of(lines.concat().as_bytes()).unwrap()
    }

    /// The verdict as it is, and where `--whole` is asked.
    fn assert_verdict(first: &[&str], second: &[&str], expected: Verdict, whole: Verdict) {
        let (first, second) = (trace(first), trace(second));
        let comparison = Comparison::of(&first, &second);
        assert_eq!(comparison.verdict(false), expected);
        assert_eq!(comparison.verdict(true), whole);
    }

    /// The same verdict in both cases.
    fn assert_both(first: &[&str], second: &[&str], expected: Verdict) {
        assert_verdict(first, second, expected, expected);
    }

    #[test]
    fn times_and_order_are_left_out() {
        let one = [STEP_0, STEP_1, NEXT_1, "FE000003\n"];
        let later = STEP_0.replace("03000100000003", "03000100000009");
        assert_both(&one, &one, Verdict::Agreement);
        assert_both(&one, &[STEP_1, NEXT_1, &later, "FE000003\n"], Verdict::Agreement);
    }

    #[test]
    fn the_first_difference_is_by_agents_and_then_states() {
        let (first, second) = (
            trace(&[STEP_1, NEXT_1, STEP_0, "FE000003\n"]),
            trace(&[
                &STEP_1.replace("030101", "030102"),
                STEP_0,
                &NEXT_1.replace("00000006", "00000007"),
                "FE0F0003\n",
            ]),
        );
        let Verdict::Difference(found) = Comparison::of(&first, &second).verdict(true) else {
            panic!("no difference");
        };
        assert_eq!((found.agent, found.step, found.first.line, found.second.line), (1, 1, 1, 1));

        let second = trace(&[
            STEP_1,
            &STEP_0.replace("00000005", "00000004"),
            &NEXT_1.replace("00000006", "00000007"),
            "FE000003\n",
        ]);
        let Verdict::Difference(found) = Comparison::of(&first, &second).verdict(false) else {
            panic!("no difference");
        };
        assert_eq!((found.agent, found.step, found.first.line, found.second.line), (0, 1, 3, 2));

        let second = trace(&[STEP_1, &NEXT_1.replace("00000006", "00000007"), "FE000002\n"]);
        let Verdict::Difference(found) = Comparison::of(&first, &second).verdict(false) else {
            panic!("no difference");
        };
        assert_eq!((found.agent, found.step, found.first.line, found.second.line), (1, 2, 2, 2));
        assert_eq!((found.first.state.registers[1], found.second.state.registers[1]), (6, 7));
    }

    #[test]
    fn each_field_of_a_state_counts() {
        let one = [STEP_0, "FE000001\n"];
        // The position, and the last digit of each register.
        for at in [5, 21, 29, 37, 45] {
            let mut other = STEP_0.to_string();
            other.replace_range(at..=at, "9");
            let (first, second) = (trace(&one), trace(&[&other, "FE000001\n"]));
            let verdict = Comparison::of(&first, &second).verdict(false);
            assert!(matches!(verdict, Verdict::Difference(_)), "digit {at}: {verdict:?}");
        }
    }

    #[test]
    fn a_beginning_agrees_but_is_not_whole() {
        let longer = [STEP_1, NEXT_1, "FE000002\n"];
        let shorter = [STEP_1, "FE000001\n"];
        let (long, short) = (trace(&longer), trace(&shorter));
        let not_whole = Agent { number: 1, first: &long.agents[1], second: &short.agents[1] };
        assert_verdict(&longer, &shorter, Verdict::Agreement, Verdict::NotWhole(not_whole));
        let not_whole = Agent { number: 1, first: &short.agents[1], second: &long.agents[1] };
        assert_verdict(&shorter, &longer, Verdict::Agreement, Verdict::NotWhole(not_whole));
    }

    #[test]
    fn an_agent_of_one_side_is_not_whole() {
        let more = [STEP_1, STEP_0, "FE000002\n"];
        let fewer = [STEP_1, "FE000001\n"];
        let shown = trace(&more);
        let not_whole = Agent { number: 0, first: &shown.agents[0], second: &[] };
        assert_verdict(&more, &fewer, Verdict::Agreement, Verdict::NotWhole(not_whole));
    }

    #[test]
    fn one_side_refused_is_no_agreement() {
        let good = [STEP_0, STEP_1, "FE000002\n"];
        let refused_later = [STEP_0, "FE0F0001\n"];
        for refused in [&refused_later[..], &["FE020001\n"], &["FE110000\n"]] {
            assert_both(&good, refused, Verdict::Refused(Side::Second));
            assert_both(refused, &good, Verdict::Refused(Side::First));
        }
    }

    #[test]
    fn both_refused_agree_where_something_was_compared() {
        assert_both(&[STEP_0, "FE0F0001\n"], &[STEP_0, "FE0A0001\n"], Verdict::Agreement);
        assert_both(&["FE0F0000\n"], &["FE020001\n"], Verdict::NothingCompared);
    }

    #[test]
    fn nothing_compared_is_no_agreement() {
        assert_both(&["FE000000\n"], &["FE000000\n"], Verdict::NothingCompared);
        assert_both(&[STEP_0, "FE000001\n"], &[STEP_1, "FE000001\n"], Verdict::NothingCompared);
        assert_both(&[STEP_0, "FE000001\n"], &["FE000000\n"], Verdict::NothingCompared);
    }

    #[test]
    fn agents_and_states_are_counted_where_both_show_them() {
        let first = trace(&[STEP_0, STEP_1, NEXT_1, "FE000003\n"]);
        let second = trace(&[STEP_1, "FE000001\n"]);
        let comparison = Comparison::of(&first, &second);
        assert_eq!(comparison.compared(), (1, 1));
        assert_eq!(comparison.agents.iter().map(|agent| agent.number).collect::<Vec<_>>(), [0, 1]);
    }
}
