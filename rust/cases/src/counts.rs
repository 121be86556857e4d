//! What was met, and the least that a comparison must meet to be worth something.

use std::fmt;

use reference::executive::{Message, State};
use reference::reply::{BAD_FIELD, WINDOW_GOES_BACK};
use reference::table::RECV;
use reference::{Row, Table};

use crate::choices::Choice;
use crate::picked::Picks;
use crate::suite::Kind;
use crate::ways::{backs, has_earlier_row_below, is_reached, Back, Way};

/// A call, or the trace program, whose refusals of choice lines are counted apart.
#[derive(Clone, Copy, Debug, PartialEq, Eq)]
pub enum Call {
    Read,
    Write,
    Check,
    Start,
    Pick,
    Step,
    Run,
    Trace,
    Choices,
}

const CALLS: [Call; 9] = [
    Call::Read,
    Call::Write,
    Call::Check,
    Call::Start,
    Call::Pick,
    Call::Step,
    Call::Run,
    Call::Trace,
    Call::Choices,
];

/// What a line is refused with, in a table and in choices, before its place or its row is looked at.
pub const LINE_REPLIES: [usize; 3] = [2, 18, 19];

impl Call {
    /// The replies that it can give.
    fn replies(self) -> &'static [usize] {
        match self {
            Call::Read => &[0, 1, 2, 3, 4, 5, 6, 7, 18, 19],
            Call::Write => &[0, 1, 8, 20],
            Call::Check | Call::Start => &[0, 1, 8],
            Call::Pick => &[0, 1, 8, 9, 11],
            Call::Step => &[0, 1, 8, 9, 10, 11, 12, 13, 15],
            Call::Run => &[0, 1, 8, 10, 11, 12, 13, 15, 16],
            Call::Trace => &[0, 2, 3, 4, 5, 6, 7, 10, 11, 12, 13, 15, 17, 18, 19],
            Call::Choices => &LINE_REPLIES,
        }
    }
}

const REPLIES: usize = 21;
/// The number that is reserved: no call gives it.
const RESERVED: usize = 14;

/// The numbers that calls give.
fn replies() -> impl Iterator<Item = usize> {
    (0..REPLIES).filter(|&reply| reply != RESERVED)
}

/// The rule that decides between visible messages.
#[derive(Clone, Copy, Debug, PartialEq, Eq)]
pub enum Tie {
    Late,
    Agent,
    Row,
}

/// The rule that decided for the best of these messages, where all that lost by it hold another
/// value, so that a wrong rule would show.
pub fn decided_by(messages: &[Message]) -> Option<Tie> {
    let best = State::best(messages)?;
    let rivals = |is_rival: &dyn Fn(&Message) -> bool| -> Vec<&Message> {
        messages.iter().filter(|&m| *m != best && is_rival(m)).collect()
    };
    let by_row = rivals(&|m| m.late == best.late && m.agent == best.agent);
    let by_agent = rivals(&|m| m.late == best.late);
    let by_late = rivals(&|_| true);
    let (tie, lost) = [(Tie::Row, by_row), (Tie::Agent, by_agent), (Tie::Late, by_late)]
        .into_iter()
        .find(|(_, lost)| !lost.is_empty())?;
    lost.iter().all(|m| m.value != best.value).then_some(tie)
}

/// Rows that go on to an earlier one by one way alone: for each way, with only the early above that
/// of the other, only the late, and both.
type Backs = [[u64; 3]; Way::ALL.len()];
const ABOVE: [&str; 3] = ["early", "late", "both"];

fn count_back(counts: &mut Backs, back: &Back) {
    let above = match (back.early, back.late) {
        (true, false) => 0,
        (false, _) => 1,
        (true, true) => 2,
    };
    counts[back.way as usize][above] += 1;
}

/// Whether a RECV that takes the best of these messages leaves another value in a higher row of the
/// same agent, which in the order of the rows would have come after it.
fn leaves_a_higher_row(messages: &[Message]) -> bool {
    let Some(best) = State::best(messages) else { return false };
    messages.iter().any(|m| m.agent == best.agent && m.row > best.row && m.value != best.value)
}

/// What a comparison met.
#[derive(Clone, Debug, Default, PartialEq, Eq)]
pub struct Counts {
    pub cases: u64,
    replies: [[u64; REPLIES]; CALLS.len()],
    written: [u64; Kind::ALL.len()],
    long_runs: u64,
    ties: [u64; 3],
    pairs: u64,
    /// Accepted tables that document 01 refused with 7.
    shared: [u64; Kind::ALL.len()],
    /// Runs with a step over a row of a later time.
    arms_run: u64,
    /// RECVs that leave a message of a higher row of the same agent.
    higher_rows: u64,
    /// What the row that is told with 7 goes back by, and what the only such row of a table that the
    /// check refuses for nothing else.
    told_backs: Backs,
    checked_backs: Backs,
    /// Rows told with 7 that no path reaches.
    unreached: u64,
    /// Texts refused with 4, 5 and 6 for a row after one that goes back: of its own agent, and of an
    /// earlier one.
    after_back: [[u64; 2]; 3],
    pub picks: Picks,
}

impl Counts {
    pub fn reply(&mut self, call: Call, reply: u32) {
        self.replies[call as usize][reply as usize] += 1;
    }

    /// Counts the table of a case of this kind, accepted, written and read again.
    pub fn written(&mut self, kind: Kind, table: &[u32]) {
        let table = Table::from_words(table).expect("accepted");
        self.written[kind as usize] += 1;
        self.shared[kind as usize] += u64::from(has_earlier_row_below(&table));
    }

    /// Counts a text whose lines are good and gave this table, for the row that it is refused for.
    pub fn rows_read(&mut self, table: &Table) {
        let Some((reply, a, i)) = table.first_refused_row() else { return };
        let rows = &table.agents[a].rows;
        if reply == WINDOW_GOES_BACK {
            let by: Vec<Back> = backs(rows).into_iter().filter(|back| back.row == i).collect();
            if let [back] = by[..] {
                count_back(&mut self.told_backs, &back);
            }
            self.unreached += u64::from(!is_reached(rows, i));
            return;
        }
        let is_after = |back: &Back| back.row < i;
        let of_its_own = backs(rows).iter().any(is_after);
        let of_an_earlier = table.agents[..a].iter().any(|agent| !backs(&agent.rows).is_empty());
        let counts = &mut self.after_back[(reply - BAD_FIELD) as usize];
        counts[0] += u64::from(of_its_own);
        counts[1] += u64::from(of_an_earlier);
    }

    /// Counts a table that is checked, where it is refused for one way alone on which a row goes back.
    pub fn rows_checked(&mut self, table: &Table) {
        if table.first_refused_row().is_none_or(|(reply, ..)| reply != WINDOW_GOES_BACK) {
            return;
        }
        let all: Vec<Back> = table.agents.iter().flat_map(|agent| backs(&agent.rows)).collect();
        if let [back] = all[..] {
            count_back(&mut self.checked_backs, &back);
        }
    }

    /// Counts a run's accepted steps, and the messages taken in them.
    pub fn run(&mut self, table: &Table, choices: &[Choice], accepted: u32) {
        self.long_runs += u64::from(accepted >= 20);
        let mut state = State::start(table);
        let mut steps_over_an_arm = 0;
        for &(agent, time) in &choices[..accepted as usize] {
            let a = agent as usize;
            let before = state.agents[a].position;
            self.receive(table, &state, agent);
            state.step(table, agent, time);
            let rows = &table.agents[a].rows;
            let after = state.agents[a].position;
            let is_later = |row: &Row| {
                rows.get(after).is_some_and(|next| row.early > next.early || row.late > next.late)
            };
            steps_over_an_arm += usize::from(rows[before + 1..after].iter().any(is_later));
        }
        self.arms_run += u64::from(steps_over_an_arm > 0);
    }

    /// Counts the message that an accepted step of this agent takes.
    pub fn receive(&mut self, table: &Table, state: &State, agent: u32) {
        match state.current_row(table, agent as usize) {
            Some(row) if row.op == RECV => {
                let visible = state.visible(table, row);
                if let Some(tie) = decided_by(&visible) {
                    self.ties[tie as usize] += 1;
                }
                self.higher_rows += u64::from(leaves_a_higher_row(&visible));
            }
            _ => {}
        }
    }

    pub fn pair(&mut self) {
        self.pairs += 1;
    }

    fn of_reply(&self, reply: usize) -> u64 {
        self.replies.iter().map(|of_call| of_call[reply]).sum()
    }

    /// Every count that is below its floor, in words.
    pub fn below_floors(&self) -> Vec<String> {
        let mut short = Vec::new();
        let mut at_least = |what: String, count: u64, floor: u64| {
            if count < floor {
                short.push(format!("{what}: {count}, below {floor}"));
            }
        };
        at_least("cases".to_string(), self.cases, 100_000);
        for reply in replies() {
            at_least(format!("reply {reply}"), self.of_reply(reply), 500);
        }
        for call in CALLS {
            for &reply in call.replies() {
                let count = self.replies[call as usize][reply];
                // There are many ways for a line to be wrong, and many reads for each trace.
                let floor = match (call, LINE_REPLIES.contains(&reply)) {
                    (Call::Read, true) => 1_000,
                    (_, true) => 20,
                    (Call::Write | Call::Pick, false) => 500,
                    (_, false) => 5,
                };
                at_least(format!("reply {reply} of {call:?}"), count, floor);
            }
        }
        // A kind of case whose tables are not written would be missed among all.
        for kind in Kind::ALL {
            let what = format!("tables of {kind:?} cases written and read again");
            at_least(what, self.written[kind as usize], 1_000);
        }
        let what = "tables written and read again".to_string();
        at_least(what, self.written.iter().sum(), 60_000);
        at_least("runs of 20 or more accepted steps".to_string(), self.long_runs, 10_000);
        for tie in [Tie::Late, Tie::Agent, Tie::Row] {
            let what = format!("RECVs decided by the rule {tie:?}");
            at_least(what, self.ties[tie as usize], 1_000);
        }
        let what = "pairs of schedules in different orders".to_string();
        at_least(what, self.pairs, 1_000);
        for kind in Kind::ALL {
            let what = format!("tables of {kind:?} cases that document 01 refused with 7");
            at_least(what, self.shared[kind as usize], 250);
        }
        let what = "tables that document 01 refused with 7".to_string();
        at_least(what, self.shared.iter().sum(), 20_000);
        let what = "runs with a step over an arm of a later time".to_string();
        at_least(what, self.arms_run, 3_000);
        let what = "RECVs that leave a message of a higher row of the same agent".to_string();
        at_least(what, self.higher_rows, 10);
        for way in Way::ALL {
            for (above, name) in ABOVE.iter().enumerate() {
                let what = format!("rows told with 7 by the way {way:?} alone, {name}");
                at_least(what, self.told_backs[way as usize][above], 30);
                let what = format!("tables checked with one row back, by the way {way:?}, {name}");
                at_least(what, self.checked_backs[way as usize][above], 10);
            }
        }
        let what = "rows told with 7 that no path reaches".to_string();
        at_least(what, self.unreached, 25);
        for (reply, of_agents) in (BAD_FIELD..).zip(self.after_back) {
            for (count, whose) in of_agents.into_iter().zip(["its own", "an earlier"]) {
                let what = format!("reply {reply} after a row that goes back, of {whose} agent");
                at_least(what, count, 150);
            }
        }
        for (what, count, floor) in self.picks.floors() {
            at_least(what, count, floor);
        }
        short
    }
}

impl fmt::Display for Counts {
    fn fmt(&self, f: &mut fmt::Formatter<'_>) -> fmt::Result {
        writeln!(f, "{} cases", self.cases)?;
        write!(f, "reply")?;
        for call in CALLS {
            write!(f, "{:>9}", format!("{call:?}").to_lowercase())?;
        }
        writeln!(f, "{:>9}", "all")?;
        for reply in replies() {
            write!(f, "{reply:>5}")?;
            for call in CALLS {
                match self.replies[call as usize][reply] {
                    0 if !call.replies().contains(&reply) => write!(f, "{:>9}", "-")?,
                    count => write!(f, "{count:>9}")?,
                }
            }
            writeln!(f, "{:>9}", self.of_reply(reply))?;
        }
        writeln!(f, "{} tables written and read again:", self.written.iter().sum::<u64>())?;
        let of_kind = Kind::ALL.map(|kind| format!("{kind:?} {}", self.written[kind as usize]));
        writeln!(f, "{}", of_kind.join(", "))?;
        writeln!(f, "{} runs of 20 or more accepted steps", self.long_runs)?;
        let [late, agent, row] = self.ties;
        writeln!(f, "RECVs decided by late {late}, by agent {agent}, by row {row}")?;
        writeln!(f, "{} pairs of schedules in different orders that end all agents", self.pairs)?;
        let of_kind = Kind::ALL.map(|kind| format!("{kind:?} {}", self.shared[kind as usize]));
        writeln!(
            f,
            "{} of the tables refused by document 01 with 7:",
            self.shared.iter().sum::<u64>()
        )?;
        writeln!(f, "{}", of_kind.join(", "))?;
        writeln!(f, "{} runs with a step over an arm of a later time", self.arms_run)?;
        writeln!(
            f,
            "{} RECVs that leave a message of a higher row of the same agent",
            self.higher_rows
        )?;
        let listed = |counts: &Backs| {
            let of_way = Way::ALL.map(|way| format!("{way:?} {:?}", counts[way as usize]));
            of_way.join(", ")
        };
        writeln!(f, "rows that go back by one way alone, with {} above:", ABOVE.join(", "))?;
        writeln!(f, "told with 7: {}", listed(&self.told_backs))?;
        writeln!(f, "the only one of a table checked: {}", listed(&self.checked_backs))?;
        writeln!(f, "{} rows told with 7 that no path reaches", self.unreached)?;
        let [field, target, window] = self.after_back;
        writeln!(f, "after a row that goes back, of its own agent and of an earlier one:")?;
        writeln!(f, "reply 4 {field:?}, 5 {target:?}, 6 {window:?}")?;
        for (what, count, _) in self.picks.floors() {
            writeln!(f, "{count} {what}")?;
        }
        Ok(())
    }
}
