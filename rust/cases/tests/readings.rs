//! The paper's "readings that look right and are not", each as a board that the comparison must
//! find to be wrong.

use cases::suite::Kind;
use cases::{compare, Board, Plan};
use reference::executive::Message;
use reference::reply::*;
use reference::table::{RECV, SEND};
use reference::{Row, State, Table};

#[derive(Clone, Copy, Debug, PartialEq)]
enum Reading {
    /// As the paper says.
    Right,
    /// A message is shown once it is sent.
    Sent,
    /// A message is shown once the clock passes its late.
    ClockPassed,
    /// The deadline of the chosen agent alone.
    OwnDeadline,
    /// Ended agents' last windows stay in the deadline test.
    EndedDeadline,
    /// The message sent last in the run is taken.
    SentLast,
    /// Visible also where late equals early.
    LateEqualsEarly,
}

impl Reading {
    fn deadline(self, table: &Table, state: &State, a: usize) -> Option<u32> {
        match self {
            Reading::OwnDeadline => state.current_row(table, a).map(|row| row.late),
            Reading::EndedDeadline => (0..table.agents.len())
                .map(|b| state.current_row(table, b).or(table.agents[b].rows.last().copied()))
                .map(|row| row.unwrap().late)
                .min(),
            _ => state.deadline(table),
        }
    }

    fn best(self, table: &Table, state: &State, sent: &[(usize, usize)], recv: Row) -> Option<u32> {
        let all = |sees: &dyn Fn(&Row) -> bool| -> Vec<Message> {
            let messages = sent.iter().map(|&(agent, row)| {
                let value = state.sent[agent][row].unwrap();
                (table.agents[agent].rows[row], agent, row, value)
            });
            messages
                .filter(|(sender, ..)| sender.k == recv.k && sees(sender))
                .map(|(sender, agent, row, value)| Message { agent, row, late: sender.late, value })
                .collect()
        };
        let best = match self {
            Reading::Sent => State::best(&all(&|_| true)),
            Reading::ClockPassed => State::best(&all(&|sender| sender.late < state.clock)),
            Reading::LateEqualsEarly => State::best(&all(&|sender| sender.late <= recv.early)),
            Reading::SentLast => all(&|sender| sender.late < recv.early).last().copied(),
            _ => State::best(&all(&|sender| sender.late < recv.early)),
        };
        best.map(|message| message.value)
    }

    fn run(self, table: &Table, choices: &[u32]) -> (State, (u32, u32)) {
        let mut state = State::start(table);
        let mut sent = Vec::new();
        let mut count = 0;
        for choice in choices.chunks(2) {
            let (agent, time) = (choice[0], choice[1]);
            let a = agent as usize;
            let reply = match state.choice_reply(table, agent, time) {
                ACCEPTED | TIME_ABOVE_LATE => match self.deadline(table, &state, a) {
                    Some(late) if time > late => TIME_ABOVE_LATE,
                    _ => ACCEPTED,
                },
                refusal => refusal,
            };
            if reply != ACCEPTED {
                return (state, (reply, count));
            }
            let row = state.current_row(table, a).unwrap();
            let position = state.agents[a].position;
            let found = self.best(table, &state, &sent, row);
            let before = state.agents[a].registers;
            state.take(table, a, time);
            if row.op == RECV {
                let after = &mut state.agents[a];
                after.registers = before;
                match found {
                    Some(value) => {
                        after.registers[usize::from(row.x)] = value;
                        after.position = position + 1;
                    }
                    None => after.position = position + 1 + usize::from(row.n),
                }
            }
            if row.op == SEND {
                sent.push((a, position));
            }
            count += 1;
        }
        (state, (ACCEPTED, count))
    }
}

struct Reader(Reading);

impl Board for Reader {
    fn read(&self, text: &[u8], table: &mut [u32]) -> (u32, u32) {
        reference::read(text, table)
    }
    fn write(&self, table: &[u32], text: &mut [u8]) -> (u32, u32) {
        reference::write(table, text)
    }
    fn check(&self, table: &[u32]) -> u32 {
        reference::check(table)
    }
    fn start(&self, table: &[u32], state: &mut [u32]) -> u32 {
        reference::start(table, state)
    }
    fn pick(&self, table: &[u32], state: &[u32]) -> (u32, u32, u32) {
        reference::pick(table, state)
    }
    fn step(&self, table: &[u32], state: &mut [u32], agent: u32, time: u32) -> u32 {
        reference::step(table, state, agent, time)
    }
    fn run(&self, table: &[u32], state: &mut [u32], choices: &[u32]) -> (u32, u32) {
        match reference::run(table, state, choices) {
            refused @ (BUFFER_TOO_SHORT | ODD_CHOICES | BAD_TABLE, _) => refused,
            _ => {
                let (record, ran) = self.0.run(&Table::from_words(table).unwrap(), choices);
                let words = record.to_words();
                state[..words.len()].copy_from_slice(&words);
                ran
            }
        }
    }
    fn trace(&self, input: &[u8]) -> Vec<u8> {
        reference::trace(input)
    }
}

#[test]
fn each_wrong_reading_is_found_and_the_right_one_is_not() {
    let plan = Plan(vec![(Kind::Run, 3_000), (Kind::LongRun, 3_000)]);
    for reading in [
        Reading::Sent,
        Reading::ClockPassed,
        Reading::OwnDeadline,
        Reading::EndedDeadline,
        Reading::SentLast,
        Reading::LateEqualsEarly,
    ] {
        assert!(compare(&Reader(reading), &plan, 1).is_err(), "not found: {reading:?}");
    }
    compare(&Reader(Reading::Right), &plan, 1).unwrap_or_else(|failure| panic!("{failure}"));
}
