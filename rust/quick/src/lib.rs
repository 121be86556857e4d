//! Document 01, as change requests T-01 to T-04 leave it, in optimised Rust that does not allocate:
//! what the benchmark measures the proved library against. `cases` compares it with the reference.
//!
//! It works on the lent words where they stand and tests many words without a branch for each. Its
//! cost is that of the paper's own account: one check of the table, for each step at most the number
//! of agents, and for a RECV the places that it looks at, which are all places of the agents that there
//! are. It keeps no index between steps. The calls named `narrow` look only at rows that their agent
//! has passed, as change request T-06 asks.

#![no_std]

mod digits;
mod fit;
mod reader;
mod steps;
mod table;
mod trace;
mod writer;

pub use reader::read;
pub use steps::{pick, run, run_narrow, start, step, step_narrow};
pub use table::check;
pub use trace::{trace, OUTPUT_BYTES};
pub use writer::write;

/// Words of a table.
pub const TABLE_WORDS: usize = 2129;
/// Words of a state.
pub const STATE_WORDS: usize = 1105;

const AGENTS: usize = 16;
const ROWS: usize = 32;
const LAST_TIME: u32 = 1_000_000;

/// The reply numbers, which the paper's table lists.
mod reply {
    pub const ACCEPTED: u32 = 0;
    pub const BUFFER_TOO_SHORT: u32 = 1;
    pub const BAD_CHARACTER: u32 = 2;
    pub const LINE_OUT_OF_PLACE: u32 = 3;
    pub const BAD_FIELD: u32 = 4;
    pub const BAD_TARGET: u32 = 5;
    pub const BAD_WINDOW: u32 = 6;
    pub const WINDOW_GOES_BACK: u32 = 7;
    pub const BAD_TABLE: u32 = 8;
    pub const BAD_STATE: u32 = 9;
    pub const NO_SUCH_AGENT: u32 = 10;
    pub const AGENT_ENDED: u32 = 11;
    pub const TIME_BELOW_CLOCK: u32 = 12;
    pub const TIME_BELOW_EARLY: u32 = 13;
    pub const TIME_ABOVE_LATE: u32 = 15;
    pub const ODD_CHOICES: u32 = 16;
    pub const INPUT_TOO_LONG: u32 = 17;
    pub const BAD_LENGTH: u32 = 18;
    pub const UNKNOWN_FIRST_BYTE: u32 = 19;
    pub const TEXT_TOO_LONG: u32 = 20;
}

/// Whether any of these words is not 0.
fn any_set(words: &[u32]) -> bool {
    words.iter().fold(0, |all, word| all | word) != 0
}
