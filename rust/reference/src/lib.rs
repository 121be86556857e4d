//! Document 01 once more, as change requests T-01 to T-04 of document 02 leave it, in plain Rust,
//! written from the papers alone; `pick`, which no paper has, from docs/DECISIONS.md (65).
//!
//! It is here to be compared with the proved library, so it is direct and not quick: words are
//! decoded into tables and states, worked on as such, and encoded again.

pub mod executive;
pub mod lines;
pub mod reader;
pub mod reply;
pub mod table;
pub mod trace;
pub mod writer;

pub use executive::{fits, pick, run, start, step, State};
pub use reader::read;
pub use table::{check, Agent, Row, Table};
pub use trace::trace;
pub use writer::write;

/// Words of a table.
pub const TABLE_WORDS: usize = 2129;
/// Words of a state.
pub const STATE_WORDS: usize = 1105;
/// Most agents of a table.
pub const AGENTS: usize = 16;
/// Most rows of an agent.
pub const ROWS: usize = 32;
/// Registers of an agent.
pub const REGISTERS: usize = 4;
/// The last time that a window may reach.
pub const LAST_TIME: u32 = 1_000_000;
