//! What `include/tannoplex.h` says besides the calls, in Rust: sizes, places, ops and replies. It is apart
//! from the archive, so that a tool has them without linking it; `tannoplex` has them all again. A test
//! holds each to the header.

#![warn(missing_docs)]

pub mod ops;
pub mod places;
mod reply;

pub use reply::Reply;

/// Words of a table.
pub const TABLE_WORDS: usize = 2129;
/// Words of a state.
pub const STATE_WORDS: usize = 1105;
/// Most agents of a table, and the agents that a state has words for.
pub const AGENTS: usize = 16;
/// Most rows of an agent.
pub const ROWS: usize = 32;
/// Registers of an agent.
pub const REGISTERS: usize = 4;
/// The last time that a window may reach.
pub const LAST_TIME: u32 = 1_000_000;
/// Bytes of the longest text of a table.
pub const TABLE_TEXT_BYTES: usize = 19_539;
/// Bytes of the longest input of a trace.
pub const TRACE_INPUT_BYTES: usize = 65_536;
/// Bytes of the longest output of a trace.
pub const TRACE_OUTPUT_BYTES: usize = 24_073;
/// Stack that a trace takes at most in the archive, measured as the header tells.
pub const TRACE_STACK_BYTES: usize = 24_576;
/// Stack that a read takes at most in the archive.
pub const READ_STACK_BYTES: usize = 9216;
/// Stack that any other call takes at most in the archive.
pub const STACK_BYTES: usize = 2048;
