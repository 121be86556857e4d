//! The executive for instruction time windows, proved, as a safe Rust crate.
//!
//! A *table* gives each agent its rows, each with a window from `early` to `late`. A *state* says
//! how far each agent is and what was sent. A *choice* is an agent and a time; whether it is
//! accepted, and what it does, is decided by the table and the state alone. However the choices
//! are ordered, each agent passes through the same states.
//!
//! Tables and states are words of 32 bits in buffers that the caller lends, [`TABLE_WORDS`] and
//! [`STATE_WORDS`] long or longer; words past these lengths are never read or written. Nothing is
//! allocated and nothing is kept between calls. Every refusal leaves the lent buffers as they were,
//! with two exceptions: a [`run`] that is refused at a choice leaves the state after the steps that
//! were accepted before it, and a [`trace`] writes its output with the refusal in the last line.
//!
//! ```
//! use tannoplex::{Reply, STATE_WORDS, TABLE_WORDS};
//!
//! let text = b"000000000005000000000000000000000000\n\
//!              010020000000000000070000000100000003\n\
//!              000100000000000000000000000000000000\n\
//!              010130010000000000070000000400000008\n\
//!              FF\n";
//! let mut table = [0; TABLE_WORDS];
//! assert_eq!(tannoplex::read(text, &mut table).reply, Reply::Accepted);
//!
//! let mut state = [0; STATE_WORDS];
//! let ran = tannoplex::run(&table, &mut state, &[0, 3, 1, 4]);
//! assert_eq!((ran.reply, ran.count), (Reply::Accepted, 2));
//! assert_eq!((tannoplex::clock(&state), tannoplex::position(&state, 1)), (4, 1));
//! assert_eq!(tannoplex::register(&state, 1, 1), 5);
//! ```

#![warn(missing_docs)]

mod archive;
#[cfg(not(target_arch = "x86_64"))]
mod emulated;

pub use header::*;

/// The reply of a number that the archive gave.
fn given(number: u32) -> Reply {
    match Reply::try_from(number) {
        Ok(reply) => reply,
        Err(_) => panic!("libboard.a gave reply {number}, which this crate does not know"),
    }
}

/// What [`read`] answers.
#[derive(Clone, Copy, Debug, PartialEq, Eq)]
#[must_use]
pub struct Told {
    /// [`Reply::Accepted`], or why the text was refused.
    pub reply: Reply,
    /// The line that is refused, counted from 1; 0 with [`Reply::Accepted`] and
    /// [`Reply::BufferTooShort`].
    pub line: u32,
}

/// What [`write`] answers.
#[derive(Clone, Copy, Debug, PartialEq, Eq)]
#[must_use]
pub struct Wrote {
    /// [`Reply::Accepted`], or why nothing was written.
    pub reply: Reply,
    /// The length of the table's text in bytes, also with [`Reply::TextTooLong`]; 0 with
    /// [`Reply::BufferTooShort`] and [`Reply::BadTable`].
    pub length: usize,
}

/// What [`pick`] answers.
#[derive(Clone, Copy, Debug, PartialEq, Eq)]
#[must_use]
pub struct Picked {
    /// [`Reply::Accepted`], [`Reply::AgentEnded`] where all agents have ended, or why nothing can be
    /// picked.
    pub reply: Reply,
    /// The agent that was picked; 0 with a refusal.
    pub agent: u32,
    /// The time that was picked for it; 0 with a refusal.
    pub time: u32,
}

/// What [`run`] answers.
#[derive(Clone, Copy, Debug, PartialEq, Eq)]
#[must_use]
pub struct Ran {
    /// [`Reply::Accepted`] where every choice was accepted, else the first refusal.
    pub reply: Reply,
    /// How many steps were accepted before it.
    pub count: u32,
}

/// What [`trace`] answers.
#[derive(Clone, Copy, Debug, PartialEq, Eq)]
#[must_use]
pub struct Traced {
    /// The reply in the output's last line, or [`Reply::BufferTooShort`].
    pub reply: Reply,
    /// How many bytes were written.
    pub length: usize,
}

/// Reads the text of a table into `table`.
///
/// Replies [`Reply::BufferTooShort`] first, then one of 2, 18, 19 and 3 for the earliest line, the first
/// in this order that holds of it, then 4 to 6 for the first row of all, then 7 for the first row that
/// goes on to one whose early or late is below its own, with its own line. On success the table's words
/// are written, unused ones 0.
pub fn read(text: &[u8], table: &mut [u32]) -> Told {
    // SAFETY: both pointers come with the lengths of the slices they are taken from, and the
    // borrows last until the call returns; one is exclusive, so the buffers do not overlap.
    let told = unsafe {
        archive::tannoplex_read(text.as_ptr(), text.len(), table.as_mut_ptr(), table.len())
    };
    Told { reply: given(told.reply), line: told.line }
}

/// Writes the text of a table into `text`, whose bytes after it stay as they were.
///
/// Replies [`Reply::BufferTooShort`] for too few words of the table, [`Reply::BadTable`], then
/// [`Reply::TextTooLong`] with the length needed. A buffer of exactly that length is long enough, and
/// one of [`TABLE_TEXT_BYTES`] for every table.
///
/// [`read`] of what was written gives the same words back, and a text that [`read`] accepts is written
/// out again byte for byte:
///
/// ```
/// use tannoplex::{Reply, TABLE_TEXT_BYTES, TABLE_WORDS};
///
/// let text = b"000000000005000000000000000000000000\n\
///              010020000000000000070000000100000003\n\
///              FF\n";
/// let mut table = [0; TABLE_WORDS];
/// assert_eq!(tannoplex::read(text, &mut table).reply, Reply::Accepted);
///
/// let mut again = [0; TABLE_TEXT_BYTES];
/// let wrote = tannoplex::write(&table, &mut again);
/// assert_eq!(wrote.reply, Reply::Accepted);
/// assert_eq!(&again[..wrote.length], text);
/// ```
pub fn write(table: &[u32], text: &mut [u8]) -> Wrote {
    // SAFETY: as in `read`.
    let wrote = unsafe {
        archive::tannoplex_write(table.as_ptr(), table.len(), text.as_mut_ptr(), text.len())
    };
    Wrote { reply: given(wrote.reply), length: wrote.length as usize }
}

/// Checks the words of a table: [`Reply::BufferTooShort`], [`Reply::BadTable`] or
/// [`Reply::Accepted`].
pub fn check(table: &[u32]) -> Reply {
    // SAFETY: as in `read`; nothing is written.
    given(unsafe { archive::tannoplex_check(table.as_ptr(), table.len()) })
}

/// Makes the start state of a table: clock 1, positions 0, the table's registers, no marks.
pub fn start(table: &[u32], state: &mut [u32]) -> Reply {
    // SAFETY: as in `read`.
    given(unsafe {
        archive::tannoplex_start(table.as_ptr(), table.len(), state.as_mut_ptr(), state.len())
    })
}

/// Picks a choice that [`step`] accepts: of the agents that have not ended the one whose row has the
/// least late, of several the lowest, at the later of the clock and the early of that row.
///
/// Replies [`Reply::BufferTooShort`], [`Reply::BadTable`], [`Reply::BadState`], then
/// [`Reply::AgentEnded`] where all agents have ended. There is no other refusal: while any agent has
/// not ended some choice is accepted. Picks and steps end all agents in no more steps than the table
/// has rows, and so does any loop that takes an accepted choice while there is one:
///
/// ```
/// use tannoplex::{Reply, STATE_WORDS, TABLE_WORDS};
///
/// let text = b"000000000005000000000000000000000000\n\
///              010020000000000000070000000100000003\n\
///              000100000000000000000000000000000000\n\
///              010130010000000000070000000400000008\n\
///              FF\n";
/// let mut table = [0; TABLE_WORDS];
/// assert_eq!(tannoplex::read(text, &mut table).reply, Reply::Accepted);
///
/// let mut state = [0; STATE_WORDS];
/// assert_eq!(tannoplex::start(&table, &mut state), Reply::Accepted);
/// let mut choices = Vec::new();
/// let mut picked = tannoplex::pick(&table, &state);
/// while picked.reply.is_accepted() {
///     let reply = tannoplex::step(&table, &mut state, picked.agent, picked.time);
///     assert_eq!(reply, Reply::Accepted);
///     choices.push((picked.agent, picked.time));
///     picked = tannoplex::pick(&table, &state);
/// }
/// assert_eq!(picked.reply, Reply::AgentEnded);
/// assert_eq!(choices, [(0, 1), (1, 4)]);
/// ```
pub fn pick(table: &[u32], state: &[u32]) -> Picked {
    // SAFETY: as in `read`; nothing is written, so the two slices may be one.
    let picked = unsafe {
        archive::tannoplex_pick(table.as_ptr(), table.len(), state.as_ptr(), state.len())
    };
    Picked { reply: given(picked.reply), agent: picked.agent, time: picked.time }
}

/// One step of `agent` at `time`. Any numbers may be given.
pub fn step(table: &[u32], state: &mut [u32], agent: u32, time: u32) -> Reply {
    // SAFETY: as in `read`.
    given(unsafe {
        archive::tannoplex_step(
            table.as_ptr(),
            table.len(),
            state.as_mut_ptr(),
            state.len(),
            agent,
            time,
        )
    })
}

/// A run from the start state over `choices`, two words each: agent, then time.
pub fn run(table: &[u32], state: &mut [u32], choices: &[u32]) -> Ran {
    // SAFETY: as in `read`; the two shared slices may be one, since neither is written.
    let ran = unsafe {
        archive::tannoplex_run(
            table.as_ptr(),
            table.len(),
            state.as_mut_ptr(),
            state.len(),
            choices.as_ptr(),
            choices.len(),
        )
    };
    Ran { reply: given(ran.reply), count: ran.count }
}

/// Traces an input, a table's text and then choice lines, into `out`, which has at least
/// [`TRACE_OUTPUT_BYTES`]; bytes after the text stay as they were.
///
/// A choice line is refused with 2, 18 or 19 once the table is accepted and before any step; only the
/// first byte `02` is known there.
pub fn trace(input: &[u8], out: &mut [u8]) -> Traced {
    // SAFETY: as in `read`.
    let traced = unsafe {
        archive::tannoplex_trace(input.as_ptr(), input.len(), out.as_mut_ptr(), out.len())
    };
    Traced { reply: given(traced.reply), length: traced.length }
}

/// The clock of a state.
///
/// This and the next two functions only read a word; they check nothing, and panic where the buffer
/// is too short or the agent or register does not exist.
#[must_use]
pub fn clock(state: &[u32]) -> u32 {
    state[places::STATE_CLOCK]
}

/// The position of an agent; equal to its row count once it has ended.
#[must_use]
pub fn position(state: &[u32], agent: usize) -> u32 {
    state[places::state_position(agent)]
}

/// A register of an agent.
#[must_use]
pub fn register(state: &[u32], agent: usize, register: usize) -> u32 {
    state[places::state_register(agent, register)]
}
