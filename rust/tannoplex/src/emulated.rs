//! The archive's functions on a machine that is not x86-64, with the signatures of the archive's own.
//!
//! One process for all threads, `bridge.c` linked with the archive, runs under the toolchain's
//! emulator from the first call on. A call sends it a memory with copies of the lent buffers among
//! guard bytes, and gets it back as the archive left it: one buffer at most may have been written,
//! and nothing else.
//!
//! They have the archive's names too, for the C tests that `emulated-archive` is linked with. A call
//! that cannot be handed over ends the process: there is no reply for it.

use std::io::{self, Read, Write};
use std::process::{Child, ChildStdin, ChildStdout, Command, Stdio};
use std::slice;
use std::sync::Mutex;

use crate::archive::{Picked, Ran, Told, Traced, Wrote};

#[cfg(not(target_endian = "little"))]
compile_error!("words go to the emulated archive as they lie in memory, low byte first");

const TOOL: &str = concat!(env!("CARGO_MANIFEST_DIR"), "/../../tools/x86");
const BRIDGE: &str = concat!(env!("OUT_DIR"), "/bridge");

/// Guard bytes on either side of a buffer. Words are aligned as `u32` is there, and no better.
const GUARD: usize = 36;
const GUARD_BYTE: u8 = 0xA5;

struct Bridge {
    program: Child,
    calls: ChildStdin,
    answers: ChildStdout,
}

static RUNNING: Mutex<Option<Bridge>> = Mutex::new(None);

impl Bridge {
    fn start() -> Bridge {
        let mut program = Command::new(TOOL)
            .args(["run", BRIDGE])
            .stdin(Stdio::piped())
            .stdout(Stdio::piped())
            .spawn()
            .unwrap_or_else(|error| panic!("{TOOL}: {error}"));
        let calls = program.stdin.take().expect("piped");
        let answers = program.stdout.take().expect("piped");
        Bridge { program, calls, answers }
    }

    fn exchange(&mut self, call: &[u8], memory: &mut [u8]) -> io::Result<Answer> {
        self.calls.write_all(call)?;
        let mut answer = [[0; 8]; 3];
        self.answers.read_exact(answer.as_flattened_mut())?;
        self.answers.read_exact(memory)?;
        let [reply, more, time] = answer.map(u64::from_le_bytes);
        Ok(Answer { reply: reply as u32, more, time: time as u32 })
    }
}

/// What a function answers: a reply, the line, count, length or agent, and the time.
struct Answer {
    reply: u32,
    more: u64,
    time: u32,
}

/// The functions, by their numbers in `bridge.c`.
#[derive(Clone, Copy, Debug)]
enum Function {
    Read,
    Check,
    Start,
    Step,
    Run,
    Trace,
    Write,
    Pick,
}

/// A lent buffer: its pointer, which may be NULL, and its length in bytes.
struct Lent(*mut u8, usize);

impl Lent {
    const NONE: Lent = Lent(std::ptr::null_mut(), 0);

    fn bytes(pointer: *const u8, length: usize) -> Lent {
        Lent(pointer.cast_mut(), length)
    }

    fn words(pointer: *const u32, length: usize) -> Lent {
        Lent(pointer.cast_mut().cast(), length * size_of::<u32>())
    }
}

/// Has a function called, and gives what it answers.
///
/// # Safety
///
/// Each buffer is NULL with length 0, or good for reads of its length. `written` is good for writes
/// as well, and overlaps no other.
unsafe fn call(
    function: Function,
    first: Lent,
    written: Lent,
    third: Lent,
    [agent, time]: [u32; 2],
) -> Answer {
    let lent = [&first, &written, &third];
    let mut memory = vec![GUARD_BYTE; GUARD];
    let mut nulls = 0;
    let begins = [0, 1, 2].map(|i| {
        let &Lent(pointer, length) = lent[i];
        let begin = memory.len();
        if pointer.is_null() {
            assert_eq!(length, 0, "NULL is lent with length 0 alone");
            nulls |= 1 << i;
        } else {
            // SAFETY: the pointer is good for reads of this length.
            memory.extend_from_slice(unsafe { slice::from_raw_parts(pointer, length) });
        }
        memory.resize(memory.len().next_multiple_of(size_of::<u32>()) + GUARD, GUARD_BYTE);
        begin
    });

    let mut sent = Vec::new();
    for number in [function as u32, agent, time, nulls] {
        sent.extend(number.to_le_bytes());
    }
    for number in begins.into_iter().chain(lent.map(|lent| lent.1)).chain([memory.len()]) {
        sent.extend((number as u64).to_le_bytes());
    }
    sent.extend(&memory);

    let mut left = vec![0; memory.len()];
    let mut running = RUNNING.lock().expect("the emulated libboard.a failed in another thread");
    let bridge = running.get_or_insert_with(Bridge::start);
    let answer = bridge.exchange(&sent, &mut left).unwrap_or_else(|error| {
        let ended = bridge.program.wait().map_or_else(|e| e.to_string(), |s| s.to_string());
        panic!("the emulated libboard.a is gone in {function:?}: {error}; it ended with {ended}")
    });
    drop(running);

    let (begin, end) = (begins[1], begins[1] + written.1);
    let kept = left[..begin] == memory[..begin] && left[end..] == memory[end..];
    assert!(kept, "libboard.a wrote outside the buffer that {function:?} may write");
    if written.1 > 0 {
        // SAFETY: a buffer that is not empty is good for writes, and overlaps no `Vec`.
        unsafe { written.0.copy_from_nonoverlapping(left[begin..end].as_ptr(), written.1) };
    }
    answer
}

#[no_mangle]
pub unsafe extern "C" fn tannoplex_read(
    text: *const u8,
    text_len: usize,
    table: *mut u32,
    table_len: usize,
) -> Told {
    let (text, table) = (Lent::bytes(text, text_len), Lent::words(table, table_len));
    // SAFETY: the caller lends what the archive's function asks for, and so it is below.
    let answer = unsafe { call(Function::Read, text, table, Lent::NONE, [0, 0]) };
    Told { reply: answer.reply, line: answer.more as u32 }
}

#[no_mangle]
pub unsafe extern "C" fn tannoplex_write(
    table: *const u32,
    table_len: usize,
    text: *mut u8,
    text_len: usize,
) -> Wrote {
    let (table, text) = (Lent::words(table, table_len), Lent::bytes(text, text_len));
    let answer = unsafe { call(Function::Write, table, text, Lent::NONE, [0, 0]) };
    Wrote { reply: answer.reply, length: answer.more as u32 }
}

#[no_mangle]
pub unsafe extern "C" fn tannoplex_check(table: *const u32, table_len: usize) -> u32 {
    let table = Lent::words(table, table_len);
    unsafe { call(Function::Check, table, Lent::NONE, Lent::NONE, [0, 0]) }.reply
}

#[no_mangle]
pub unsafe extern "C" fn tannoplex_start(
    table: *const u32,
    table_len: usize,
    state: *mut u32,
    state_len: usize,
) -> u32 {
    let (table, state) = (Lent::words(table, table_len), Lent::words(state, state_len));
    unsafe { call(Function::Start, table, state, Lent::NONE, [0, 0]) }.reply
}

#[no_mangle]
pub unsafe extern "C" fn tannoplex_pick(
    table: *const u32,
    table_len: usize,
    state: *const u32,
    state_len: usize,
) -> Picked {
    let (table, state) = (Lent::words(table, table_len), Lent::words(state, state_len));
    // Neither is written: the state goes where a buffer that is only read goes.
    let answer = unsafe { call(Function::Pick, table, Lent::NONE, state, [0, 0]) };
    Picked { reply: answer.reply, agent: answer.more as u32, time: answer.time }
}

#[no_mangle]
pub unsafe extern "C" fn tannoplex_step(
    table: *const u32,
    table_len: usize,
    state: *mut u32,
    state_len: usize,
    agent: u32,
    time: u32,
) -> u32 {
    let (table, state) = (Lent::words(table, table_len), Lent::words(state, state_len));
    unsafe { call(Function::Step, table, state, Lent::NONE, [agent, time]) }.reply
}

#[no_mangle]
pub unsafe extern "C" fn tannoplex_run(
    table: *const u32,
    table_len: usize,
    state: *mut u32,
    state_len: usize,
    choices: *const u32,
    choices_len: usize,
) -> Ran {
    let (table, state) = (Lent::words(table, table_len), Lent::words(state, state_len));
    let choices = Lent::words(choices, choices_len);
    let answer = unsafe { call(Function::Run, table, state, choices, [0, 0]) };
    Ran { reply: answer.reply, count: answer.more as u32 }
}

#[no_mangle]
pub unsafe extern "C" fn tannoplex_trace(
    input: *const u8,
    input_len: usize,
    out: *mut u8,
    out_len: usize,
) -> Traced {
    let (input, out) = (Lent::bytes(input, input_len), Lent::bytes(out, out_len));
    let answer = unsafe { call(Function::Trace, input, out, Lent::NONE, [0, 0]) };
    Traced { reply: answer.reply, length: answer.more as usize }
}
