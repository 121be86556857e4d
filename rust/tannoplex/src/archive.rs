//! The archive's functions, as `include/tannoplex.h` declares them.

/// `tannoplex_told`.
#[repr(C)]
#[derive(Clone, Copy)]
pub struct Told {
    pub reply: u32,
    pub line: u32,
}

/// `tannoplex_wrote`.
#[repr(C)]
#[derive(Clone, Copy)]
pub struct Wrote {
    pub reply: u32,
    pub length: u32,
}

/// `tannoplex_picked`.
#[repr(C)]
#[derive(Clone, Copy)]
pub struct Picked {
    pub reply: u32,
    pub agent: u32,
    pub time: u32,
}

/// `tannoplex_ran`.
#[repr(C)]
#[derive(Clone, Copy)]
pub struct Ran {
    pub reply: u32,
    pub count: u32,
}

/// `tannoplex_traced`.
#[repr(C)]
#[derive(Clone, Copy)]
pub struct Traced {
    pub reply: u32,
    pub length: usize,
}

/// The archive is for x86-64: elsewhere it is called in an emulated process.
#[cfg(not(target_arch = "x86_64"))]
pub use crate::emulated::*;

#[cfg(target_arch = "x86_64")]
extern "C" {
    pub fn tannoplex_read(
        text: *const u8,
        text_len: usize,
        table: *mut u32,
        table_len: usize,
    ) -> Told;

    pub fn tannoplex_write(
        table: *const u32,
        table_len: usize,
        text: *mut u8,
        text_len: usize,
    ) -> Wrote;

    pub fn tannoplex_check(table: *const u32, table_len: usize) -> u32;

    pub fn tannoplex_start(
        table: *const u32,
        table_len: usize,
        state: *mut u32,
        state_len: usize,
    ) -> u32;

    pub fn tannoplex_pick(
        table: *const u32,
        table_len: usize,
        state: *const u32,
        state_len: usize,
    ) -> Picked;

    pub fn tannoplex_step(
        table: *const u32,
        table_len: usize,
        state: *mut u32,
        state_len: usize,
        agent: u32,
        time: u32,
    ) -> u32;

    pub fn tannoplex_run(
        table: *const u32,
        table_len: usize,
        state: *mut u32,
        state_len: usize,
        choices: *const u32,
        choices_len: usize,
    ) -> Ran;

    pub fn tannoplex_trace(
        input: *const u8,
        input_len: usize,
        out: *mut u8,
        out_len: usize,
    ) -> Traced;
}

#[cfg(test)]
mod tests {
    use super::*;
    use std::ptr::{null, null_mut};

    /// The header promises C callers that a NULL pointer with length 0 is an empty buffer.
    #[test]
    fn null_with_length_0_is_an_empty_buffer() {
        let text = b"000000000000000000000000000000000000\n\
                     010011000000000000000000000100000003\n\
                     FF\n";
        let mut table = [5; crate::TABLE_WORDS];
        let mut state = [5; crate::STATE_WORDS];
        let (words, state_words) = (table.len(), state.len());
        // SAFETY: every length but 0 is that of the array it comes with.
        unsafe {
            let told = tannoplex_read(null(), 0, null_mut(), 0);
            assert_eq!((told.reply, told.line), (1, 0));
            let told = tannoplex_read(null(), 0, table.as_mut_ptr(), words);
            assert_eq!((told.reply, told.line, table), (3, 1, [5; crate::TABLE_WORDS]));
            let told = tannoplex_read(text.as_ptr(), text.len(), table.as_mut_ptr(), words);
            assert_eq!((told.reply, told.line), (0, 0));

            let mut again = [b'*'; 77];
            let wrote = tannoplex_write(null(), 0, null_mut(), 0);
            assert_eq!((wrote.reply, wrote.length), (1, 0));
            let wrote = tannoplex_write(null(), 0, again.as_mut_ptr(), again.len());
            assert_eq!((wrote.reply, wrote.length, again), (1, 0, [b'*'; 77]));
            let wrote = tannoplex_write(table.as_ptr(), words, null_mut(), 0);
            assert_eq!((wrote.reply, wrote.length), (20, 77));
            let wrote = tannoplex_write(table.as_ptr(), words, again.as_mut_ptr(), again.len());
            assert_eq!((wrote.reply, wrote.length, &again), (0, 77, text));

            assert_eq!(tannoplex_check(null(), 0), 1);
            assert_eq!(tannoplex_start(null(), 0, state.as_mut_ptr(), state_words), 1);
            assert_eq!(tannoplex_start(table.as_ptr(), words, null_mut(), 0), 1);
            let picked = tannoplex_pick(null(), 0, null(), 0);
            assert_eq!((picked.reply, picked.agent, picked.time), (1, 0, 0));
            let picked = tannoplex_pick(null(), 0, state.as_ptr(), state_words);
            assert_eq!((picked.reply, picked.agent, picked.time), (1, 0, 0));
            let picked = tannoplex_pick(table.as_ptr(), words, null(), 0);
            assert_eq!((picked.reply, picked.agent, picked.time), (1, 0, 0));
            assert_eq!(tannoplex_step(null(), 0, state.as_mut_ptr(), state_words, 0, 1), 1);
            assert_eq!(tannoplex_step(table.as_ptr(), words, null_mut(), 0, 0, 1), 1);
            assert_eq!(state, [5; crate::STATE_WORDS]);

            let ran = tannoplex_run(null(), 0, null_mut(), 0, null(), 0);
            assert_eq!((ran.reply, ran.count), (1, 0));
            let traced = tannoplex_trace(null(), 0, null_mut(), 0);
            assert_eq!((traced.reply, traced.length), (1, 0));
            let state = state.as_mut_ptr();
            let ran = tannoplex_run(table.as_ptr(), words, state, state_words, null(), 0);
            assert_eq!((ran.reply, ran.count), (0, 0));
        }
        assert_eq!(state[..3], [1, 0, 0]);
    }
}
