//! The proved library and the trace program as a board.

use std::ffi::OsStr;
use std::io::{ErrorKind, Write};
use std::path::{Path, PathBuf};
use std::process::{Command, Stdio};

use cases::Board;

/// The archive, which the crate `tannoplex` calls, and the trace program beside it.
pub struct Archive {
    /// What is put before the trace program to run it: nothing, or an emulator with its words.
    runner: Vec<String>,
    trace: PathBuf,
}

/// The words before a program for x86-64.
fn runner() -> Result<Vec<String>, String> {
    if cfg!(target_arch = "x86_64") {
        return Ok(Vec::new());
    }
    let tool = Path::new(env!("CARGO_MANIFEST_DIR")).join("../../tools/x86");
    let told = Command::new(tool).arg("runner").stderr(Stdio::inherit()).output();
    match told {
        Ok(told) if told.status.success() => {
            Ok(String::from_utf8_lossy(&told.stdout).lines().map(str::to_string).collect())
        }
        _ => Err("tools/x86 names no emulator for crates/trace/out/trace".to_string()),
    }
}

impl Archive {
    pub fn new() -> Result<Archive, String> {
        let root = Path::new(env!("CARGO_MANIFEST_DIR")).join("../..");
        match Command::new(root.join("tools/proved")).arg("trace").status() {
            Ok(status) if status.success() => {}
            _ => return Err("tools/proved trace failed: there is no proved program".to_string()),
        }
        Ok(Archive { runner: runner()?, trace: root.join("crates/trace/out/trace") })
    }
}

impl Board for Archive {
    fn read(&self, text: &[u8], table: &mut [u32]) -> (u32, u32) {
        let told = tannoplex::read(text, table);
        (told.reply.number(), told.line)
    }

    fn write(&self, table: &[u32], text: &mut [u8]) -> (u32, u32) {
        let wrote = tannoplex::write(table, text);
        (wrote.reply.number(), wrote.length as u32)
    }

    fn check(&self, table: &[u32]) -> u32 {
        tannoplex::check(table).number()
    }

    fn start(&self, table: &[u32], state: &mut [u32]) -> u32 {
        tannoplex::start(table, state).number()
    }

    fn pick(&self, table: &[u32], state: &[u32]) -> (u32, u32, u32) {
        let picked = tannoplex::pick(table, state);
        (picked.reply.number(), picked.agent, picked.time)
    }

    fn step(&self, table: &[u32], state: &mut [u32], agent: u32, time: u32) -> u32 {
        tannoplex::step(table, state, agent, time).number()
    }

    fn run(&self, table: &[u32], state: &mut [u32], choices: &[u32]) -> (u32, u32) {
        let ran = tannoplex::run(table, state, choices);
        (ran.reply.number(), ran.count)
    }

    fn trace(&self, input: &[u8]) -> Vec<u8> {
        let mut words = self.runner.iter().map(OsStr::new).chain([self.trace.as_os_str()]);
        let mut program = Command::new(words.next().expect("the program"))
            .args(words)
            .stdin(Stdio::piped())
            .stdout(Stdio::piped())
            .spawn()
            .unwrap_or_else(|error| panic!("{}: {error}", self.trace.display()));
        let mut stdin = program.stdin.take().expect("piped");
        let output = std::thread::scope(|scope| {
            // From a thread of its own, so that neither side waits for the other.
            scope.spawn(move || match stdin.write_all(input) {
                // The program need not read what is past the longest input.
                Err(error) if error.kind() == ErrorKind::BrokenPipe => {}
                written => written.expect("writing to the trace program"),
            });
            program.wait_with_output().expect("the trace program's output")
        });
        assert!(output.status.success(), "the trace program: {}", output.status);

        // The archive's trace gives the same, and leaves what stands after it.
        let mut out = vec![b'*'; tannoplex::TRACE_OUTPUT_BYTES + 1];
        let traced = tannoplex::trace(input, &mut out);
        let (text, rest) = out.split_at(traced.length);
        let same = text == output.stdout && rest.iter().all(|&byte| byte == b'*');
        assert!(same, "the archive's trace and the trace program differ on input {input:?}");
        output.stdout
    }
}
