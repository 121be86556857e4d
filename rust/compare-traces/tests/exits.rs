//! The built program on files: its exits are 0, 1 and 2, and nothing else, whatever it is given.

use std::ffi::{OsStr, OsString};
use std::fs::{self, File, OpenOptions};
use std::io;
use std::os::unix::ffi::OsStrExt;
use std::path::{Path, PathBuf};
use std::process::{Command, Output, Stdio};

const GOOD: &str = "0300010000000300000005000000000000000000000000
0301010000000400000000000000050000000000000000
FE000002
";
/// Agent 1's only, so a beginning of the good one.
const SHORT: &str = "0301010000000400000000000000050000000000000000\nFE000001\n";
const OF_AGENT_2: &str = "0302010000000400000000000000050000000000000000\nFE000001\n";
const REFUSED: &str = "FE020001\n";

/// A folder of its own for each test.
struct Folder(PathBuf);

impl Folder {
    fn new(test: &str) -> Folder {
        let folder = Path::new(env!("CARGO_TARGET_TMPDIR")).join(test);
        let _ = fs::remove_dir_all(&folder);
        fs::create_dir_all(&folder).unwrap();
        Folder(folder)
    }

    fn with(self, name: impl AsRef<OsStr>, text: &str) -> Folder {
        fs::write(self.0.join(name.as_ref()), text).unwrap();
        self
    }

    /// The program with these arguments, its working folder this one.
    fn command<A: AsRef<OsStr>>(&self, arguments: &[A]) -> Command {
        let mut command = Command::new(env!("CARGO_BIN_EXE_compare-traces"));
        command.current_dir(&self.0).args(arguments).stdin(Stdio::null());
        command
    }

    fn run<A: AsRef<OsStr>>(&self, arguments: &[A]) -> Ended {
        Ended::of(self.command(arguments).output().unwrap())
    }
}

#[derive(Debug)]
struct Ended {
    exit: Option<i32>,
    out: String,
    err: String,
}

impl Ended {
    fn of(output: Output) -> Ended {
        let text = |bytes| String::from_utf8(bytes).unwrap();
        Ended { exit: output.status.code(), out: text(output.stdout), err: text(output.stderr) }
    }

    /// A verdict: something on standard output, and nothing on the other.
    fn assert_verdict(&self, exit: i32, last_line: &str) {
        assert_eq!((self.exit, &self.err[..]), (Some(exit), ""), "{self:?}");
        assert_eq!(self.out.lines().last(), Some(last_line));
    }

    /// No verdict: a message on standard error, and nothing on the other.
    fn assert_failed(&self, message: &str) {
        assert_eq!((self.exit, &self.out[..]), (Some(2), ""), "{self:?}");
        assert!(self.err.starts_with(message), "{self:?}");
    }
}

fn full_disk() -> File {
    OpenOptions::new().write(true).open("/dev/full").unwrap()
}

#[test]
fn a_good_pair_agrees() {
    let folder = Folder::new("good").with("one", GOOD).with("other", GOOD);
    let agree = "2 agents agree in all 2 states that both show";
    folder.run(&["one", "other"]).assert_verdict(0, agree);
    folder.run(&["--whole", "one", "other"]).assert_verdict(0, agree);
}

#[test]
fn an_altered_register_differs() {
    let altered = GOOD.replace("0300010000000300000005", "0300010000000300000007");
    assert_ne!(altered, GOOD);
    let folder = Folder::new("altered").with("one", GOOD).with("other", &altered);
    let ended = folder.run(&["one", "other"]);
    ended.assert_verdict(1, "difference: agent 0 after its step 1");
    let told = "one:1    position 01, registers 00000005 00000000 00000000 00000000\n\
                other:1  position 01, registers 00000007 00000000 00000000 00000000\n";
    assert!(ended.out.contains(told), "{}", ended.out);
}

#[test]
fn a_refused_one_does_not_agree_with_a_good_one() {
    let folder = Folder::new("refused").with("good", GOOD).with("refused", REFUSED);
    let ended = folder.run(&["good", "refused"]);
    let refusal = "refusal, not a difference: only the second was refused; nothing was compared";
    ended.assert_verdict(1, refusal);
    let told =
        "2: a character other than 0 to 9 and A to F, or no newline: look for changed letters, \
                spaces, a CR or a cut end (line 1 of its input)\n";
    assert!(ended.out.contains(told), "{}", ended.out);
}

#[test]
fn no_common_agent_is_no_agreement() {
    let folder = Folder::new("no-common-agent").with("one", SHORT).with("other", OF_AGENT_2);
    let ended = folder.run(&["one", "other"]);
    let nothing =
        "refusal, not a difference: nothing can be compared, since no agent has a step on both sides";
    ended.assert_verdict(1, nothing);
    assert!(ended.out.contains("    1       1       0  only in the first\n"), "{}", ended.out);
    assert!(ended.out.contains("    2       0       1  only in the second\n"), "{}", ended.out);
}

#[test]
fn whole_asks_for_equal_lengths() {
    let folder = Folder::new("whole").with("long", GOOD).with("short", SHORT);
    let agree = "1 agent agrees in the 1 state that both show";
    folder.run(&["long", "short"]).assert_verdict(0, agree);
    let not_whole = "not whole, not a difference: agent 0 is shown to step 1 in the first, \
                     0 in the second; 1 agent agrees in the 1 state that both show";
    folder.run(&["--whole", "long", "short"]).assert_verdict(1, not_whole);
    folder.run(&["long", "short", "--whole"]).assert_verdict(1, not_whole);
}

#[test]
fn a_closed_pipe_leaves_the_verdict_to_the_exit() {
    let folder = Folder::new("closed-pipe").with("one", GOOD).with("other", GOOD);
    let folder = folder.with("refused", REFUSED);
    for (other, exit) in [("other", 0), ("refused", 1)] {
        let (reader, writer) = io::pipe().unwrap();
        drop(reader);
        let ended = Ended::of(folder.command(&["one", other]).stdout(writer).output().unwrap());
        assert_eq!((ended.exit, &ended.err[..]), (Some(exit), ""));
    }
}

#[test]
fn closed_outputs_leave_the_verdict_to_the_exit() {
    let folder = Folder::new("closed-output").with("one", GOOD).with("refused", REFUSED);
    for (other, exit) in [("one", 0), ("refused", 1), ("missing", 2)] {
        let status = Command::new("sh")
            .args(["-c", "exec \"$@\" <&- >&- 2>&-", "sh", env!("CARGO_BIN_EXE_compare-traces")])
            .args(["one", other])
            .current_dir(&folder.0)
            .status();
        assert_eq!(status.unwrap().code(), Some(exit));
    }
}

#[test]
fn a_full_disk_is_told() {
    let folder = Folder::new("full-disk").with("one", GOOD).with("other", GOOD);
    for arguments in [&["one", "other"][..], &["--help"]] {
        let ended = Ended::of(folder.command(arguments).stdout(full_disk()).output().unwrap());
        ended.assert_failed("tools/compare: the report cannot be written: ");
    }
    let ended =
        Ended::of(folder.command(&["one", "missing"]).stderr(full_disk()).output().unwrap());
    ended.assert_failed("");
}

#[test]
fn a_name_may_be_no_text() {
    let name = OsStr::from_bytes(b"one\xff\x1b");
    let folder = Folder::new("no-text").with(name, GOOD).with("other", REFUSED);
    let ended = folder.run(&[name, name]);
    ended.assert_verdict(0, "2 agents agree in all 2 states that both show");
    assert!(ended.out.contains("first   one\\xff\\u{1b}  "), "{}", ended.out);
    let missing = OsStr::from_bytes(b"\xfe");
    folder.run(&[name, missing]).assert_failed("tools/compare: \\xfe: ");
    let option = OsStr::from_bytes(b"-\xfe");
    folder.run(&[name, option]).assert_failed("tools/compare: unknown option -\\xfe\nusage: ");
}

#[test]
fn what_cannot_be_read_is_told_of_both_sides() {
    let folder = Folder::new("unreadable").with("one", GOOD);
    fs::create_dir(folder.0.join("directory")).unwrap();
    folder.run(&["one", "directory"]).assert_failed("tools/compare: directory: ");
    folder.run(&["missing", "one"]).assert_failed("tools/compare: missing: ");
    folder.run(&["", "one"]).assert_failed("tools/compare: : ");
    let both = folder.run(&["directory", "missing"]);
    both.assert_failed("tools/compare: directory: ");
    assert!(both.err.contains("\ntools/compare: missing: "), "{}", both.err);
}

#[test]
fn a_malformed_line_is_shown_cut_and_without_control_bytes() {
    let folder = Folder::new("malformed").with("one", GOOD).with("empty", "");
    let long = [b"03\x1b\xff".repeat(5000), b"\n".to_vec()].concat();
    fs::write(folder.0.join("bad"), [GOOD.as_bytes()[..47].to_vec(), long].concat()).unwrap();
    let ended = folder.run(&["one", "bad"]);
    ended.assert_failed("tools/compare: bad:2: neither an 03 nor an FE line: \"03\\u{1b}\\xff03");
    assert!(ended.err.ends_with("..\"\n") && ended.err.len() < 150, "{}", ended.err);
    folder.run(&["one", "empty"]).assert_failed("tools/compare: empty: the FE line is missing\n");
}

#[test]
fn a_trace_that_ends_with_the_reserved_number_is_none() {
    let stuck = GOOD.replace("FE000002", "FE0E0002");
    let folder = Folder::new("reserved").with("one", GOOD).with("stuck", &stuck);
    let message = "tools/compare: stuck:3: there is no reply 14: \"FE0E0002\"\n";
    folder.run(&["one", "stuck"]).assert_failed(message);
    folder.run(&["stuck", "stuck"]).assert_failed(message);
}

#[test]
fn no_more_is_read_than_a_trace_can_have() {
    let folder = Folder::new("endless").with("one", GOOD);
    folder.run(&["one", "/dev/zero"]).assert_failed("tools/compare: /dev/zero: longer than ");
}

#[test]
fn a_side_may_be_standard_input_and_only_one() {
    let folder = Folder::new("standard-input").with("one", GOOD);
    for arguments in [["-", "one"], ["one", "-"]] {
        let input = File::open(folder.0.join("one")).unwrap();
        let ended = Ended::of(folder.command(&arguments).stdin(input).output().unwrap());
        ended.assert_verdict(0, "2 agents agree in all 2 states that both show");
        assert!(ended.out.contains("(standard input)"), "{}", ended.out);
    }
    let ended = folder.run(&["-", "-"]);
    ended.assert_failed("tools/compare: only one side can be standard input\nusage: ");
}

#[test]
fn a_pipe_is_read_once() {
    let folder = Folder::new("pipe").with("one", GOOD);
    let (reader, mut writer) = io::pipe().unwrap();
    io::Write::write_all(&mut writer, GOOD.as_bytes()).unwrap();
    drop(writer);
    let mut command = folder.command(&["/dev/stdin", "one"]);
    let ended = Ended::of(command.stdin(reader).output().unwrap());
    ended.assert_verdict(0, "2 agents agree in all 2 states that both show");
}

#[test]
fn options_end_at_two_dashes() {
    let folder = Folder::new("dashes").with("-n", GOOD).with("--whole", SHORT).with("--", GOOD);
    let agree = "1 agent agrees in the 1 state that both show";
    folder.run(&["--", "-n", "--whole"]).assert_verdict(0, agree);
    folder.run(&["--", "--", "--whole"]).assert_verdict(0, agree);
}

#[test]
fn usage_is_printed_where_asked_and_told_where_not() {
    let folder = Folder::new("usage").with("one", GOOD);
    let help = folder.run(&["--help"]);
    assert_eq!((help.exit, &help.err[..]), (Some(0), ""));
    assert!(help.out.starts_with("usage: tools/compare [--whole] [--] A B\n"), "{}", help.out);
    for unknown in ["-n", "--quiet", "--whole=yes", "-\x1b"] {
        let ended = folder.run(&[unknown, "one", "one"]);
        ended.assert_failed("tools/compare: unknown option -");
        assert!(ended.err.contains("\nusage: tools/compare "), "{}", ended.err);
        assert!(!ended.err.contains('\x1b'));
    }
    for arguments in [&[][..], &["one"], &["one", "one", "one"], &["--whole", "one"]] {
        let arguments: Vec<OsString> = arguments.iter().map(OsString::from).collect();
        let count = arguments.iter().filter(|argument| *argument == "one").count();
        let message = format!("tools/compare: {count} files are given, not 2\nusage: ");
        folder.run(&arguments).assert_failed(&message);
    }
}
