//! Compares two outputs of the trace program. Demand 3 says of two traces of one table: for each
//! agent, the states that it passes through in one are the beginning of those in the other, or the
//! reverse. It is proved of what `stepsShown` and, for a line, `stepIn` read from an output, in
//! `crates/demands/specs/Traces.antt`; here the same is read. So of two boards that differ, one has
//! another table or does not run the proved code.

mod arguments;
mod comparison;
mod report;
mod trace;
mod visible;

use std::fmt::Display;
use std::io::{self, ErrorKind, Write};
use std::process::ExitCode;

use arguments::{asked, Asked, Source, USAGE};
use comparison::{Comparison, Verdict};
use report::Report;

const AGREES: u8 = 0;
const DOES_NOT: u8 = 1;
const FAILED: u8 = 2;

fn main() -> ExitCode {
    match asked(std::env::args_os().skip(1)) {
        Err(what) => fail(&[format!("{what}\n{}", USAGE.trim_end())]),
        Ok(Asked::Help) => tell(USAGE, AGREES),
        Ok(Asked::Comparison { whole, first, second }) => compare(whole, &first, &second),
    }
}

fn compare(whole: bool, first: &Source, second: &Source) -> ExitCode {
    let (one, other) = match (first.read(), second.read()) {
        (Ok(one), Ok(other)) => (one, other),
        (one, other) => {
            return fail(&Vec::from_iter([one, other].into_iter().filter_map(Result::err)))
        }
    };
    let comparison = &Comparison::of(&one, &other);
    let verdict = comparison.verdict(whole);
    let names = [&first.name()[..], &second.name()];
    let exit = if verdict == Verdict::Agreement { AGREES } else { DOES_NOT };
    tell(Report { names, comparison, verdict }, exit)
}

/// Prints the text and ends so. A reader that closed its pipe has read enough: the verdict stands.
fn tell(text: impl Display, exit: u8) -> ExitCode {
    let mut output = io::stdout().lock();
    let written = output.write_all(text.to_string().as_bytes()).and_then(|()| output.flush());
    match written {
        Err(error) if error.kind() != ErrorKind::BrokenPipe => {
            fail(&[format!("the report cannot be written: {error}")])
        }
        _ => ExitCode::from(exit),
    }
}

/// Tells why there is no verdict. Where even that cannot be written, the exit says it.
fn fail(reasons: &[String]) -> ExitCode {
    for what in reasons {
        let _ = writeln!(io::stderr(), "tools/compare: {what}");
    }
    ExitCode::from(FAILED)
}
