//! What the command line asks for.

use std::ffi::OsString;
use std::fs::File;
use std::io::{self, Read};
use std::os::unix::ffi::OsStrExt;

use header::TRACE_OUTPUT_BYTES;

use crate::trace::{Malformed, Trace};
use crate::visible::visible;

pub const USAGE: &str = "\
usage: tools/compare [--whole] [--] A B

A and B are outputs of the trace program; - is standard input. They are compared agent by agent and
state by state, as far as both go. Times and the order of the steps are left out.

  --whole  ask that each agent is shown equally far on both sides
  --help   print this
  --       what follows is a file's name, but for -

exit 0  what both show agrees
exit 1  a difference; or one side was refused and the other was not, nothing was compared, or an
        agent is not whole, each of which is told as such
exit 2  A or B cannot be read or is no output of the trace program, or the report cannot be written
        (to an output that is closed nothing is written, and the exit is the verdict's)
";

pub enum Asked {
    Help,
    Comparison { whole: bool, first: Source, second: Source },
}

pub enum Source {
    Input,
    File(OsString),
}

/// What these arguments ask for, or why they ask for nothing.
pub fn asked(arguments: impl Iterator<Item = OsString>) -> Result<Asked, String> {
    let (mut whole, mut ended) = (false, false);
    let mut sources = Vec::new();
    for argument in arguments {
        match argument.as_bytes() {
            b"-" => sources.push(Source::Input),
            b"--" if !ended => ended = true,
            b"--whole" if !ended => whole = true,
            b"--help" if !ended => return Ok(Asked::Help),
            [b'-', ..] if !ended => {
                return Err(format!("unknown option {}", visible(argument.as_bytes())));
            }
            _ => sources.push(Source::File(argument)),
        }
    }
    match <[Source; 2]>::try_from(sources) {
        Ok([Source::Input, Source::Input]) => {
            Err("only one side can be standard input".to_string())
        }
        Ok([first, second]) => Ok(Asked::Comparison { whole, first, second }),
        Err(sources) => Err(format!("{} files are given, not 2", sources.len())),
    }
}

impl Source {
    /// Its name, as far as it can be shown.
    pub fn name(&self) -> String {
        match self {
            Source::Input => "(standard input)".to_string(),
            Source::File(name) => visible(name.as_bytes()),
        }
    }

    /// The trace in it, or what to say of it. It is read once, and no further than a trace can go.
    pub fn read(&self) -> Result<Trace, String> {
        let mut bytes = Vec::new();
        let most = TRACE_OUTPUT_BYTES as u64 + 1;
        let read = match self {
            Source::Input => io::stdin().take(most).read_to_end(&mut bytes),
            Source::File(name) => {
                File::open(name).and_then(|file| file.take(most).read_to_end(&mut bytes))
            }
        };
        let name = self.name();
        read.map_err(|error| format!("{name}: {error}"))?;
        Trace::of(&bytes).map_err(|Malformed { line, what }| match line {
            Some(line) => format!("{name}:{line}: {what}"),
            None => format!("{name}: {what}"),
        })
    }
}
