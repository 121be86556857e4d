//! Compares the archive `libboard.a` and the program `crates/trace/out/trace` with the reference on
//! random cases, and fails on the first difference, or where too little was met.
//!
//! `TANNOPLEX_SEED` sets the seed, which is else taken from the clock and always printed.

mod archive;

use std::process::ExitCode;
use std::time::{Instant, SystemTime, UNIX_EPOCH};

fn seed() -> Result<u64, String> {
    match std::env::var("TANNOPLEX_SEED") {
        Ok(given) => given.parse().map_err(|_| format!("TANNOPLEX_SEED={given} is no number")),
        Err(_) => {
            let now = SystemTime::now().duration_since(UNIX_EPOCH).map_err(|e| e.to_string())?;
            Ok(now.as_micros() as u64)
        }
    }
}

fn compared() -> Result<(), String> {
    if std::env::args_os().len() > 1 {
        return Err("it takes no arguments; TANNOPLEX_SEED sets the seed".to_string());
    }
    let seed = seed()?;
    let board = archive::Archive::new()?;
    println!("seed {seed} (TANNOPLEX_SEED={seed} runs these cases again)");
    let begun = Instant::now();
    let counts =
        cases::compare(&board, &cases::Plan::default(), seed).map_err(|f| f.to_string())?;
    print!("{counts}");
    match counts.below_floors() {
        short if short.is_empty() => {
            let seconds = begun.elapsed().as_secs_f64();
            println!("no difference between the proved library and the reference, {seconds:.1} s");
            Ok(())
        }
        short => Err(format!("too little was met:\n{}", short.join("\n"))),
    }
}

fn main() -> ExitCode {
    match compared() {
        Ok(()) => ExitCode::SUCCESS,
        Err(why) => {
            eprintln!("random-comparison: {why}");
            ExitCode::FAILURE
        }
    }
}
