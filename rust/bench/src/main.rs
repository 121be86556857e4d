//! Prints what the proved calls cost, beside an optimised Rust implementation and a plain sum.
//!
//! `bench` prints the tables, `bench calls` the first of them. `bench only NAME SIDE TURNS`, where SIDE is `proved`, `quick`, `narrow` or
//! `sum`,
//! does that row alone and times nothing, for a counter of instructions such as callgrind.

mod inputs;
mod measure;
mod rows;

use std::process::ExitCode;

use reference::{Table, AGENTS, ROWS};

fn print_table() {
    println!("| call | proved | quick | ratio | narrow | ratio | sum | inputs |");
    println!("|---|---:|---:|---:|---:|---:|---:|---|");
    let mut between = Vec::new();
    for (name, row) in rows::ALL {
        let mut row = row();
        let [proved, quick, sum, narrow] = match &mut row.narrow {
            Some(narrow) => {
                let works = [&mut row.proved, &mut row.quick, &mut row.sum, narrow];
                measure::least(works, row.calls).map(Some)
            }
            None => {
                let works = [&mut row.proved, &mut row.quick, &mut row.sum];
                let [proved, quick, sum] = measure::least(works, row.calls).map(Some);
                [proved, quick, sum, None]
            }
        };
        let ratios = [ratio(proved, quick), ratio(proved, narrow)];
        let [proved, quick, sum, narrow] = [proved, quick, sum, narrow].map(micros);
        let times = format!("{proved} | {quick} | {} | {narrow} | {}", ratios[0], ratios[1]);
        println!("| {name} | {times} | {sum} | {} |", row.what);
        between.push((name, row.between));
    }
    println!();
    println!(
        "Microseconds for one call, the least of many turns in which the sides alternate. A ratio"
    );
    println!(
        "is the proved time over that before it. `narrow` is `quick` with a search of the rows below"
    );
    println!(
        "the positions alone (T-06). `sum` adds up the words that the call is lent, the bytes of"
    );
    println!("the text for read. Done to the buffers between calls:");
    println!();
    for (name, between) in between {
        println!("- {name}: {between}.");
    }
}

/// A time in nanoseconds as microseconds; a dash where there is none.
fn micros(nanos: Option<f64>) -> String {
    nanos.map_or("-".to_string(), |nanos| format!("{:.2}", nanos / 1000.0))
}

fn ratio(proved: Option<f64>, other: Option<f64>) -> String {
    proved.zip(other).map_or("-".to_string(), |(proved, other)| format!("{:.2}", proved / other))
}

/// How the cost of a run grows with one number.
fn print_growth(what: &str, numbers: &[usize], table: impl Fn(usize) -> Table) {
    println!();
    println!("| {what} | steps | proved | quick | ratio | proved, a step |");
    println!("|---:|---:|---:|---:|---:|---:|");
    for &number in numbers {
        let table = table(number);
        let steps = inputs::choices(&table).len();
        let mut row = rows::run("", &table);
        let works = [&mut row.proved, &mut row.quick];
        let [proved, quick] = measure::least(works, row.calls).map(Some);
        let a_step = micros(proved.map(|proved| proved / steps as f64));
        let ratio = ratio(proved, quick);
        let (proved, quick) = (micros(proved), micros(quick));
        println!("| {number} | {steps} | {proved} | {quick} | {ratio} | {a_step} |");
    }
}

fn print_all() {
    print_table();
    println!();
    println!("How the cost of a run grows, in microseconds:");
    let numbers = [1, 2, 4, 8, AGENTS];
    print_growth("agents of 32 rows", &numbers, |agents| {
        inputs::table(agents, ROWS, inputs::MANY_RECVS)
    });
    print_growth("rows of 16 agents", &[1, 2, 4, 8, 16, ROWS], |rows| {
        inputs::table(AGENTS, rows, inputs::MANY_RECVS)
    });
    let numbers = [0, 16, 64, 128, 256];
    print_growth("messages sent, 256 RECVs", &numbers, inputs::table_with_sends);
}

fn only(name: &str, side: &str, turns: &str) -> Result<(), String> {
    let turns: usize = turns.parse().map_err(|_| format!("{turns} is no number of turns"))?;
    let found = rows::ALL.into_iter().find(|row| row.0 == name);
    let row = found.ok_or_else(|| format!("no row {name}"))?.1();
    let mut work = match side {
        "proved" => row.proved,
        "quick" => row.quick,
        "narrow" => row.narrow.ok_or_else(|| format!("{name} searches for no message"))?,
        "sum" => row.sum,
        _ => return Err(format!("no side {side}")),
    };
    for _ in 0..turns {
        work.prepare();
        work.work();
    }
    println!("{name} by {side}: {} calls", turns * row.calls);
    Ok(())
}

fn main() -> ExitCode {
    let words: Vec<String> = std::env::args().skip(1).collect();
    let words: Vec<&str> = words.iter().map(String::as_str).collect();
    let done = match words[..] {
        _ if cfg!(not(target_arch = "x86_64")) => {
            Err("the archive is for x86-64: under an emulator its times say nothing".to_string())
        }
        [] => {
            print_all();
            Ok(())
        }
        ["calls"] => {
            print_table();
            Ok(())
        }
        ["only", name, side, turns] => only(name, side, turns),
        _ => Err("usage: bench [calls | only NAME SIDE TURNS]".to_string()),
    };
    match done {
        Ok(()) => ExitCode::SUCCESS,
        Err(why) => {
            eprintln!("bench: {why}");
            ExitCode::FAILURE
        }
    }
}
