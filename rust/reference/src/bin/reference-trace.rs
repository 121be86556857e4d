//! The trace program over the reference: the named files one after the other, or standard input.

use std::io::{Read, Write};

fn input() -> std::io::Result<Vec<u8>> {
    let mut bytes = Vec::new();
    let names: Vec<_> = std::env::args_os().skip(1).collect();
    for name in &names {
        std::fs::File::open(name)?.read_to_end(&mut bytes)?;
    }
    if names.is_empty() {
        std::io::stdin().read_to_end(&mut bytes)?;
    }
    Ok(bytes)
}

fn main() -> std::io::Result<()> {
    std::io::stdout().write_all(&reference::trace(&input()?))
}
