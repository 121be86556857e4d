//! The reference's trace against stored inputs and the outputs that documents 01 and 02 ask for.
//!
//! `TANNOPLEX_VECTORS` may name a folder of `NAME.in` and `NAME.out`; else the repository's vectors
//! are taken, whose outputs stand in a folder of their own.

use std::path::{Path, PathBuf};

fn folders() -> (PathBuf, PathBuf) {
    if let Some(folder) = std::env::var_os("TANNOPLEX_VECTORS") {
        return (PathBuf::from(&folder), PathBuf::from(folder));
    }
    let vectors = Path::new("../../crates/vectors");
    (vectors.join("data"), vectors.join("expected"))
}

#[test]
fn traces_of_the_vectors() {
    let (inputs, outputs) = folders();
    let listed = std::fs::read_dir(&inputs)
        .unwrap_or_else(|error| panic!("{}: {error}; set TANNOPLEX_VECTORS", inputs.display()));
    let mut compared = 0;
    for entry in listed {
        let input = entry.unwrap().path();
        if input.extension().is_none_or(|extension| extension != "in") {
            continue;
        }
        let name = input.file_stem().unwrap().to_str().unwrap();
        let output = outputs.join(format!("{name}.out"));
        let expected =
            std::fs::read(&output).unwrap_or_else(|error| panic!("{}: {error}", output.display()));
        let got = reference::trace(&std::fs::read(&input).unwrap());
        assert_eq!(String::from_utf8_lossy(&got), String::from_utf8_lossy(&expected), "{name}");
        compared += 1;
    }
    println!("{compared} vectors agree");
    assert!(compared >= 239, "only {compared} vectors in {}", inputs.display());
}
