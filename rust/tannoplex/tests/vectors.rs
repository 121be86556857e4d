//! The archive's trace of each of the repository's vectors is what documents 01 and 02 ask for, and
//! each table of them that is accepted is written out again byte for byte.

use std::path::{Path, PathBuf};

use tannoplex::{Reply, TABLE_TEXT_BYTES, TABLE_WORDS};

const VECTORS: &str = "../../crates/vectors";

/// The inputs.
fn inputs() -> Vec<PathBuf> {
    let listed = std::fs::read_dir(Path::new(VECTORS).join("data")).unwrap();
    let paths = listed.map(|entry| entry.unwrap().path());
    paths.filter(|path| path.extension().is_some_and(|extension| extension == "in")).collect()
}

#[test]
fn traces_of_the_vectors() {
    let vectors = Path::new(VECTORS);
    let mut compared = 0;
    for input in inputs() {
        let name = input.file_stem().unwrap().to_str().unwrap();
        let expected = std::fs::read(vectors.join(format!("expected/{name}.out"))).unwrap();
        let mut out = vec![b'*'; tannoplex::TRACE_OUTPUT_BYTES];
        let traced = tannoplex::trace(&std::fs::read(&input).unwrap(), &mut out);
        let (got, rest) = out.split_at(traced.length);
        assert_eq!(String::from_utf8_lossy(got), String::from_utf8_lossy(&expected), "{name}");
        assert!(rest.iter().all(|&byte| byte == b'*'), "{name}: written after the text");
        compared += 1;
    }
    assert!(compared >= 252, "only {compared} vectors in {}", vectors.display());
}

#[test]
fn tables_of_the_vectors_are_written_again() {
    let mut written = 0;
    for input in inputs() {
        let bytes = std::fs::read(&input).unwrap();
        // The table's text goes up to the first end line.
        let lines = bytes.split_inclusive(|&byte| byte == b'\n');
        let before_end: usize = lines.take_while(|line| *line != b"FF\n").map(<[u8]>::len).sum();
        let text = &bytes[..bytes.len().min(before_end + 3)];
        let mut table = [0; TABLE_WORDS];
        if !tannoplex::read(text, &mut table).reply.is_accepted() {
            continue;
        }
        let mut again = [b'*'; TABLE_TEXT_BYTES];
        let wrote = tannoplex::write(&table, &mut again);
        let name = input.display();
        assert_eq!((wrote.reply, wrote.length), (Reply::Accepted, text.len()), "{name}");
        let (got, rest) = again.split_at(wrote.length);
        assert_eq!(String::from_utf8_lossy(got), String::from_utf8_lossy(text), "{name}");
        assert!(rest.iter().all(|&byte| byte == b'*'), "{name}: written after the text");
        written += 1;
    }
    assert!(written >= 100, "only {written} vectors have an accepted table");
}
