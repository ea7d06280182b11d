//! What crate `vectors` reads and must print is what this program makes.

use second::vectors;
use std::fs;
use std::path::Path;

fn stored(name: &str) -> Vec<u8> {
    let folder = Path::new(env!("CARGO_MANIFEST_DIR")).join("../crates/vectors");
    fs::read(folder.join(name)).unwrap()
}

#[test]
fn the_stored_files_are_those_made() {
    assert!(stored("data/vectors") == vectors::file());
    assert!(stored("stdout") == vectors::printed().into_bytes());
}

#[test]
fn every_answer_is_among_them() {
    let printed = vectors::printed();
    let ends = [
        "refused 6",
        "refused 7",
        " yes",
        " no",
        "no version",
        "major 1: yes",
        "major 1: no",
    ];
    for end in ends {
        assert!(printed.lines().any(|line| line.ends_with(end)), "{end}");
    }
}

/// The program reads them into a buffer of this size.
#[test]
fn they_fit_the_buffer() {
    assert!(vectors::file().len() <= 65_536);
}
