//! The small program: what it prints and what it leaves in a directory.

use second::frame;
use second::generate::{nth_file, nth_file_as};
use second::layout::Layout;
use std::fs;
use std::path::{Path, PathBuf};
use std::process::{Command, Output};

/// A directory of this test's own, empty.
fn directory(name: &str) -> PathBuf {
    let directory = Path::new(env!("CARGO_TARGET_TMPDIR")).join(name);
    let _ = fs::remove_dir_all(&directory);
    fs::create_dir_all(&directory).unwrap();
    directory
}

fn second(arguments: &[&str], directory: &Path) -> Output {
    Command::new(env!("CARGO_BIN_EXE_second"))
        .args(arguments)
        .current_dir(directory)
        .output()
        .unwrap()
}

#[test]
fn lists_and_judges_files() {
    let directory = directory("lists_and_judges_files");
    let sound = frame::assemble(&[], b"\xA2\x67version\x651.2.0\x67objects\xA0");
    fs::write(directory.join("sound.zt"), &sound).unwrap();
    fs::write(directory.join("short.zt"), &sound[..23]).unwrap();
    let list = second(&["list", "sound.zt"], &directory);
    assert_eq!(list.stdout, b"objects 0 components 0\n");
    let list = second(&["list", "short.zt", "sound.zt"], &directory);
    assert_eq!(
        list.stdout,
        b"short.zt:\nrefused 1 0 0\nsound.zt:\nobjects 0 components 0\n"
    );
    let judge = second(&["judge", "sound.zt", "short.zt"], &directory);
    assert_eq!(judge.stdout, b"0 0 0\n1 0 0\n");
    assert!(judge.status.success());
}

#[test]
fn escapes_the_paths_that_it_names() {
    let directory = directory("escapes_the_paths_that_it_names");
    let short = "x:\nobjects 0\\.zt";
    fs::write(directory.join(short), b"").unwrap();
    let list = second(&["list", short, short], &directory);
    let each = b"x:\\0aobjects\\200\\5c.zt:\nrefused 1 0 0\n";
    assert_eq!(list.stdout, [&each[..], each].concat());
}

#[test]
fn generates_files_with_their_answers() {
    let directory = directory("generates_files_with_their_answers");
    assert!(second(&["generate", "3", "20", "made"], &directory)
        .status
        .success());
    let made = directory.join("made");
    let answers = fs::read_to_string(made.join("answers.txt")).unwrap();
    assert_eq!(answers.lines().count(), 20);
    for (index, line) in (0..).zip(answers.lines()) {
        let (name, answer) = line.split_once(' ').unwrap();
        assert_eq!(fs::read(made.join(name)).unwrap(), nth_file(3, index));
        let judge = second(&["judge", name], &made);
        assert_eq!(judge.stdout, format!("{answer}\n").into_bytes());
    }
}

#[test]
fn generates_files_of_layout_1_0() {
    let directory = directory("generates_files_of_layout_1_0");
    assert!(second(&["generate-1.0", "3", "20", "made"], &directory)
        .status
        .success());
    let made = directory.join("made");
    let answers = fs::read_to_string(made.join("answers.txt")).unwrap();
    for (index, line) in (0..20).zip(answers.lines()) {
        let (name, answer) = line.split_once(' ').unwrap();
        let file = fs::read(made.join(name)).unwrap();
        assert_eq!(file, nth_file_as(Layout::First, 3, index));
        let (number, object, component) = Layout::First.verdict(&file);
        assert_eq!(answer, format!("{number} {object} {component}"));
    }
}

#[test]
fn says_how_it_is_used() {
    let directory = directory("says_how_it_is_used");
    for arguments in [
        &[][..],
        &["list"],
        &["judge"],
        &["generate", "x", "1", "made"],
        &["list", "no.zt"],
    ] {
        let output = second(arguments, &directory);
        assert!(!output.status.success());
        assert!(output.stdout.is_empty() && output.stderr.starts_with(b"second: "));
    }
}
