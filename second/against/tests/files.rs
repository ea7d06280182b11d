//! Whole files: what the box calls, and the verdict with its indices, against the second program and against 01's own answers.
//! The seed is fixed; `SEED=n` takes another, `SEED=random` one by the clock. Each test prints how often each answer occurred.

use against::tally::{hex, inputs, seed, Tally};
use against::Verdict;
use second::appendix;
use second::cases::{self, Case};
use second::generate::nth_file;
use second::judge::verdict;
use second::probes;
use second::sweep;
use std::fs;
use std::path::Path;
use std::thread;

const FILES: u64 = inputs(600_000);
const THREADS: u64 = 2;
/// The number that says layout 1.2.0; tests/layouts.rs asks with others.
const CURRENT: u64 = 0;
/// Accepted, and refusals 1 to 23.
const ANSWERS: usize = 24;

/// Holds both calls against the second program.
fn compare(tally: &mut Tally, file: &[u8], what: impl FnOnce() -> String) {
    let (number, object, component) = verdict(file);
    let number = u64::from(number);
    let second = Verdict {
        number,
        object,
        component,
    };
    let proved = (against::box_accept(file), against::accept_as(CURRENT, file));
    tally.compare(label(number), proved, (number, second), || {
        let what = what();
        format!("{what}, {}", kept(&what, file))
    });
}

fn label(number: u64) -> String {
    match number {
        0 => "accepted".to_string(),
        _ => format!("refused {number:2}"),
    }
}

/// Keeps a file on which answers differ, and says where.
fn kept(what: &str, file: &[u8]) -> String {
    let here = std::env::var("CARGO_MANIFEST_DIR").expect("cargo names the folder");
    let plain = |c: char| if c.is_ascii_alphanumeric() { c } else { '-' };
    let name: String = what.chars().map(plain).collect();
    let path = Path::new(&here).join(format!("../../target/differs-{name}.hex"));
    match fs::write(&path, hex(file)) {
        Ok(()) => format!("in hex in {}", path.display()),
        Err(error) => format!("{error}: {}", hex(file)),
    }
}

/// Files that 01 answers: the second program and both calls must answer the same.
fn compare_cases(of: &'static str, cases: Vec<Case>, answers: usize) {
    let mut tally = Tally::of(of);
    for Case { what, file, number } in cases {
        assert_eq!(against::box_accept(&file), number.into(), "{what}");
        assert_eq!(verdict(&file), (number, 0, 0), "{what}");
        compare(&mut tally, &file, || what);
    }
    tally.report(answers);
}

#[test]
fn cases_of_01() {
    compare_cases("01's cases", cases::all(), 13);
}

#[test]
fn appendix_a() {
    compare_cases("Appendix A", appendix::files(), 5);
}

fn compare_files(of: &'static str, files: Vec<Vec<u8>>, answers: usize) {
    let mut tally = Tally::of(of);
    for (at, file) in files.iter().enumerate() {
        compare(&mut tally, file, || format!("{of}, file {at}"));
    }
    tally.report(answers);
}

#[test]
fn lists_of_01() {
    compare_files("01's lists", probes::files(), 9);
}

#[test]
fn every_byte_changed() {
    compare_files("every byte of case 2", sweep::bytes(), 17);
}

#[test]
fn every_node_changed() {
    compare_files("every node of a manifest", sweep::nodes(), 20);
}

#[test]
fn every_role_changed() {
    compare_files("every role of a format", sweep::roles(), 4);
}

#[test]
fn every_two_faults() {
    compare_files("every two faults", sweep::two_faults(), 17);
}

#[test]
fn many_names() {
    compare_files("names at their limits", sweep::many_names(), 6);
}

#[test]
fn generated_and_damaged() {
    let part = |first: u64| {
        let mut tally = Tally::of("files");
        for index in (first..FILES).step_by(THREADS as usize) {
            compare(&mut tally, &nth_file(seed(), index), || {
                format!("seed {}, file {index}", seed())
            });
        }
        tally
    };
    let mut all = Tally::of("files");
    thread::scope(|scope| {
        let parts: Vec<_> = (0..THREADS)
            .map(|first| scope.spawn(move || part(first)))
            .collect();
        for part in parts {
            all.add(part.join().expect("the answers agree"));
        }
    });
    all.report(ANSWERS);
    assert!(all.part(&label(0)) > 0.05);
}
