//! `seeds LARGEST DIR`: 01's cases, generated files of both layouts and generated rows as inputs of up to so many bytes.

use fuzz::input::{decode, of_file, of_manifest, of_rows, Question};
use second::generate::{nth_file_as, Generator, RowSet};
use second::layout::Layout;
use second::{appendix, cases, probes, row_probes};
use std::fs;
use std::path::Path;

const SEED: u64 = 1;
const FILES: u64 = 4_000;
const SETS: usize = 4_000;

fn main() {
    let arguments: Vec<String> = std::env::args().skip(1).collect();
    let [largest, directory] = &arguments[..] else {
        panic!("usage: seeds LARGEST DIR");
    };
    let largest = largest.parse().expect("a number of bytes");
    fs::create_dir_all(directory).expect("a directory for the seeds");
    let seeds = of_files().chain(of_sets()).filter(|seed| seed.len() <= largest);
    for (index, seed) in seeds.enumerate() {
        fs::write(Path::new(directory).join(format!("{index:06}")), seed).expect("a seed");
    }
}

/// Each file as it is, and its manifest alone.
fn of_files() -> impl Iterator<Item = Vec<u8>> {
    let cases = cases::all().into_iter().chain(appendix::files());
    let files = cases.map(|case| case.file).chain(probes::files());
    let made = |layout| (0..FILES).map(move |index| (layout, nth_file_as(layout, SEED, index)));
    let files = files.map(|file| (Layout::Current, file)).chain(Layout::ALL.into_iter().flat_map(made));
    files.flat_map(|(layout, file)| std::iter::once(of_file(layout, &file)).chain(of_manifest(layout, &file)))
}

fn of_sets() -> impl Iterator<Item = Vec<u8>> {
    let mut generator = Generator::new(SEED);
    let generated = (0..SETS).map(move |_| generator.next_rows());
    row_probes::row_sets().into_iter().chain(generated).map(|set| sure(&set))
}

/// The input that means these rows.
fn sure(set: &RowSet) -> Vec<u8> {
    let input = of_rows(set);
    assert!(matches!(decode(&input), Some((Question::Write(back), 0)) if back == *set));
    input
}
