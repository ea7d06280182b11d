//! Tables for the prover: generated files, items and writer's rows with this program's answers, in antt's words, so that the definitions are computed on the same bytes.

use crate::cbor;
use crate::columns::{numbers, COUNT, OBJECT_ROW};
use crate::generate::{nth_file_as, Generator, RowSet};
use crate::layout::Layout;
use crate::listing;
use crate::probes;
use crate::row_probes;
use crate::rows;
use crate::view;
use crate::writer;
use std::collections::BTreeMap;

/// Larger files, items and row sets are passed over: antt computes on lists.
const SIZE_LIMIT: usize = 1_000;
/// The number that says layout 1.0.
const FIRST: u64 = 1;
/// What every number of the lent table holds before a reading.
const BEFORE: u64 = 7;
/// A lent table of this many numbers is ample for every file within the size limit.
const AMPLE: usize = 400;
/// An output of this many bytes is ample for every row set within the size limit.
const AMPLE_OUTPUT: usize = 1_000_000;
/// What every byte of the lent output holds before a writing.
const BYTE_BEFORE: u8 = 7;

/// `each` files for every answer of the reader, in both layouts, as many items for every answer of the CBOR reading, and as many row sets for every answer of the writer but BIG and its own
/// COUNT, as an antt module.
pub fn module(seed: u64, each: usize) -> String {
    let mut generator = Generator::new(seed);
    let mut files = of_every_answer(
        each,
        24,
        || generator.next_file(),
        |file| file.len(),
        |file| rows::read(file, &mut [BEFORE; AMPLE]).number,
    );
    files.extend(probes::files());
    let mut index = 0;
    let first_files = of_every_answer(
        each,
        22,
        || {
            index += 1;
            nth_file_as(Layout::First, seed, index)
        },
        |file| file.len(),
        |file| rows::read_as(FIRST, file, &mut [BEFORE; AMPLE]).number,
    );
    let items = of_every_answer(
        each,
        3,
        || generator.next_item(),
        |item| item.len(),
        |item| cbor::decode(item).map_or_else(|fault| fault.number, |_| 0),
    );
    let program_files = probes::program_files();
    let mut row_sets = of_every_answer(
        each,
        10,
        || generator.next_rows(),
        set_size,
        |set| set.write(&mut vec![BYTE_BEFORE; AMPLE_OUTPUT]).number,
    );
    row_sets.extend(row_probes::row_sets());
    [
        HEADER.to_string(),
        table("files", "FileCase", files.iter().enumerate().map(file_case)),
        table(
            "first_files",
            "LayoutCase",
            first_files.iter().enumerate().map(first_case),
        ),
        table(
            "items",
            "ItemCase",
            items.iter().map(|item| item_case(item)),
        ),
        table(
            "program_files",
            "ProgramCase",
            program_files.iter().map(|file| program_case(file)),
        ),
        table(
            "row_sets",
            "RowCase",
            row_sets.iter().enumerate().map(row_case),
        ),
        table(
            "placements",
            "PlacementCase",
            PLACED.iter().map(|lengths| placement_case(lengths)),
        ),
    ]
    .join("\n")
}

const HEADER: &str =
    "-- Made by `second table`: files, items and row sets with the second program's answers.
use Rattle.std.specs.Prelude.{List, [], ◌∷◌, ◌++◌, true, false, replicate}
use Rattle.agreement.specs.Case.{FileCase, LayoutCase, ItemCase, ProgramCase, RowCase, PlacementCase}
";

/// Lengths of blobs: none, empty ones, around a multiple of 64, and a last end at 2^40 and one past it.
const PLACED: [&[u64]; 9] = [
    &[],
    &[0],
    &[0, 0, 1, 0],
    &[63, 64, 65, 127, 128, 129],
    &[(1 << 40) - 64],
    &[(1 << 40) - 63],
    &[1, (1 << 40) - 128],
    &[1, (1 << 40) - 127],
    &[u64::MAX, u64::MAX],
];

/// Up to `each` of the things made for every answer; it stops when that many answers have theirs.
fn of_every_answer<T>(
    each: usize,
    answers: usize,
    mut make: impl FnMut() -> T,
    size: impl Fn(&T) -> usize,
    answer: impl Fn(&T) -> u8,
) -> Vec<T> {
    let mut kept: BTreeMap<u8, Vec<T>> = BTreeMap::new();
    while kept.len() < answers || kept.values().any(|made| made.len() < each) {
        let made = make();
        if size(&made) > SIZE_LIMIT {
            continue;
        }
        let alike = kept.entry(answer(&made)).or_default();
        if alike.len() < each {
            alike.push(made);
        }
    }
    kept.into_values().flatten().collect()
}

/// A file read into a table that is ample, exact, or one number short: the fields that every such case has.
fn read_case(layout: u64, index: usize, file: &[u8]) -> String {
    let needed = rows::read_as(layout, file, &mut [BEFORE; AMPLE]);
    let exact = numbers(needed.objects as usize, needed.components as usize);
    let room = [AMPLE, exact, exact.saturating_sub(1)][index % 3];
    let mut table = vec![BEFORE; room];
    let answer = rows::read_as(layout, file, &mut table);
    let seen = view::view(file, &table, answer.objects, answer.components, 0);
    let seen = seen.map_or(vec![], |(offset, length)| vec![offset, length]);
    format!(
        "file = {}; room = {room}; answer = {}; table = {}; seen = {}",
        bytes(file),
        list(&answer.numbers()),
        list(&table),
        list(&seen),
    )
}

fn file_case((index, file): (usize, &Vec<u8>)) -> String {
    let read = read_case(Layout::Current.number(), index, file);
    let text = bytes(&listing::program_text(file));
    format!("record {{ {read}; text = {text} }}")
}

/// A file of layout 1.0; one in four is asked for as 1.2.0, by one number or another.
fn first_case((index, file): (usize, &Vec<u8>)) -> String {
    let layout = [FIRST, FIRST, FIRST, [0, 2, 3, 257][index / 4 % 4]][index % 4];
    format!("record {{ layout = {layout}; {} }}", read_case(layout, index, file))
}

/// An item as a whole manifest: the refusal and the place where it was met; 0 and 0 if it is well-formed.
fn item_case(item: &[u8]) -> String {
    let (number, place) =
        cbor::decode(item).map_or_else(|fault| (fault.number, fault.place), |_| (0, 0));
    format!(
        "record {{ bytes = {}; number = {number}; place = {place} }}",
        bytes(item)
    )
}

/// A file as the box's small program prints it.
fn program_case(file: &[u8]) -> String {
    format!(
        "record {{ file = {}; text = {} }}",
        bytes(file),
        bytes(&listing::program_text(file))
    )
}

/// What is asked with, or the file, whichever is longer; a component count stands for as many owners, which antt lists.
fn set_size(set: &RowSet) -> usize {
    let objects = set.rows.chunks_exact(OBJECT_ROW).take(set.objects as usize);
    let owners = objects.map(|row| row[COUNT] as usize).max();
    let asked = (set.rows.len() + set.buffer.len()).max(owners.unwrap_or(0));
    if asked > SIZE_LIMIT {
        return asked;
    }
    asked.max(set.write(&mut vec![BYTE_BEFORE; AMPLE_OUTPUT]).length as usize)
}

/// Rows written into an output that is ample, exact, or one byte short.
fn row_case((index, set): (usize, &RowSet)) -> String {
    let exact = set.write(&mut vec![BYTE_BEFORE; AMPLE_OUTPUT]).length as usize;
    let room = [exact + 9, exact, exact.saturating_sub(1)][index % 3];
    let mut output = vec![BYTE_BEFORE; room];
    let answer = set.write(&mut output);
    format!(
        "record {{ rows = {}; objects = {}; components = {}; place = {}; size = {}; buffer = {}; room = {room}; answer = {}; output = {} }}",
        list(&set.rows),
        set.objects,
        set.components,
        set.attributes_place,
        set.attributes_length,
        bytes(&set.buffer),
        list(&[u64::from(answer.number), answer.object, answer.component, answer.length]),
        bytes(&output),
    )
}

/// Offsets for blobs of these lengths; none if the last would end above the limit.
fn placement_case(lengths: &[u64]) -> String {
    let offsets = writer::offsets(lengths.iter().copied());
    let fits = if offsets.is_some() { "true" } else { "false" };
    format!(
        "record {{ lengths = {}; fits = {fits}; offsets = {} }}",
        list(lengths),
        list(&offsets.unwrap_or_default()),
    )
}

fn table(name: &str, kind: &str, cases: impl Iterator<Item = String>) -> String {
    let mut text = format!("abbrev pub {name} : List {kind}\n{name} =\n");
    for case in cases {
        text += &format!("    {case}\n    ∷ ");
    }
    text + "[]\n"
}

fn bytes(bytes: &[u8]) -> String {
    list(
        &bytes
            .iter()
            .map(|&byte| u64::from(byte))
            .collect::<Vec<_>>(),
    )
}

/// A list, long runs of one number said once.
fn list(numbers: &[u64]) -> String {
    let runs = numbers.chunk_by(|one, next| one == next).rev();
    runs.fold("[]".to_string(), |rest, run| match run.len() {
        16.. => format!("(replicate {} {} ++ ({rest}))", run.len(), run[0]),
        count => format!("{} ∷ ", run[0]).repeat(count) + &rest,
    })
}
