//! Rows on both sides of each of the writer's rules, by hand: one sound set, and its neighbours.

use crate::columns::{
    numbers, ATTRIBUTES, BLOB, COUNT, DIGEST, DTYPE, ENTRY, FORMAT, NAME, OWNER, RANK, TYPE,
};
use crate::generate::RowSet;

/// Where the rows of the sound set begin: two objects, two components of the first and one of the second.
const FIRST: usize = 0;
const SECOND: usize = numbers(1, 0);
const PARTS: [usize; 3] = [numbers(2, 0), numbers(2, 1), numbers(2, 2)];

pub fn row_sets() -> Vec<RowSet> {
    let mut sets = vec![sound()];
    sets.extend(ranges());
    sets.extend(numbers_of_rows());
    sets.extend(lengths_of_rows());
    sets.extend(attributes());
    sets
}

fn sound() -> RowSet {
    let mut rows = Vec::new();
    rows.extend([0, 1, 0, 9, 9, 9, 9, 9, 9, 9, 9, 2, 4, 0, 0, 2]);
    rows.extend([1, 1, 1, 2, 9, 9, 9, 9, 9, 9, 9, 6, 5, 0, 0, 1]);
    rows.extend([15, 1, 11, 0, 0, 16, 3, 0, 0, 0, 0, 0]);
    rows.extend([11, 4, 12, 0, 0, 16, 0, 0, 0, 0, 99, 1]);
    rows.extend([11, 4, 1, 0, 0, 16, 8, 0, 0, 1, u64::MAX, u64::MAX]);
    RowSet {
        rows,
        objects: 2,
        components: 3,
        attributes_place: 0,
        attributes_length: 0,
        buffer: b"abfreedensedatax\x01\x02\x03\x04\x05\x06\x07\x08".to_vec(),
    }
}

/// The sound set with some of its numbers changed.
fn with(changes: &[(usize, u64)]) -> RowSet {
    let mut set = sound();
    for &(at, number) in changes {
        set.rows[at] = number;
    }
    set
}

/// Each range absent, empty elsewhere, at the buffer's end, and past it; a component's entry isn't looked at.
fn ranges() -> Vec<RowSet> {
    let end = sound().buffer.len() as u64;
    let columns = [
        FIRST + NAME,
        FIRST + FORMAT,
        FIRST + ATTRIBUTES,
        PARTS[0] + NAME,
        PARTS[0] + TYPE,
        PARTS[0] + BLOB,
        PARTS[0] + DIGEST,
        PARTS[0] + ENTRY,
    ];
    let parts = [
        (0, 0),
        (3, 0),
        (0, 1),
        (end, 0),
        (end + 1, 0),
        (end, 1),
        (u64::MAX, 1),
    ];
    let pairs = columns
        .iter()
        .flat_map(|&at| parts.map(|(place, length)| (at, place, length)));
    let mut sets: Vec<RowSet> = pairs
        .map(|(at, place, length)| with(&[(at, place), (at + 1, length)]))
        .collect();
    sets.extend(parts.map(|(place, length)| RowSet {
        attributes_place: place,
        attributes_length: length,
        ..sound()
    }));
    sets
}

/// Ranks, codes, counts and owners, at their limits and past them.
fn numbers_of_rows() -> Vec<RowSet> {
    let mut sets = [8, 9, u64::MAX]
        .map(|rank| with(&[(FIRST + RANK, rank)]))
        .to_vec();
    sets.extend([12, 13, u64::MAX].map(|code| with(&[(PARTS[0] + DTYPE, code)])));
    sets.extend(
        [[1, 1], [1, 2], [3, 0], [2, 2], [1_000, 2]]
            .map(|[first, second]| with(&[(FIRST + COUNT, first), (SECOND + COUNT, second)])),
    );
    sets.extend([[0, 1, 0], [0, 1, 1], [1, 0, 0], [0, 0, 2]].map(|owners| {
        with(&[0, 1, 2].map(|component| (PARTS[component] + OWNER, owners[component])))
    }));
    // "free" is no listed type, so that any whole number of f32 will do.
    sets.extend([0, 4, 8, 6].map(|length| {
        with(&[
            (PARTS[2] + TYPE, 2),
            (PARTS[2] + TYPE + 1, 4),
            (PARTS[2] + BLOB + 1, length),
        ])
    }));
    sets.push(with(&[
        (FIRST + COUNT, 1),
        (SECOND + COUNT, 2),
        (PARTS[1] + OWNER, 1),
    ]));
    sets
}

/// One number too few, one too many, and counts that the rows are too short for.
fn lengths_of_rows() -> Vec<RowSet> {
    let mut short = sound();
    short.rows.pop();
    let mut long = sound();
    long.rows.push(u64::MAX);
    let counted = |objects, components| RowSet {
        objects,
        components,
        ..sound()
    };
    vec![
        short,
        long,
        counted(3, 3),
        counted(2, 2),
        counted(u64::MAX, u64::MAX),
    ]
}

/// Maps, what is no map, and what gets too deep, as attributes of the root and of an object; and beside rows that are unsound or have another refusal.
fn attributes() -> Vec<RowSet> {
    let mut sets = Vec::new();
    for (in_root, levels) in [(true, 31), (false, 29)] {
        let kinds: [Vec<u8>; 16] = [
            vec![0xA0],
            vec![0xBF, 0xFF],
            vec![0xB8, 0x01, 0x00, 0x00],
            vec![0x80],
            vec![0xC1, 0xA0],
            vec![0xA0, 0x00],
            vec![0xA1, 0x00],
            vec![0xA1, 0x00, 0xF8, 0x1F],
            vec![0xA1, 0x00, 0xF8, 0x20],
            nested(levels - 2, &[0xF8, 0x1F]),
            [&[0xA2, 0xF8, 0x16][..], &nested(levels, &[0x00])].concat(),
            nested(levels - 2, &[0x80]),
            nested(levels - 1, &[0x80]),
            [nested(levels - 1, &[0x00]), vec![0x00]].concat(),
            nested(levels - 1, &[]),
            [vec![0x81; levels], vec![0x00]].concat(),
        ];
        sets.extend(kinds.map(|bytes| holding(sound(), in_root, &bytes)));
        let open = [
            nested(levels - 2, &[0x9F, 0xFF]),
            nested(levels - 1, &[0xFF]),
        ];
        sets.extend(open.map(|bytes| holding(sound(), in_root, &bytes)));
    }
    let deep = nested(30, &[0x80]);
    let twice = with(&[(SECOND + NAME, 0)]);
    let unsound = with(&[(PARTS[2] + OWNER, 0)]);
    sets.extend([twice, unsound].map(|set| holding(set, true, &deep)));
    sets
}

/// A map that holds so many arrays, each in the one before, and then these bytes.
fn nested(arrays: usize, bytes: &[u8]) -> Vec<u8> {
    [&[0xA1, 0x00], &vec![0x81; arrays][..], bytes].concat()
}

/// The rows with these bytes as attributes of the root or of the first object.
fn holding(mut set: RowSet, in_root: bool, bytes: &[u8]) -> RowSet {
    let place = set.buffer.len() as u64;
    let length = bytes.len() as u64;
    set.buffer.extend(bytes);
    if in_root {
        set.attributes_place = place;
        set.attributes_length = length;
    } else {
        set.rows[FIRST + ATTRIBUTES..][..2].copy_from_slice(&[place, length]);
    }
    set
}
