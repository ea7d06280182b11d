//! Merging two files, against the second program: pairs of both layouts, sound and not, with names that are shared and names that aren't, attributes on either side, both or none, and
//! rooms that are exact, one short or none; then the limits of both files together. Answer, bytes, bytes that must stay, and the lent rows, which end as zeros.

use against::tally::{rounds, seed, Tally};
use second::cases::NO_OBJECTS;
use second::compose::{component, data, dense, named, object, root, with};
use second::described::Described;
use second::encode::Item;
use second::frame;
use second::generate::{FilePair, Generator};
use second::merge;

const PAIRS: u64 = rounds(40_000);
const MARK: u8 = 0xA5;
const ROOM: u64 = 24;
const TWICE: u64 = 11;
const COUNT: u64 = 15;

/// Both answers for these rooms, which are the same, with the same bytes and rows.
fn both(tally: &mut Tally, label: &str, pair: &FilePair, rows: usize, room: usize) -> [u64; 5] {
    let (mut ours, mut theirs) = (vec![MARK; room], vec![MARK; room]);
    let (mut table, mut other) = (vec![9; rows], vec![9; rows]);
    let (one, first, two, second) = (pair.first_layout, &pair.first[..], pair.second_layout, &pair.second[..]);
    let a = against::merge(one, first, two, second, &mut table, &mut ours);
    let told = merge::merge(one, first, two, second, &mut other, &mut theirs).numbers();
    let said = [a.number, a.file, a.object, a.component, a.length];
    let what = match told {
        [0, ..] => format!("{label}: merged"),
        [ROOM, ..] => format!("{label}: no room"),
        [_, 0, ..] => format!("{label}: the merged file refused"),
        [_, file, ..] => format!("{label}: file {file} refused"),
    };
    let shown = || format!("{label}, {rows} numbers, {room} bytes: {first:02x?} {second:02x?}");
    tally.compare(what, said, told, shown);
    assert!(ours == theirs, "seed {}, {label}: the bytes differ", seed());
    assert!(table == other && table.iter().all(|&number| number == 0), "seed {}, {label}: the rows differ", seed());
    said
}

fn numbers(pair: &FilePair) -> usize {
    let of = |layout: u64, file: &[u8]| Described::read(layout, file).map_or(0, |read| read.room() as usize);
    of(pair.first_layout, &pair.first) + of(pair.second_layout, &pair.second)
}

/// Ample room, exact rooms, each one short, and none.
fn every_room(tally: &mut Tally, label: &str, pair: &FilePair) {
    let rows = numbers(pair);
    let told = both(tally, label, pair, rows + 40, 0);
    if told[0] != ROOM {
        both(tally, label, pair, 0, 100);
        return;
    }
    let length = told[4] as usize;
    assert_eq!(both(tally, label, pair, rows, length)[0], 0);
    assert_eq!(both(tally, label, pair, rows + 3, length + 77)[0], 0);
    assert_eq!(both(tally, label, pair, rows, length - 1)[0], ROOM);
    if rows > 0 {
        assert_eq!(both(tally, label, pair, rows - 1, length), [ROOM, 0, 0, 0, told[4]]);
        both(tally, label, pair, 0, length - 1);
    }
}

#[test]
fn pairs() {
    let mut tally = Tally::of("merging");
    let mut generator = Generator::new(seed());
    for index in 0..PAIRS {
        let mut pair = generator.next_pair();
        if index % 8 == 0 {
            generator.damage(&mut pair.second);
        }
        every_room(&mut tally, "pairs", &pair);
    }
    tally.report(5);
}

fn of(first: Vec<u8>, second: Vec<u8>) -> FilePair {
    FilePair { first_layout: 0, first, second_layout: 0, second }
}

#[test]
fn attributes() {
    let mut tally = Tally::of("attributes of two files");
    let mut blobs = vec![0; 64];
    blobs[56..].copy_from_slice(b"12345678");
    let file = |name: &str, attributes: Option<Item>| {
        let one = root(named([(name, dense(data()))]));
        let all = match attributes {
            None => one,
            Some(value) => with(one, "attributes", value),
        };
        frame::assemble(&blobs, &all.shortest())
    };
    let kinds = || [None, Some(Item::map([])), Some(Item::map([("k", Item::Unsigned(1))]))];
    for a in kinds() {
        for b in kinds() {
            every_room(&mut tally, "two names", &of(file("w", a.clone()), file("v", b.clone())));
            let shared = of(file("w", a.clone()), file("w", b));
            assert_eq!(both(&mut tally, "one name", &shared, 0, 0), [TWICE, 0, 0, 0, 0]);
        }
        every_room(&mut tally, "with the empty file", &of(file("w", a.clone()), NO_OBJECTS.to_vec()));
        every_room(&mut tally, "the empty file first", &of(NO_OBJECTS.to_vec(), file("w", a)));
    }
    tally.report(7);
}

#[test]
fn limits() {
    let mut tally = Tally::of("limits of two files together");
    let many = |from: usize, count: usize| {
        let names = (from..from + count).map(|at| (Item::text(at.to_string()), object(&[], "", named([]))));
        frame::assemble(&[], &root(Item::Map(names.collect())).shortest())
    };
    every_room(&mut tally, "1,024 objects", &of(many(0, 512), many(512, 512)));
    every_room(&mut tally, "1,024 objects", &of(many(0, 1024), NO_OBJECTS.to_vec()));
    for (first, second, number) in [(many(0, 512), many(512, 513), COUNT), (many(0, 512), many(0, 513), COUNT), (many(0, 512), many(511, 512), TWICE)] {
        assert_eq!(both(&mut tally, "too many, or shared", &of(first, second), 20, 20), [number, 0, 0, 0, 0]);
    }
    // each component has the same 64 MiB, and the merged file a copy for each
    const BLOB: usize = 1 << 26;
    let heavy = |objects: usize, last: usize| {
        let parts = |count: usize| Item::Map((0..count).map(|at| (Item::text(at.to_string()), component("u8", 64, BLOB as u64))).collect());
        let of = |at: usize| if at + 1 == objects { last } else { 16 };
        let all = (0..objects).map(|at| (Item::text(at.to_string()), object(&[], "x", parts(of(at)))));
        frame::assemble(&vec![7; 64 - 8 + BLOB], &root(Item::Map(all.collect())).shortest())
    };
    for (last, number) in [(16, COUNT), (15, ROOM)] {
        let pair = of(heavy(1024, last), NO_OBJECTS.to_vec());
        assert_eq!(both(&mut tally, "2^40 bytes", &pair, 0, 0)[..2], [number, 0]);
        let pair = of(pair.second, pair.first);
        assert_eq!(both(&mut tally, "2^40 bytes", &pair, 0, 0)[..2], [number, 0]);
    }
    tally.report(5);
}
