//! Rescuing what is sound, against the second program: files of both layouts of which some objects have faults of their own, files that fail before their objects' names, every refusal of an object in every
//! place, all dropped, none, and the writer's limits; with rooms that are ample, exact, one short or none. Answer, list, bytes, what must stay of both, and the lent rows, which end as zeros.

use against::tally::{rounds, seed, Tally};
use second::compose::{component, data, dense, named, object, root, with};
use second::encode::Item;
use second::frame;
use second::generate::Generator;
use second::layout::Layout;
use second::rescue::{self, ENTRY};

const FILES: u64 = rounds(100_000);
const MARK: u8 = 0xA5;
const NUMBER: u64 = 9;
const BIG: u64 = 4;
const COUNT: u64 = 15;
const ROOM: u64 = 24;

/// Numbers of rows, numbers of the list, bytes of the output.
type Rooms = [usize; 3];

/// Both answers for these rooms, which are the same, with the same list, bytes and rows: the answer's numbers, and the list.
fn both(tally: &mut Tally, label: &str, layout: u64, file: &[u8], rooms: Rooms) -> ([u64; 6], Vec<u64>) {
    let (mut rows, mut list, mut out) = (vec![NUMBER; rooms[0]], vec![NUMBER; rooms[1]], vec![MARK; rooms[2]]);
    let (mut other_rows, mut other_list, mut other_out) = (rows.clone(), list.clone(), out.clone());
    let a = against::rescue(layout, file, &mut rows, &mut list, &mut out);
    let told = rescue::rescue(layout, file, &mut other_rows, &mut other_list, &mut other_out).numbers();
    let said = [a.number, a.object, a.component, a.kept, a.dropped, a.length];
    let what = match told {
        [0, _, _, _, 0, _] => format!("{label}: all kept"),
        [0, _, _, 0, ..] => format!("{label}: all dropped"),
        [0, ..] => format!("{label}: some dropped"),
        [ROOM, ..] => format!("{label}: no room"),
        _ => format!("{label}: refused"),
    };
    let shown = || format!("{label}, layout {layout}, {rooms:?}: {:02x?}", &file[..file.len().min(4096)]);
    tally.compare(what, said, told, shown);
    assert!(list == other_list, "seed {}, {label}: the lists differ", seed());
    assert!(out == other_out, "seed {}, {label}: the bytes differ", seed());
    assert!(rows.iter().all(|&number| number == 0), "seed {}, {label}: the rows aren't cleared", seed());
    (said, list)
}

/// No room at all, exact rooms by what that answers, each one short, and ample ones; the list, empty on refusal.
fn every_room(tally: &mut Tally, label: &str, layout: u64, file: &[u8], rows: usize) -> Vec<u64> {
    let (none, _) = both(tally, label, layout, file, [0; 3]);
    if none[0] != ROOM {
        both(tally, label, layout, file, [40, 40, 400]);
        return Vec::new();
    }
    let exact = [rows, ENTRY * none[4] as usize, none[5] as usize];
    let (done, list) = both(tally, label, layout, file, exact);
    assert_eq!((done[0], &done[3..]), (0, &none[3..]), "seed {}, {label}", seed());
    both(tally, label, layout, file, exact.map(|room| room + 7));
    for short in 0..3 {
        let mut rooms = exact;
        if rooms[short] > 0 {
            rooms[short] -= 1;
            let (told, _) = both(tally, label, layout, file, rooms);
            assert_eq!((told[0], &told[3..]), (ROOM, &none[3..]), "seed {}, {label}", seed());
        }
    }
    list
}

/// How many numbers the rows of what is kept take: those of the rescued file, read back.
fn numbers(layout: u64, file: &[u8]) -> usize {
    let (mut rows, mut list, mut out) = (vec![0; second::columns::MOST], vec![0; 4_000], vec![0; 4 * file.len() + (1 << 13)]);
    let told = rescue::rescue(layout, file, &mut rows, &mut list, &mut out);
    if told.number != 0 {
        return 0;
    }
    let read = second::rows::read(&out[..told.length as usize], &mut rows);
    second::columns::numbers(read.objects as usize, read.components as usize)
}

#[test]
fn partly_sound() {
    let mut tally = Tally::of("rescuing");
    let mut generator = Generator::new(seed());
    let mut seen = [[0usize; 24]; 2];
    for index in 0..FILES {
        let layout = Layout::of(index % 2);
        let file = match index % 16 {
            14 => generator.next_file_as(layout),
            15 => generator.next_damaged_file_as(layout),
            _ => generator.next_partly_sound(layout),
        };
        let number = layout.number();
        for entry in every_room(&mut tally, "files", number, &file, numbers(number, &file)).chunks(ENTRY) {
            seen[number as usize][entry[1] as usize] += 1;
        }
    }
    for number in [8, 9, 10, 11, 12, 15, 16, 17, 19, 20, 21, 22, 23] {
        assert!(seen.iter().all(|of| of[number] > 0), "no object with {number}: {seen:?}");
    }
    assert!(seen[0][18] > 0, "no object with 18");
    tally.report(5);
}

/// An object for each refusal that it can have, with its number and component.
fn faulty() -> Vec<(Item, u64, u64)> {
    let of = |shape: &[u64], format: &str, parts: Item| object(shape, format, parts);
    let one = |part: Item| of(&[2], "dense", named([("data", part)]));
    let parts = |count: u64| Item::Map((0..count).map(|at| (Item::text(at.to_string()), data())).collect());
    let odd_key = Item::Map(vec![(Item::Unsigned(1), Item::null())]);
    let typed = |name: &str| with(component("u8", 64, 2), "type", Item::text(name));
    vec![
        (Item::null(), 8, 0),
        (odd_key, 9, 0),
        (with(dense(data()), "shape", Item::null()), 11, 0),
        (of(&[2], "dense", named([("data", data()), ("data", data())])), 11, 0),
        (one(with(data(), "type", Item::Text(vec![0xFF]))), 10, 0),
        (named([]), 12, 0),
        (of(&[1; 9], "x", named([])), 15, 0),
        (of(&[], "x", parts(17)), 15, 0),
        (one(component("f33", 64, 8)), 16, 0),
        (one(with(data(), "encoding", Item::text("zstd"))), 17, 0),
        (one(typed("complex64")), 18, 0),
        (of(&[2], "dense", named([("x", data()), ("data", component("f32", 65, 8))])), 19, 1),
        (one(component("f32", 128, 8)), 20, 0),
        (of(&[2], "sparse_csr", named([])), 21, 0),
        (of(&[2], "dense", named([])), 22, 0),
        (of(&[3], "dense", named([("x", data()), ("y", data()), ("data", data())])), 23, 2),
    ]
}

#[test]
fn every_refusal_in_every_place() {
    let mut tally = Tally::of("one object refused, or all");
    let file = |objects: Vec<(Item, Item)>| frame::assemble(&[7; 120], &root(Item::Map(objects)).shortest());
    let name = |at: usize| Item::text(at.to_string());
    for (bad, number, component) in faulty() {
        for place in 0..4 {
            let objects = (0..4).map(|at| (name(at), if at == place { bad.clone() } else { dense(data()) }));
            let list = every_room(&mut tally, "one of four", 0, &file(objects.collect()), 3 * 28);
            assert_eq!(list, [place as u64, number, component]);
        }
        let list = every_room(&mut tally, "the only one", 0, &file(vec![(name(0), bad)]), 0);
        assert_eq!(list, [0, number, component]);
    }
    let all: Vec<_> = faulty().into_iter().enumerate().collect();
    let list = every_room(&mut tally, "each", 0, &file(all.iter().map(|(at, (bad, ..))| (name(*at), bad.clone())).collect()), 0);
    let expected: Vec<u64> = all.iter().flat_map(|(at, (_, number, component))| [*at as u64, *number, *component]).collect();
    assert_eq!(list, expected);
    let many = |count: usize| file((0..count).map(|at| (name(at), Item::null())).collect());
    assert_eq!(every_room(&mut tally, "1,024 objects", 0, &many(1024), 0).len(), ENTRY * 1024);
    assert_eq!(both(&mut tally, "1,025 objects", 0, &many(1025), [0; 3]).0, [COUNT, 0, 0, 0, 0, 0]);
    tally.report(9);
}

#[test]
fn limits() {
    let mut tally = Tally::of("limits of what is kept");
    // each component has the same 64 MiB, and the rescued file a copy for each
    const BLOB: usize = 1 << 26;
    let parts = || Item::Map((0..16).map(|at| (Item::text(at.to_string()), component("u8", 64, BLOB as u64))).collect());
    let heavy = |bad: Option<usize>| {
        let one = |at: usize| if bad == Some(at) { Item::null() } else { object(&[], "x", parts()) };
        let all = (0..1024).map(|at| (Item::text(at.to_string()), one(at)));
        frame::assemble(&vec![7; 64 - 8 + BLOB], &root(Item::Map(all.collect())).shortest())
    };
    assert_eq!(both(&mut tally, "2^40 bytes", 0, &heavy(None), [0; 3]).0, [COUNT, 0, 0, 0, 0, 0]);
    let (told, _) = both(&mut tally, "2^40 bytes", 0, &heavy(Some(5)), [0; 3]);
    assert_eq!((told[0], told[3], told[4]), (ROOM, 1_023, 1));
    // a version of three letters becomes one of five: the manifest passes its limit by two bytes, one, none
    for (layout, objects) in [(0, "objects"), (1, "tensors")] {
        for over in 0..4 {
            let size = frame::SIZE_LIMIT as usize - over;
            let of = |filler: usize| {
                let attributes = named([("k", Item::Bytes(vec![0; filler]))]);
                Item::map([("version", Item::text("1.0")), ("attributes", attributes), (objects, named([]))]).shortest()
            };
            let manifest = of(size - (of(1 << 17).len() - (1 << 17)));
            assert_eq!(manifest.len(), size);
            let file = Layout::of(layout).assemble(&[], &manifest);
            let (told, _) = both(&mut tally, "manifests", layout, &file, [0; 3]);
            assert_eq!(told[0], if over < 2 { BIG } else { ROOM }, "{over}");
        }
    }
    tally.report(4);
}
