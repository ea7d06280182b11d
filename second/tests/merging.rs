//! Merging two files (Req 10) and its algebra (Req 13): order of refusals, rooms, attributes, read-back.

use second::cases::{self, NO_OBJECTS};
use second::compose::{component, data, dense, named, object, root, with};
use second::encode::Item;
use second::frame;
use second::generate::Generator;
use second::layout::Layout;
use second::merge::{merge, Merged};
use second::refusal::{COUNT, KIND, ROOM, SHORT, TWICE};
use second::columns::{COMPONENT_ROW, OBJECT_ROW};
use second::rows::{read, read_as, split};
use second::writer::write;

const AMPLE: usize = 20_000;
const MARK: u8 = 0xA5;

fn file(manifest: &Item) -> Vec<u8> {
    let mut blobs = vec![0; 64];
    blobs[56..].copy_from_slice(b"12345678");
    frame::assemble(&blobs, &manifest.shortest())
}

fn one(name: &str) -> Item {
    root(named([(name, dense(data()))]))
}

/// Merges two 1.2.0 files with ample room; the output is cut to its length.
fn merged(first: &[u8], second: &[u8]) -> (Merged, Vec<u8>) {
    merged_as(0, first, 0, second)
}

fn merged_as(
    first_layout: u64,
    first: &[u8],
    second_layout: u64,
    second: &[u8],
) -> (Merged, Vec<u8>) {
    let mut out = vec![MARK; 2 * (first.len() + second.len()) + (1 << 13)];
    let mut rows = vec![9; AMPLE];
    let answer = merge(
        first_layout,
        first,
        second_layout,
        second,
        &mut rows,
        &mut out,
    );
    assert!(rows.iter().all(|&number| number == 0));
    let length = match answer.number {
        0 => answer.length as usize,
        _ => 0,
    };
    assert!(out[length..].iter().all(|&byte| byte == MARK));
    out.truncate(length);
    (answer, out)
}

fn refused(number: u8, file: u64) -> Merged {
    Merged {
        number: number.into(),
        file,
        ..Merged::default()
    }
}

#[test]
fn first_file_then_second_then_the_writer() {
    let bad = file(&root(named([("w", Item::null())])));
    let (w, v) = (file(&one("w")), file(&one("v")));
    assert_eq!(merged(&[], &bad).0, refused(SHORT, 1));
    assert_eq!(merged(&bad, &[]).0, refused(KIND, 1));
    assert_eq!(merged(&w, &[]).0, refused(SHORT, 2));
    assert_eq!(merged(&w, &w).0, refused(TWICE, 0));
    let (answer, both) = merged(&w, &v);
    assert_eq!((answer.number, answer.file), (0, 0));
    let mut table = vec![0; 2 * (OBJECT_ROW + COMPONENT_ROW)];
    let read = read(&both, &mut table);
    assert_eq!((read.number, read.objects, read.components), (0, 2, 2));
    let (objects, components) = split(&table, 2, 2).unwrap();
    assert_eq!(objects[0].name.of(&both), Some(&b"w"[..]));
    assert_eq!(objects[1].name.of(&both), Some(&b"v"[..]));
    for row in components {
        assert_eq!(row.blob.of(&both), Some(&b"12345678"[..]));
    }
}

#[test]
fn a_refusal_of_a_file_has_its_indices() {
    let bad = named([("w", dense(data())), ("v", dense(component("f32", 65, 8)))]);
    let answer = merged(&file(&one("w")), &file(&root(bad))).0;
    assert_eq!(
        (answer.number, answer.file, answer.object, answer.component),
        (19, 2, 1, 0)
    );
}

#[test]
fn room_is_last_and_says_the_length() {
    let (w, v) = (file(&one("w")), file(&one("v")));
    let length = merged(&w, &v).0.length;
    let rows = 2 * (OBJECT_ROW + COMPONENT_ROW);
    let asked = |rows: usize, room: usize, second: &[u8]| {
        let (mut rows, mut out) = (vec![7; rows], vec![MARK; room]);
        let answer = merge(0, &w, 0, second, &mut rows, &mut out);
        assert!(rows.iter().all(|&number| number == 0));
        if answer.number != 0 {
            assert!(out.iter().all(|&byte| byte == MARK));
        }
        answer
    };
    let room = Merged {
        length,
        ..refused(ROOM, 0)
    };
    let length = length as usize;
    assert_eq!(asked(rows, length, &v).number, 0);
    assert_eq!(asked(rows - 1, length, &v), room);
    assert_eq!(asked(rows, length - 1, &v), room);
    assert_eq!(asked(0, 0, &v), room);
    // rows too short and a shared name are TWICE
    assert_eq!(asked(0, 0, &w), refused(TWICE, 0));
}

#[test]
fn root_attributes_are_the_firsts_if_any() {
    let attributes = |name: &str, value: Item| file(&with(one(name), "attributes", value));
    let (empty, full) = (Item::map([]), Item::map([("k", Item::Unsigned(1))]));
    let none = file(&one("w"));
    let of = |first: &[u8], second: &[u8]| {
        let (answer, both) = merged(first, second);
        assert_eq!(answer.number, 0);
        let read = read(&both, &mut vec![0; 100]);
        let place = read.attributes_place as usize;
        both[place..place + read.attributes_length as usize].to_vec()
    };
    assert_eq!(of(&none, &attributes("v", full.clone())), b"\xA1\x61k\x01");
    assert_eq!(of(&attributes("v", full.clone()), &none), b"\xA1\x61k\x01");
    // attributes that are there but empty count
    assert_eq!(of(&attributes("v", empty), &attributes("x", full)), b"\xA0");
    assert_eq!(merged(&none, &file(&one("v"))).1[..8], *b"ZTEN1000");
}

#[test]
fn unknown_fields_are_dropped_and_shared_blobs_copied() {
    let two = named([("a", component("u8", 64, 8)), ("b", component("u8", 64, 8))]);
    let first = root(named([(
        "w",
        with(object(&[], "x", two), "note", Item::null()),
    )]));
    let (answer, out) = merged(&file(&first), NO_OBJECTS);
    assert_eq!(answer.number, 0);
    assert_eq!(&out[64..72], b"12345678");
    assert_eq!(&out[128..136], b"12345678");
    assert!(!out.windows(4).any(|part| part == b"note"));
}

#[test]
fn the_object_limit_of_both_together() {
    let many = |from: usize, count: usize| {
        let empty = || object(&[], "", named([]));
        let names = (from..from + count).map(|at| (Item::text(at.to_string()), empty()));
        frame::assemble(&[], &root(Item::Map(names.collect())).shortest())
    };
    assert_eq!(merged(&many(0, 512), &many(512, 512)).0.number, 0);
    assert_eq!(merged(&many(0, 512), &many(512, 513)).0, refused(COUNT, 0));
    // the count is judged before repeats
    assert_eq!(merged(&many(0, 512), &many(0, 513)).0, refused(COUNT, 0));
    assert_eq!(merged(&many(0, 512), &many(511, 512)).0, refused(TWICE, 0));
}

#[test]
fn both_layouts_merge_into_1_2_0() {
    let tensor = Item::map([
        ("dtype", Item::text("float32")),
        ("shape", Item::Array(vec![Item::Unsigned(2)])),
        ("format", Item::text("dense")),
        (
            "components",
            named([(
                "data",
                Item::map([
                    ("offset", Item::Unsigned(64)),
                    ("length", Item::Unsigned(8)),
                ]),
            )]),
        ),
    ]);
    let old = Item::map([
        ("version", Item::text("1.0")),
        ("tensors", named([("t", tensor)])),
    ]);
    let old = Layout::First.assemble(&[3; 64], &old.shortest());
    let new = file(&one("w"));
    let (answer, out) = merged_as(1, &old, 0, &new);
    assert_eq!(answer.number, 0);
    let mut table = vec![0; 100];
    assert_eq!(read(&out, &mut table).number, 0);
    let (_, components) = split(&table, 2, 2).unwrap();
    assert_eq!(components[0].blob.of(&out), Some(&[3; 8][..]));
    assert_eq!(components[1].blob.of(&out), Some(&b"12345678"[..]));
    assert_eq!(merged_as(0, &old, 0, &new).0.file, 1);
    assert_eq!(merged_as(0, &new, 1, &old).0.number, 0);
}

/// Reading a file and writing its rows.
fn rewritten(layout: u64, file: &[u8]) -> Option<Vec<u8>> {
    let mut table = vec![0; AMPLE];
    let answer = read_as(layout, file, &mut table);
    let mut out = vec![0; 4 * file.len() + (1 << 13)];
    let written = write(
        &table,
        answer.objects,
        answer.components,
        answer.attributes_place,
        answer.attributes_length,
        file,
        &mut out,
    );
    out.truncate(written.length as usize);
    (answer.number == 0 && written.number == 0).then_some(out)
}

#[test]
fn generated_pairs_merge_as_the_writer_writes() {
    let mut generator = Generator::new(11);
    let (mut accepted, mut seen) = (0, [[0usize; 3]; 26]);
    for _ in 0..8_000 {
        let pair = generator.next_pair();
        let (answer, out) = merged_as(
            pair.first_layout,
            &pair.first,
            pair.second_layout,
            &pair.second,
        );
        seen[answer.number as usize][answer.file as usize] += 1;
        if answer.number != 0 {
            continue;
        }
        accepted += 1;
        // With the empty file, a merge is reading and writing; once written, it changes nothing.
        let once = rewritten(pair.first_layout, &pair.first).unwrap();
        assert_eq!(
            merged_as(pair.first_layout, &pair.first, 0, NO_OBJECTS).1,
            once
        );
        assert_eq!(merged(NO_OBJECTS, &once).1, once);
        assert_eq!(merged(&once, NO_OBJECTS).1, once);
        assert_eq!(rewritten(0, &once).unwrap(), once);
        assert_eq!(rewritten(0, &out).unwrap(), out);
    }
    assert!(accepted > 2_000);
    assert!(seen[usize::from(TWICE)][0] > 400);
    for file in [1, 2] {
        assert!(seen[1..].iter().map(|of| of[file]).sum::<usize>() > 200);
    }
}

#[test]
fn grouping_doesnt_matter() {
    let mut generator = Generator::new(12);
    let mut met = 0;
    for _ in 0..3_000 {
        let (one, two) = (generator.next_pair(), generator.next_pair());
        let a = (one.first_layout, &one.first[..]);
        let b = (one.second_layout, &one.second[..]);
        let c = (two.first_layout, &two.first[..]);
        let ab = merged_as(a.0, a.1, b.0, b.1);
        let bc = merged_as(b.0, b.1, c.0, c.1);
        if ab.0.number != 0 || bc.0.number != 0 {
            continue;
        }
        let left = merged_as(0, &ab.1, c.0, c.1);
        let right = merged_as(a.0, a.1, 0, &bc.1);
        if left.0.number == 0 && right.0.number == 0 {
            assert_eq!(left, right);
            met += 1;
        }
    }
    assert!(met > 150);
}

/// 1,024 objects of 16 components that share 64 MiB reach past 2^40; a merge is COUNT before TWICE.
#[test]
fn two_to_the_40_is_reached_by_shared_bytes() {
    const BLOB: u64 = 1 << 26;
    let parts = || {
        let parts = (0..16).map(|at| (Item::text(at.to_string()), component("u8", 64, BLOB)));
        object(&[], "", Item::Map(parts.collect()))
    };
    let objects = |count: usize| {
        let objects = (0..count).map(|at| (Item::text(at.to_string()), parts()));
        root(Item::Map(objects.collect())).shortest()
    };
    let blobs = vec![0; BLOB as usize + 56];
    let first = frame::assemble(&blobs, &objects(1_023));
    let second = frame::assemble(&blobs, &objects(1));
    let answer = merge(0, &first, 0, &second, &mut [], &mut []);
    assert_eq!(answer, refused(COUNT, 0));
    let answer = merge(0, &first, 0, &cases::one_dense_object(), &mut [], &mut []);
    assert_eq!(answer.number, u64::from(ROOM));
    assert!(answer.length > 1_023 << 30);
}
