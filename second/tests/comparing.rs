//! What changed between two models (Req 07): every kind and flag, the order of the list, refusals, rooms, and what is no difference.

use second::changes::{diff, differing, Changes};
use second::compose::{component, data, dense, named, object, root, with};
use second::encode::Item;
use second::frame;
use second::generate::{FilePair, Generator};
use second::layout::Layout;
use second::merge::merge;
use second::refusal::{ROOM, SHORT};
use second::columns::{COMPONENT_ROW, OBJECT_ROW};

const AMPLE: usize = 20_000;

/// A file whose blob bytes from 64 on are `blobs`.
fn file(objects: Item, blobs: &[u8]) -> Vec<u8> {
    frame::assemble(&[&[0; 56], blobs].concat(), &root(objects).shortest())
}

fn entries(pair: &FilePair) -> (Changes, Vec<[u64; 8]>) {
    let (mut work, mut list) = (vec![9; AMPLE], vec![9; AMPLE]);
    let answer = diff(
        pair.first_layout,
        &pair.first,
        pair.second_layout,
        &pair.second,
        &mut work,
        &mut list,
    );
    assert!(work.iter().all(|&n| n == 0));
    let (found, beyond) = list.split_at(8 * answer.entries as usize);
    assert!(beyond.iter().all(|&n| n == 9));
    let found = found.chunks(8).map(|entry| entry.try_into().unwrap());
    (answer, found.collect())
}

fn pair(first: &[u8], second: &[u8]) -> FilePair {
    FilePair {
        first_layout: 0,
        first: first.to_vec(),
        second_layout: 0,
        second: second.to_vec(),
    }
}

/// The list for two accepted 1.2.0 files.
fn list(first: &[u8], second: &[u8]) -> Vec<[u64; 8]> {
    let (answer, list) = entries(&pair(first, second));
    assert_eq!(
        (answer.number, answer.file, answer.object, answer.component),
        (0, 0, 0, 0)
    );
    list
}

#[test]
fn objects_only_in_one() {
    let one = |name| (name, dense(data()));
    let first = file(named([one("a"), one("b"), one("c")]), &[0; 64]);
    let second = file(named([one("x"), one("b"), one("y")]), &[0; 64]);
    let expected = [
        [1, 0, 0, 0, 0, 0, 0, 0],
        [1, 2, 0, 0, 0, 0, 0, 0],
        [2, 0, 0, 0, 0, 0, 0, 0],
        [2, 0, 2, 0, 0, 0, 0, 0],
    ];
    assert_eq!(list(&first, &second), expected);
}

#[test]
fn shape_format_and_component_names() {
    let of = |shape: &[u64], format, names: &[&str]| {
        let parts = names
            .iter()
            .map(|&name| (Item::text(name), component("u8", 64, 8)));
        let object = object(shape, format, Item::Map(parts.collect()));
        file(named([("z", dense(data())), ("w", object)]), &[5; 64])
    };
    let base = of(&[1, 2], "x", &["p", "q"]);
    assert_eq!(list(&base, &base), [[0; 8]; 0]);
    let whole = |differs| [3, 1, 1, 0, 0, differs, 0, 0];
    assert_eq!(list(&base, &of(&[2, 1], "x", &["p", "q"])), [whole(1)]);
    assert_eq!(list(&base, &of(&[1, 2, 1], "x", &["p", "q"])), [whole(1)]);
    assert_eq!(list(&base, &of(&[1, 2], "y", &["p", "q"])), [whole(2)]);
    assert_eq!(list(&base, &of(&[1], "y", &["q", "p"])), [whole(3)]);
    // order is no difference
    assert_eq!(list(&base, &of(&[1, 2], "x", &["q", "p"])), [[0; 8]; 0]);
    let expected = [
        whole(4),
        [5, 1, 1, 0, 0, 0, 0, 0],
        [6, 1, 1, 0, 0, 0, 0, 0],
        [6, 1, 1, 0, 2, 0, 0, 0],
    ];
    assert_eq!(list(&base, &of(&[1, 2], "x", &["r", "q", "s"])), expected);
}

#[test]
fn dtypes_types_and_bytes_of_components_in_both() {
    let typed = |dtype, name: &str| with(component(dtype, 64, 8), "type", Item::text(name));
    let of = |p: Item, q: Item| named([("w", object(&[], "x", named([("p", p), ("q", q)])))]);
    let plain = || component("u8", 64, 8);
    let base = file(of(plain(), plain()), &[5; 64]);
    let against = |p, q| list(&base, &file(of(p, q), &[5; 64]));
    let one = |whole, part, differs| {
        vec![
            [3, 0, 0, 0, 0, whole, 0, 0],
            [4, 0, 0, part, part, differs, 0, 0],
        ]
    };
    assert_eq!(against(component("i8", 64, 8), plain()), one(8, 0, 8));
    assert_eq!(against(plain(), typed("u8", "t")), one(16, 1, 16));
    // a type that is absent and an empty one differ
    assert_eq!(against(plain(), typed("u8", "")), one(16, 1, 16));
    assert_eq!(against(plain(), typed("bool", "")), one(24, 1, 24));
    let both = against(typed("u8", "t"), component("i8", 64, 8));
    let expected = [
        [3, 0, 0, 0, 0, 24, 0, 0],
        [4, 0, 0, 0, 0, 16, 0, 0],
        [4, 0, 0, 1, 1, 8, 0, 0],
    ];
    assert_eq!(both, expected);
    // null is absent
    let null = with(plain(), "type", Item::null());
    assert_eq!(against(null, plain()), [[0; 8]; 0]);
    // digests, attributes and offsets aren't compared
    let digest = with(component("u8", 64, 8), "digest", Item::text("d"));
    assert_eq!(against(digest, plain()), [[0; 8]; 0]);
}

#[test]
fn bytes_by_position() {
    assert_eq!(differing(b"", b""), (0, 0));
    assert_eq!(differing(b"abc", b"abc"), (0, 0));
    assert_eq!(differing(b"abc", b"abd"), (2, 1));
    assert_eq!(differing(b"abc", b"xbz"), (0, 2));
    assert_eq!(differing(b"abc", b"abcde"), (3, 2));
    assert_eq!(differing(b"abcde", b"axc"), (1, 3));
    assert_eq!(differing(b"", b"a"), (0, 1));
    let of = |length, blobs: &[u8]| {
        let parts = named([
            ("a", component("u8", 64, length)),
            ("b", component("u8", 128, 4)),
        ]);
        file(named([("w", object(&[], "x", parts))]), blobs)
    };
    let blobs: Vec<u8> = (0..80).collect();
    let mut other = blobs.clone();
    other[3] ^= 1;
    other[7] ^= 1;
    let expected = [[3, 0, 0, 0, 0, 32, 0, 0], [4, 0, 0, 0, 0, 32, 3, 4]];
    assert_eq!(list(&of(8, &blobs), &of(10, &other)), expected);
    assert_eq!(list(&of(10, &other), &of(8, &blobs)), expected);
    // gaps aren't bytes of a component
    other = blobs.clone();
    other[20] ^= 1;
    assert_eq!(list(&of(8, &blobs), &of(8, &other)), [[0; 8]; 0]);
}

#[test]
fn either_files_refusal_comes_first() {
    let sound = file(named([("w", dense(data()))]), &[0; 64]);
    let bad = file(
        named([("v", dense(data())), ("w", dense(component("f32", 65, 8)))]),
        &[0; 64],
    );
    let answer = |first: &[u8], second: &[u8]| {
        let (answer, list) = entries(&pair(first, second));
        assert_eq!((answer.entries, list.len()), (0, 0));
        (answer.number, answer.file, answer.object, answer.component)
    };
    assert_eq!(answer(&[], &bad), (SHORT.into(), 1, 0, 0));
    assert_eq!(answer(&bad, &[]), (19, 1, 1, 0));
    assert_eq!(answer(&sound, &bad), (19, 2, 1, 0));
}

#[test]
fn room_for_work_then_for_the_list() {
    let first = file(named([("a", dense(data()))]), &[0; 64]);
    let second = file(
        named([("b", dense(data())), ("c", dense(data()))]),
        &[0; 64],
    );
    let asked = |work: usize, list: usize| {
        let (mut work, mut list) = (vec![1; work], vec![2; list]);
        let answer = diff(0, &first, 0, &second, &mut work, &mut list);
        assert!(work.iter().all(|&n| n == 0));
        assert!(answer.number == 0 || list.iter().all(|&n| n == 2));
        (answer.number, answer.entries)
    };
    let work = 3 * (OBJECT_ROW + COMPONENT_ROW);
    let room = u64::from(ROOM);
    assert_eq!(asked(work, 24), (0, 3));
    assert_eq!(asked(work, 23), (room, 3));
    assert_eq!(asked(work, 0), (room, 3));
    assert_eq!(asked(work - 1, 24), (room, 0));
    assert_eq!(asked(work - 1, 0), (room, 0));
}

/// Exchanging the files exchanges the list: kinds 1 and 2, 5 and 6, and the indices.
#[test]
fn generated_pairs_exchange_and_are_like_themselves() {
    let mut generator = Generator::new(31);
    let (mut kinds, mut flags, mut flags_of_parts) = ([0usize; 7], [0usize; 64], [0usize; 64]);
    for _ in 0..8_000 {
        let pair = generator.next_pair();
        let (answer, list) = entries(&pair);
        let back = FilePair {
            first_layout: pair.second_layout,
            first: pair.second.clone(),
            second_layout: pair.first_layout,
            second: pair.first.clone(),
        };
        let (back_answer, mut back) = entries(&back);
        if answer.number != 0 {
            assert!(back_answer.number != 0);
            continue;
        }
        for entry in &list {
            kinds[entry[0] as usize] += 1;
            match entry[0] {
                3 => flags[entry[5] as usize] += 1,
                4 => flags_of_parts[entry[5] as usize] += 1,
                _ => assert_eq!(entry[5..], [0; 3]),
            }
        }
        let exchanged = |&[kind, a, b, c, d, differs, position, count]: &[u64; 8]| {
            let kind = [0, 2, 1, 3, 4, 6, 5][kind as usize];
            [kind, b, a, d, c, differs, position, count]
        };
        let mut mirrored: Vec<_> = list.iter().map(exchanged).collect();
        mirrored.sort();
        back.sort();
        assert_eq!(mirrored, back);
        // A file beside itself written anew, whichever its layout was.
        let mut new = vec![0; 4 * pair.first.len() + (1 << 13)];
        let (mut rows, empty) = (vec![0; AMPLE], second::cases::NO_OBJECTS);
        let written = merge(
            pair.first_layout,
            &pair.first,
            0,
            empty,
            &mut rows,
            &mut new,
        );
        assert_eq!(written.number, 0);
        new.truncate(written.length as usize);
        let same = FilePair {
            second_layout: Layout::Current.number(),
            second: new,
            ..pair
        };
        assert_eq!(entries(&same).1, [[0; 8]; 0]);
    }
    assert!(kinds[1..].iter().all(|&count| count > 100), "{kinds:?}");
    for flag in [1, 2, 4, 8, 16, 32] {
        assert!(
            (0..64).any(|all| all & flag != 0 && flags[all] > 10),
            "{flag}"
        );
    }
    for flag in [8, 16, 32] {
        assert!(flags_of_parts[flag] > 10, "{flag}");
    }
    assert!(flags_of_parts[0] == 0 && flags[0] == 0);
}
