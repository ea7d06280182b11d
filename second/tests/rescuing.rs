//! Rescuing what is sound (Req 14): what is kept and dropped, the order of refusals, rooms.

use second::compose::{component, data, dense, named, object, root, with};
use second::encode::Item;
use second::frame;
use second::generate::Generator;
use second::layout::Layout;
use second::refusal::{ALIGN, COUNT, KIND, LENGTH, MISSING, ROLE, ROOM, TWICE};
use second::rescue::{rescue, Rescued};
use second::columns::{COMPONENT_ROW, OBJECT_ROW};
use second::rows::{read, read_as, split};
use second::writer::write;

const AMPLE: usize = 20_000;

fn file(objects: Item) -> Vec<u8> {
    frame::assemble(&[7; 120], &root(objects).shortest())
}

/// Rescues with ample room: the answer, the list, the file.
fn rescued(layout: u64, file: &[u8]) -> (Rescued, Vec<u64>, Vec<u8>) {
    let (mut rows, mut list) = (vec![9; AMPLE], vec![9; 4_000]);
    let mut out = vec![0xA5; 4 * file.len() + (1 << 13)];
    let answer = rescue(layout, file, &mut rows, &mut list, &mut out);
    assert!(rows.iter().all(|&number| number == 0));
    let (entries, length) = match answer.number {
        0 => (3 * answer.dropped as usize, answer.length as usize),
        _ => (0, 0),
    };
    assert!(list[entries..].iter().all(|&number| number == 9));
    assert!(out[length..].iter().all(|&byte| byte == 0xA5));
    list.truncate(entries);
    out.truncate(length);
    (answer, list, out)
}

fn refused(number: u8) -> Rescued {
    Rescued {
        number: number.into(),
        ..Rescued::default()
    }
}

#[test]
fn one_bad_object_doesnt_lose_the_good_ones() {
    let objects = named([
        ("a", dense(data())),
        ("b", Item::null()),
        ("c", dense(component("f32", 65, 8))),
        (
            "d",
            object(&[3], "dense", named([("x", data()), ("data", data())])),
        ),
        ("e", dense(data())),
        ("f", object(&[2], "dense", named([("x", data())]))),
        ("g", named([])),
    ]);
    let (answer, list, out) = rescued(0, &file(objects));
    assert_eq!((answer.number, answer.kept, answer.dropped), (0, 2, 5));
    let entry = |index, number: u8, component| [index, u64::from(number), component];
    let expected = [
        entry(1, KIND, 0),
        entry(2, ALIGN, 0),
        entry(3, LENGTH, 1),
        entry(5, ROLE, 0),
        entry(6, MISSING, 0),
    ];
    assert_eq!(list, expected.concat());
    let mut table = vec![0; 100];
    assert_eq!(read(&out, &mut table).objects, 2);
    let (objects, components) = split(&table, 2, 2).unwrap();
    assert_eq!(objects[0].name.of(&out), Some(&b"a"[..]));
    assert_eq!(objects[1].name.of(&out), Some(&b"e"[..]));
    assert_eq!(components[1].blob.of(&out), Some(&[7; 8][..]));
}

#[test]
fn a_file_that_fails_earlier_gets_the_readers_refusal() {
    let twice = Item::Map(vec![
        (Item::text("a"), Item::null()),
        (Item::text("a"), Item::null()),
    ]);
    assert_eq!(rescued(0, &file(twice)).0, refused(TWICE));
    assert_eq!(rescued(0, &[]).0, refused(1));
    let no_objects = Item::map([("version", Item::text("1.2.0"))]).shortest();
    assert_eq!(
        rescued(0, &frame::assemble(&[], &no_objects)).0,
        refused(MISSING)
    );
    let many = (0..1_025).map(|at| (Item::text(at.to_string()), Item::null()));
    assert_eq!(
        rescued(0, &file(Item::Map(many.collect()))).0,
        refused(COUNT)
    );
    let many = (0..1_024).map(|at| (Item::text(at.to_string()), Item::null()));
    let (answer, list, out) = rescued(0, &file(Item::Map(many.collect())));
    assert_eq!(
        (answer.number, answer.kept, answer.dropped, answer.length),
        (0, 0, 1_024, 48)
    );
    assert_eq!(list[3 * 1_023..], [1_023, 8, 0]);
    assert_eq!(out, second::cases::NO_OBJECTS);
}

#[test]
fn rooms_are_judged_last_and_together() {
    let objects = named([("a", dense(data())), ("b", Item::null())]);
    let file = file(with(objects, "c", Item::null()));
    let (whole, _, _) = rescued(0, &file);
    let rooms = [OBJECT_ROW + COMPONENT_ROW, 6, whole.length as usize];
    let asked = |[rows, list, out]: [usize; 3]| {
        let (mut rows, mut list, mut out) = (vec![1; rows], vec![2; list], vec![3; out]);
        let answer = rescue(0, &file, &mut rows, &mut list, &mut out);
        assert!(rows.iter().all(|&n| n == 0));
        if answer.number != 0 {
            assert!(list.iter().all(|&n| n == 2) && out.iter().all(|&n| n == 3));
        }
        answer
    };
    assert_eq!(asked(rooms), whole);
    for short in 0..3 {
        let mut rooms = rooms;
        rooms[short] -= 1;
        let room = Rescued {
            number: ROOM.into(),
            ..whole
        };
        assert_eq!(asked(rooms), room);
    }
}

#[test]
fn the_writers_count_stands() {
    const BLOB: u64 = 1 << 26;
    let parts = || {
        let parts = (0..16).map(|at| (Item::text(at.to_string()), component("u8", 64, BLOB)));
        object(&[], "", Item::Map(parts.collect()))
    };
    let mut objects: Vec<_> = (0..1_024)
        .map(|at| (Item::text(at.to_string()), parts()))
        .collect();
    let blobs = vec![0; BLOB as usize + 56];
    let sound = frame::assemble(&blobs, &root(Item::Map(objects.clone())).shortest());
    assert_eq!(rescue(0, &sound, &mut [], &mut [], &mut []), refused(COUNT));
    objects[5].1 = Item::null();
    let partly = frame::assemble(&blobs, &root(Item::Map(objects)).shortest());
    let answer = rescue(0, &partly, &mut [], &mut [], &mut []);
    assert_eq!(
        (answer.number, answer.kept, answer.dropped),
        (u64::from(ROOM), 1_023, 1)
    );
}

#[test]
fn generated_files_keep_exactly_the_sound_objects() {
    let mut generator = Generator::new(21);
    let (mut some, mut all, mut none, mut numbers) = (0, 0, 0, [0usize; 24]);
    for index in 0..12_000 {
        let layout = Layout::of(index % 2);
        let file = generator.next_partly_sound(layout);
        let number = layout.number();
        let (answer, list, out) = rescued(number, &file);
        let mut table = vec![0; 4_000];
        let whole = read_as(number, &file, &mut table);
        if answer.number != 0 {
            assert_eq!(
                (answer.number, answer.object, answer.component),
                (u64::from(whole.number), 0, 0)
            );
            none += 1;
            continue;
        }
        for entry in list.chunks(3) {
            numbers[entry[1] as usize] += 1;
        }
        // The first dropped one is what the reader names; a sound file is read and written.
        match list.first() {
            Some(&first) => {
                assert_eq!((whole.object, whole.component), (first, list[2]));
                assert_eq!(u64::from(whole.number), list[1]);
                some += 1;
            }
            None => {
                assert_eq!(whole.number, 0);
                let mut written = vec![0; out.len()];
                let (place, length) = (whole.attributes_place, whole.attributes_length);
                write(
                    &table,
                    whole.objects,
                    whole.components,
                    place,
                    length,
                    &file,
                    &mut written,
                );
                assert_eq!(written, out);
                all += 1;
            }
        }
        // What was written is accepted, and rescuing it changes nothing.
        assert_eq!(read(&out, &mut table).objects, answer.kept);
        let (again, list, same) = rescued(0, &out);
        assert_eq!((again.number, again.dropped, list.len()), (0, 0, 0));
        assert_eq!(same, out);
    }
    assert!(
        some > 2_000 && all > 800 && none > 400,
        "{some} {all} {none}"
    );
    for number in [8, 9, 10, 11, 12, 15, 16, 17, 18, 19, 20, 21, 22, 23] {
        assert!(numbers[number] > 10, "{number}");
    }
}
