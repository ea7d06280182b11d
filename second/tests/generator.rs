//! What the seeded generator reaches, and properties that hold of whatever it gives.

use second::alike::item_of;
use second::cbor::{self, Kind, DEPTH};
use second::columns::numbers;
use second::frame::manifest_range;
use second::generate::{Generator, RowSet};
use second::judge::{judge, judge_file, Manifest};
use second::listing::listing;
use second::refusal::{BIG, CBOR, COUNT, DEEP, INDEX, LENGTH, ROOM, ROW};
use second::rows::{read, split, Answer, ComponentRow, ObjectRow, Part};
use second::view::view;

const FILES: usize = 200_000;
const ROWS: usize = 60_000;

/// Marks numbers and bytes that must stay.
const MARK: u64 = 0x5555_AAAA_5555_AAAA;
const MARK_BYTE: u8 = 0xA5;

fn room(answer: &Answer) -> usize {
    numbers(answer.objects as usize, answer.components as usize)
}

#[test]
fn same_seed_same_files() {
    let mut one = Generator::new(7);
    let mut two = Generator::new(7);
    for _ in 0..1000 {
        assert_eq!(one.next_file(), two.next_file());
        assert_eq!(one.next_damaged_file(), two.next_damaged_file());
        assert_eq!(one.next_item(), two.next_item());
        assert_eq!(one.next_rows(), two.next_rows());
    }
    let ten = |seed| {
        let mut generator = Generator::new(seed);
        [(); 10].map(|()| generator.next_file())
    };
    assert_ne!(ten(7), ten(8));
}

#[test]
fn files_reach_every_refusal_and_keep_the_readers_promises() {
    let mut generator = Generator::new(1);
    let mut seen = [0usize; 27];
    let mut table = vec![MARK; 40_000];
    for _ in 0..FILES {
        let file = generator.next_file();
        let answer = read(&file, &mut table);
        seen[usize::from(answer.number)] += 1;
        if answer.number == 0 {
            accepted(&file, &answer, &table);
            if refused_for_room(&file, &answer) {
                seen[usize::from(ROOM)] += 1;
            }
            table[..room(&answer)].fill(MARK);
        } else {
            let refusal = judge_file(&file).unwrap_err();
            let expected = Answer {
                number: refusal.number,
                object: refusal.object,
                component: refusal.component,
                ..Answer::default()
            };
            assert_eq!(answer, expected);
        }
        // Accepted rows were marked over again, so a mark that is gone was written by a refusal or
        // beyond the rows.
        assert!(table[..200].iter().all(|&number| number == MARK));
    }
    assert!(table.iter().all(|&number| number == MARK));
    println!("accepted {}", seen[0]);
    for (number, count) in seen.iter().enumerate().skip(1) {
        println!("refused {number}: {count}");
    }
    assert!(seen[0] > FILES / 5);
    for (number, &count) in seen[..=usize::from(LENGTH)].iter().enumerate() {
        assert!(count > FILES / 1000, "refusal {number}");
    }
    assert!(seen[usize::from(ROOM)] > 0);
}

/// Rows, views and the listing of an accepted file agree with the file.
fn accepted(file: &[u8], answer: &Answer, table: &[u64]) {
    let (objects, components) = split(table, answer.objects, answer.components).unwrap();
    let text = |part: Part| part.of(file).unwrap();
    for object in &objects {
        assert!(std::str::from_utf8(text(object.name)).is_ok());
        assert!(std::str::from_utf8(text(object.format)).is_ok());
        assert!(object.dimensions[object.rank as usize..]
            .iter()
            .all(|&d| d == 0));
    }
    for (index, row) in (0..).zip(&components) {
        let blob = view(file, table, answer.objects, answer.components, index);
        assert_eq!(blob, Ok((row.blob.place, row.blob.length)));
        assert!(row.blob.place >= 64 && row.blob.place % 64 == 0);
        assert!(row.blob.place + row.blob.length <= answer.manifest_start);
        // Its entry, alone, is one map after its name, and nothing is left over.
        let entry = text(row.entry);
        let item = cbor::first_item(entry, DEPTH).unwrap();
        assert!(matches!(item.kind, Kind::Map(_)) && item.end == entry.len());
        assert_eq!(row.entry.place, row.name.place + row.name.length);
    }
    let past = view(
        file,
        table,
        answer.objects,
        answer.components,
        answer.components,
    );
    assert_eq!(past, Err(INDEX));
    let lines = listing(file, table, answer.objects, answer.components).unwrap();
    let count = lines.iter().filter(|&&byte| byte == b'\n').count();
    assert_eq!(count, 1 + objects.len() + components.len());
}

/// Reads again with a table one number too short; a table of exactly the room is enough.
fn refused_for_room(file: &[u8], answer: &Answer) -> bool {
    let mut exact = vec![MARK; room(answer)];
    assert_eq!(read(file, &mut exact), *answer);
    let Some(short) = room(answer).checked_sub(1) else {
        return false;
    };
    let mut table = vec![MARK; short];
    let refused = Answer {
        number: ROOM,
        ..Answer::default()
    };
    assert_eq!(read(file, &mut table), refused);
    assert!(table.iter().all(|&number| number == MARK));
    true
}

#[test]
fn limits_are_met_and_passed_by_one() {
    let mut generator = Generator::new(2);
    let mut objects_met = false;
    let mut objects_passed = false;
    let mut size_met = false;
    let mut size_passed = false;
    let mut components_met = false;
    let mut rank_met = false;
    for _ in 0..120_000 {
        let file = generator.next_file();
        let size_limit = file.len() >= 16_777_216;
        match judge_file(&file) {
            Ok((_, manifest)) => {
                size_met |= size_limit;
                objects_met |= manifest.objects.len() == 1024;
                for object in &manifest.objects {
                    components_met |= object.components.len() == 16;
                    rank_met |= object.shape.len() == 8;
                }
            }
            Err(refusal) => {
                size_passed |= size_limit && refusal.number == BIG;
                objects_passed |= file.len() > 20_000 && refusal.number == COUNT;
            }
        }
    }
    assert!(objects_met && objects_passed);
    assert!(size_met && size_passed);
    assert!(components_met && rank_met);
}

#[test]
fn items_are_skipped_whole() {
    let mut generator = Generator::new(3);
    let (mut sound, mut malformed, mut deep) = (0, 0, 0);
    for _ in 0..200_000 {
        let item = generator.next_item();
        match cbor::skip_item(&item, DEPTH) {
            Ok(length) => {
                sound += 1;
                assert!((1..=item.len()).contains(&length));
                // What follows changes nothing; a byte less is ended early.
                assert_eq!(cbor::skip_item(&item[..length], DEPTH), Ok(length));
                assert_eq!(cbor::skip_item(&item[..length - 1], DEPTH), Err(CBOR));
            }
            Err(CBOR) => malformed += 1,
            Err(number) => {
                assert_eq!(number, DEEP);
                deep += 1;
            }
        }
    }
    println!("sound {sound} malformed {malformed} deep {deep}");
    assert!(sound > 50_000 && malformed > 20_000 && deep > 5_000);
}

#[test]
fn faults_lie_in_the_item_or_at_its_end() {
    let mut generator = Generator::new(4);
    for _ in 0..100_000 {
        let item = generator.next_item();
        if let Err(fault) = cbor::decode(&item) {
            assert!(fault.place <= item.len());
            // Up to the place nothing was wrong yet: what stands before it just ended early.
            let before = cbor::decode(&item[..fault.place]);
            if let Err(earlier) = before {
                assert_eq!((earlier.number, earlier.place), (CBOR, fault.place));
            }
        }
    }
}

#[test]
fn only_the_manifests_meaning_decides() {
    let mut generator = Generator::new(6);
    let (mut changed, mut accepted) = (0, 0);
    for _ in 0..100_000 {
        let file = generator.next_file();
        let Ok(range) = manifest_range(&file) else {
            continue;
        };
        let start = range.start as u64;
        let manifest = &file[range];
        let Ok(root) = cbor::decode(manifest) else {
            continue;
        };
        let shortest = item_of(manifest, &root).shortest();
        changed += usize::from(shortest != manifest);
        match (judge(manifest, start), judge(&shortest, start)) {
            (Ok(one), Ok(other)) => {
                accepted += 1;
                assert_eq!(told(manifest, &one), told(&shortest, &other));
            }
            (one, other) => assert_eq!(one.unwrap_err(), other.unwrap_err()),
        }
    }
    println!("encoded otherwise {changed}, accepted {accepted}");
    assert!(changed > 20_000 && accepted > 20_000);
}

/// All that an accepted manifest tells, places aside.
fn told(bytes: &[u8], manifest: &Manifest) -> Vec<String> {
    let text = |span: &std::ops::Range<usize>| bytes[span.clone()].to_vec();
    let mut lines = vec![format!("{}", manifest.attributes.is_some())];
    for object in &manifest.objects {
        lines.push(format!(
            "{:?} {:?} {:?} {}",
            text(&object.name),
            object.shape,
            text(&object.format),
            object.attributes.is_some(),
        ));
        lines.extend(object.components.iter().map(|component| {
            format!(
                "{:?} {} {:?} {} {} {:?}",
                text(&component.name),
                component.dtype,
                component.logical.as_ref().map(text),
                component.offset,
                component.length,
                component.digest.as_ref().map(text),
            )
        }));
    }
    lines
}

#[test]
fn rows_are_written_and_read_back_or_refused() {
    let mut generator = Generator::new(5);
    let mut seen = [0usize; 27];
    let mut own_count = 0;
    let mut out = vec![MARK_BYTE; 100_000];
    for _ in 0..ROWS {
        let set = generator.next_rows();
        let answer = set.write(&mut out);
        seen[usize::from(answer.number)] += 1;
        if answer.number == 0 {
            let length = answer.length as usize;
            read_back(&set, &out[..length]);
            let mut short = vec![MARK_BYTE; length - 1];
            assert_eq!(set.write(&mut short).number, ROOM);
            assert!(short.iter().all(|&byte| byte == MARK_BYTE));
            out[..length].fill(MARK_BYTE);
        } else {
            assert_eq!(answer.length, 0);
            if answer.number == COUNT && set.components == 1 << 16 {
                own_count += usize::from(answer.object == 0);
            }
        }
        assert!(out[..2000].iter().all(|&byte| byte == MARK_BYTE));
    }
    assert!(out.iter().all(|&byte| byte == MARK_BYTE));
    println!("written {}, by 2^40 {own_count}", seen[0]);
    for (number, count) in seen.iter().enumerate().skip(1) {
        println!("refused {number}: {count}");
    }
    assert!(seen[0] > ROWS / 5);
    for number in [DEEP, 10, 11, COUNT, 18, 21, 22, LENGTH, ROW] {
        assert!(seen[usize::from(number)] > 50, "refusal {number}");
    }
    assert!(seen[usize::from(BIG)] > 0 && seen[usize::from(ROOM)] > 0);
    assert!(own_count > 0);
    assert_eq!(seen[19] + seen[20], 0);
}

/// The file that was written holds what the rows say, nothing else moved.
fn read_back(set: &RowSet, file: &[u8]) {
    let mut table = vec![0; set.rows.len()];
    let answer = read(file, &mut table);
    assert_eq!(
        (answer.number, answer.objects, answer.components),
        (0, set.objects, set.components)
    );
    let (objects, components) = split(&table, set.objects, set.components).unwrap();
    let (given_objects, given_components) = split(&set.rows, set.objects, set.components).unwrap();

    let attributes = Part {
        place: set.attributes_place,
        length: set.attributes_length,
    };
    let read_attributes = Part {
        place: answer.attributes_place,
        length: answer.attributes_length,
    };
    assert_eq!(
        optional(read_attributes, file),
        optional(attributes, &set.buffer)
    );
    for (object, given) in objects.iter().zip(&given_objects) {
        same_object(file, object, &set.buffer, given);
    }
    let mut end = 8;
    for (component, given) in components.iter().zip(&given_components) {
        same_component(file, component, &set.buffer, given);
        assert_eq!(component.blob.place, u64::next_multiple_of(end, 64));
        assert!(
            file[end as usize..component.blob.place as usize]
                .iter()
                .all(|&b| b == 0)
                || end == 8
        );
        end = component.blob.place + component.blob.length;
    }
    assert_eq!(answer.manifest_start, end);
    let lengths: u64 = components.iter().map(|row| row.blob.length).sum();
    let manifest = file.len() as u64 - 16 - end;
    assert!(file.len() as u64 <= 24 + manifest + lengths + 63 * set.components);
}

fn optional(part: Part, bytes: &[u8]) -> Option<&[u8]> {
    (part != Part::default()).then(|| part.of(bytes).unwrap())
}

fn same_object(file: &[u8], read: &ObjectRow, buffer: &[u8], given: &ObjectRow) {
    let rank = given.rank as usize;
    assert_eq!(read.name.of(file), given.name.of(buffer));
    assert_eq!(read.format.of(file), given.format.of(buffer));
    assert_eq!(read.dimensions[..rank], given.dimensions[..rank]);
    assert_eq!(
        optional(read.attributes, file),
        optional(given.attributes, buffer)
    );
    assert_eq!((read.rank, read.components), (given.rank, given.components));
}

fn same_component(file: &[u8], read: &ComponentRow, buffer: &[u8], given: &ComponentRow) {
    assert_eq!(read.name.of(file), given.name.of(buffer));
    assert_eq!(read.blob.of(file), given.blob.of(buffer));
    assert_eq!(
        optional(read.logical, file),
        optional(given.logical, buffer)
    );
    assert_eq!(optional(read.digest, file), optional(given.digest, buffer));
    assert_eq!((read.dtype, read.owner), (given.dtype, given.owner));
}
