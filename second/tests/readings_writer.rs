//! The decided readings on the writer and on lent buffers; the item's number stands in its comment.

use second::columns::{
    numbers, ATTRIBUTES, BLOB, COMPONENT_ROW, DIGEST, FORMAT, NAME, SHAPE, TYPE,
};
use second::refusal::{BIG, COUNT, DEEP, ROOM, ROW, TWICE};
use second::rows::{read, Answer, ComponentRow, ObjectRow, Part};
use second::writer::{write, Written};

/// Where the first component's row begins after one object's.
const PART: usize = numbers(1, 0);

const NONE: Part = Part {
    place: 0,
    length: 0,
};

/// What the writer is asked with, put together row by row.
#[derive(Clone, Default)]
struct Asked {
    buffer: Vec<u8>,
    attributes: Part,
    objects: Vec<ObjectRow>,
    components: Vec<ComponentRow>,
}

impl Asked {
    fn put(&mut self, bytes: &[u8]) -> Part {
        let place = self.buffer.len() as u64;
        self.buffer.extend(bytes);
        Part {
            place,
            length: bytes.len() as u64,
        }
    }

    /// An object of a free format, without components as yet.
    fn object(&mut self, name: &[u8]) -> &mut ObjectRow {
        let name = self.put(name);
        self.objects.push(ObjectRow {
            name,
            rank: 0,
            dimensions: [0; 8],
            format: NONE,
            attributes: NONE,
            components: 0,
        });
        self.objects.last_mut().unwrap()
    }

    /// A component of the last object.
    fn component(&mut self, name: &[u8], blob: Part) -> &mut ComponentRow {
        let name = self.put(name);
        self.objects.last_mut().unwrap().components += 1;
        self.components.push(ComponentRow {
            name,
            dtype: 11,
            logical: NONE,
            blob,
            digest: NONE,
            owner: self.objects.len() as u64 - 1,
            entry: Part {
                place: u64::MAX,
                length: 1,
            },
        });
        self.components.last_mut().unwrap()
    }

    fn rows(&self) -> Vec<u64> {
        let objects = self.objects.iter().flat_map(ObjectRow::numbers);
        let components = self.components.iter().flat_map(ComponentRow::numbers);
        objects.chain(components).collect()
    }

    fn write(&self, out: &mut [u8]) -> Written {
        self.write_rows(&self.rows(), self.objects.len(), out)
    }

    fn write_rows(&self, rows: &[u64], objects: usize, out: &mut [u8]) -> Written {
        write(
            rows,
            objects as u64,
            self.components.len() as u64,
            self.attributes.place,
            self.attributes.length,
            &self.buffer,
            out,
        )
    }

    /// The refusal, with ample output; the output stays.
    fn refused(&self) -> (u8, u64, u64) {
        let mut out = vec![0xA5; 4000];
        let written = self.write(&mut out);
        let untouched = out.iter().all(|&byte| byte == 0xA5);
        assert!(written.number == 0 || untouched && written.length == 0);
        (written.number, written.object, written.component)
    }

    fn file(&self) -> Vec<u8> {
        let mut out = vec![0xA5; 4000];
        let written = self.write(&mut out);
        assert_eq!(written.number, 0);
        assert!(out[written.length as usize..]
            .iter()
            .all(|&byte| byte == 0xA5));
        out.truncate(written.length as usize);
        out
    }
}

/// One object "w" with one component "c" of eight bytes; the buffer is 10 bytes long.
fn sound() -> Asked {
    let mut asked = Asked::default();
    asked.object(b"w");
    let blob = Part {
        place: 1,
        length: 8,
    };
    asked.buffer.extend(b"12345678");
    asked.component(b"c", blob);
    asked
}

fn with_buffer(buffer: Vec<u8>) -> Asked {
    Asked {
        buffer,
        ..Asked::default()
    }
}

/// The table that reading the written file gives.
fn read_back(asked: &Asked) -> (Vec<u8>, Vec<u64>, Answer) {
    let file = asked.file();
    let mut table = vec![0; 500];
    let answer = read(&file, &mut table);
    assert_eq!(answer.number, 0);
    (file, table, answer)
}

fn changed(change: impl Fn(&mut Asked)) -> (u8, u64, u64) {
    let mut asked = sound();
    change(&mut asked);
    asked.refused()
}

const ROW_REFUSED: (u8, u64, u64) = (ROW, 0, 0);

#[test]
fn only_0_and_0_is_absent() {
    // 51
    let mut asked = sound();
    let empty = Part {
        place: 3,
        length: 0,
    };
    asked.components[0].logical = empty;
    let (file, table, _) = read_back(&asked);
    let (place, length) = (table[PART + TYPE] as usize, table[PART + TYPE + 1]);
    assert_eq!((file[place - 1], length), (0x60, 0));
    assert_eq!(table[PART + DIGEST..][..2], [0, 0]);
    asked.components[0].logical = NONE;
    asked.components[0].digest = empty;
    let (file, table, _) = read_back(&asked);
    assert_eq!(table[PART + TYPE..][..2], [0, 0]);
    assert_eq!(file[table[PART + DIGEST] as usize - 1], 0x60);

    assert_eq!(changed(|asked| asked.attributes = empty), ROW_REFUSED);
    assert_eq!(
        changed(|asked| asked.objects[0].attributes = empty),
        ROW_REFUSED
    );
    for part in [NONE, empty] {
        let mut asked = sound();
        asked.objects[0].name = part;
        asked.objects[0].format = part;
        asked.components[0].name = part;
        let (_, table, _) = read_back(&asked);
        let lengths = [NAME, FORMAT, PART + NAME].map(|column| table[column + 1]);
        assert_eq!(lengths, [0, 0, 0]);
    }
}

#[test]
fn ranges_lie_inside_the_buffer_by_exact_sums() {
    // 52
    let inside = [(10, 0), (9, 1), (0, 10), (0, 0)];
    let outside = [
        (11, 0),
        (10, 1),
        (0, 11),
        (u64::MAX, 1),
        (1, u64::MAX),
        (1 << 63, 1 << 63),
    ];
    type Change = fn(&mut Asked, Part);
    let texts: [Change; 5] = [
        |asked, part| asked.objects[0].name = part,
        |asked, part| asked.objects[0].format = part,
        |asked, part| asked.components[0].name = part,
        |asked, part| asked.components[0].blob = part,
        |asked, part| asked.components[0].digest = part,
    ];
    let others: [Change; 3] = [
        |asked, part| asked.components[0].logical = part,
        |asked, part| asked.attributes = part,
        |asked, part| asked.objects[0].attributes = part,
    ];
    for change in texts {
        for (place, length) in inside {
            assert_eq!(
                changed(|asked| change(asked, Part { place, length })),
                (0, 0, 0)
            );
        }
    }
    for change in texts.into_iter().chain(others) {
        for (place, length) in outside {
            assert_eq!(
                changed(|asked| change(asked, Part { place, length })),
                ROW_REFUSED
            );
        }
    }
}

#[test]
fn owners_match_the_counts_in_order() {
    // 53
    let mut asked = sound();
    asked.object(b"v");
    asked.component(b"c", NONE);
    asked.component(b"d", NONE);
    assert_eq!(asked.refused(), (0, 0, 0));
    for owners in [
        [0, 0, 1],
        [0, 1, 0],
        [1, 0, 1],
        [0, 1, 2],
        [1, 1, 0],
        [0, 1, u64::MAX],
    ] {
        let mut odd = asked.clone();
        for (row, owner) in odd.components.iter_mut().zip(owners) {
            row.owner = owner;
        }
        assert_eq!(odd.refused(), ROW_REFUSED, "{owners:?}");
    }
    for counts in [[0, 2], [1, 1], [1, 3], [2, 1], [u64::MAX, 2], [1, u64::MAX]] {
        let mut odd = asked.clone();
        for (row, count) in odd.objects.iter_mut().zip(counts) {
            row.components = count;
        }
        assert_eq!(odd.refused(), ROW_REFUSED, "{counts:?}");
    }
}

/// A map that holds as many arrays as are given, and then the bytes.
fn deep_map(arrays: usize, bytes: &[u8]) -> Vec<u8> {
    [b"\xA1\x00", &vec![0x81; arrays][..], bytes].concat()
}

#[test]
fn attributes_too_deep_for_their_place_arent_row() {
    // 54: the bytes after the arrays stand at depth 3 + arrays in the root, 5 + arrays in an object.
    for (in_root, shallower) in [(true, 30), (false, 28)] {
        let refused = |attributes: &[u8]| {
            let mut asked = sound();
            let part = asked.put(attributes);
            match in_root {
                true => asked.attributes = part,
                false => asked.objects[0].attributes = part,
            }
            asked.refused()
        };
        let deep = (DEEP, 0, 0);
        assert_eq!(refused(&deep_map(shallower - 1, b"\x00")), (0, 0, 0));
        assert_eq!(refused(&deep_map(shallower, b"\x00")), deep);
        assert_eq!(refused(&deep_map(shallower, b"\x1C")), deep);
        assert_eq!(refused(&deep_map(shallower, b"\x00\x00\x00")), deep);
        assert_eq!(refused(&deep_map(shallower, b"")), ROW_REFUSED);
        assert_eq!(refused(&deep_map(shallower, b"\xFF")), ROW_REFUSED);
        assert_eq!(refused(&deep_map(shallower - 1, b"\x9F\xFF")), (0, 0, 0));
        assert_eq!(refused(&deep_map(shallower - 1, b"\x00\x00")), ROW_REFUSED);
        assert_eq!(
            refused(&[&b"\xA2\x1C"[..], &deep_map(shallower, b"\x00")].concat()),
            ROW_REFUSED
        );
        let in_array = [&b"\x81"[..], &deep_map(shallower, b"\x00")].concat();
        assert_eq!(refused(&in_array), ROW_REFUSED);
        let tagged = [&b"\xC1"[..], &deep_map(shallower, b"\x00")].concat();
        assert_eq!(refused(&tagged), ROW_REFUSED);
        for odd in [
            &b"\x00"[..],
            b"\x80",
            b"\xC1\xA0",
            b"\xA0\x00",
            b"\xA1\x00",
            b"\xBC",
            b"\xBF",
        ] {
            assert_eq!(refused(odd), ROW_REFUSED, "{odd:x?}");
        }
        assert_eq!(refused(b"\xA0"), (0, 0, 0));
        assert_eq!(refused(b"\xBF\xFF"), (0, 0, 0));
    }
}

#[test]
fn row_anywhere_beats_too_deep_anywhere() {
    // 55
    let mut asked = sound();
    asked.attributes = asked.put(&deep_map(30, b"\x00"));
    assert_eq!(asked.refused(), (DEEP, 0, 0));
    let odd = asked.put(b"\x80");
    asked.objects[0].attributes = odd;
    assert_eq!(asked.refused(), ROW_REFUSED);
    asked.objects[0].attributes = NONE;
    asked.components[0].dtype = 13;
    assert_eq!(asked.refused(), ROW_REFUSED);
}

/// Rows of one object whose blobs share one range, so that the last ends `past` bytes after 2^40.
fn at_end_limit(past: u64) -> Asked {
    const SHARED: u64 = 1 << 26;
    let mut asked = with_buffer(vec![0; SHARED as usize + 64]);
    for index in 0..1 << 10 {
        asked.object(format!("{index}").as_bytes());
        for name in b'a'..=b'p' {
            let blob = Part {
                place: 0,
                length: SHARED,
            };
            asked.component(&[name], blob);
        }
    }
    asked.components.last_mut().unwrap().blob.length = SHARED - 64 + past;
    asked
}

#[test]
fn an_end_at_2_to_the_40_passes() {
    // 56
    assert_eq!(at_end_limit(0).refused(), (ROOM, 0, 0));
    let mut over = at_end_limit(1);
    assert_eq!(over.refused(), (COUNT, 0, 0));
    over.objects[0].rank = 9;
    assert_eq!(over.refused(), ROW_REFUSED);
}

/// One object whose format makes the manifest this long; the rest of it takes 58 bytes.
fn with_manifest_of(size: usize) -> Asked {
    let mut asked = Asked::default();
    asked.object(b"w");
    let format = asked.put(&vec![b'f'; size - 58]);
    asked.objects[0].format = format;
    asked
}

#[test]
fn row_count_big_then_the_readers_refusal_then_room() {
    // 56
    let met = with_manifest_of(16_777_216);
    assert_eq!(met.refused(), (ROOM, 0, 0));
    let mut out = vec![0; 16_777_216 + 24];
    assert_eq!(met.write(&mut out).length, 16_777_216 + 24);
    let mut passed = with_manifest_of(16_777_217);
    assert_eq!(passed.refused(), (BIG, 0, 0));
    // The same name twice would be the reader's TWICE, but BIG comes before.
    passed.object(b"w");
    assert_eq!(passed.refused(), (BIG, 0, 0));
    passed.objects[0].format = NONE;
    assert_eq!(passed.refused(), (TWICE, 0, 0));
    assert_eq!(passed.write(&mut []).number, TWICE);

    let mut asked = sound();
    for name in b'd'..b'd' + 16 {
        asked.component(&[name], NONE);
    }
    assert_eq!(asked.refused(), (COUNT, 0, 0));
    let mut second = Asked::default();
    second.object(b"v");
    second.object(b"w");
    for name in b'a'..b'a' + 17 {
        second.component(&[name], NONE);
    }
    assert_eq!(second.refused(), (COUNT, 1, 0));
    assert_eq!(changed(|asked| asked.objects[0].rank = 9), ROW_REFUSED);
    assert_eq!(
        changed(|asked| asked.objects[0].rank = u64::MAX),
        ROW_REFUSED
    );
}

#[test]
fn the_next_multiple_of_64_isnt_below_the_place_reached() {
    // 57
    let mut asked = with_buffer(vec![0x11; 65]);
    asked.object(b"w");
    for (name, length) in [
        (b"a", 0),
        (b"b", 0),
        (b"c", 64),
        (b"d", 1),
        (b"e", 65),
        (b"f", 0),
    ] {
        asked.component(name, Part { place: 0, length });
    }
    let (file, table, answer) = read_back(&asked);
    let parts = table[PART..numbers(1, 6)].chunks(COMPONENT_ROW);
    let offsets: Vec<u64> = parts.map(|row| row[BLOB]).collect();
    assert_eq!(offsets, [64, 64, 64, 128, 192, 320]);
    assert_eq!(answer.manifest_start, 320);
    assert!(file[8..64]
        .iter()
        .chain(&file[129..192])
        .chain(&file[257..320])
        .all(|&b| b == 0));
    assert!(file[64..129]
        .iter()
        .chain(&file[192..257])
        .all(|&b| b == 0x11));
}

#[test]
fn attributes_are_copied_as_they_stand_and_texts_get_the_shortest_head() {
    // 58
    let mut asked = sound();
    let attributes = b"\xBF\x78\x01a\x1B\0\0\0\0\0\0\0\x05\xFF";
    asked.attributes = asked.put(attributes);
    let long = asked.put(&[b'n'; 24]);
    asked.objects[0].name = long;
    asked.objects[0].attributes = asked.attributes;
    let (file, table, answer) = read_back(&asked);
    let part = |place: u64, length: u64| &file[place as usize..][..length as usize];
    assert_eq!(
        part(answer.attributes_place, answer.attributes_length),
        attributes
    );
    assert_eq!(part(table[ATTRIBUTES], table[ATTRIBUTES + 1]), attributes);
    assert_eq!(part(table[NAME] - 2, 2), b"\x78\x18");
}

#[test]
fn numbers_beyond_and_unused_dimensions_arent_looked_at() {
    // 59
    let asked = sound();
    let expected = asked.file();
    let mut rows = asked.rows();
    rows[SHAPE..FORMAT].fill(u64::MAX);
    rows.push(u64::MAX);
    let mut out = vec![0; expected.len()];
    assert_eq!(asked.write_rows(&rows, 1, &mut out).number, 0);
    assert_eq!(out, expected);
    assert_eq!(
        asked
            .write_rows(&rows[..numbers(1, 1) - 1], 1, &mut out)
            .number,
        ROW
    );
    for objects in [2, usize::MAX, 1 << 60] {
        assert_eq!(asked.write_rows(&rows, objects, &mut out).number, ROW);
    }
}

#[test]
fn a_blob_may_lie_anywhere_in_the_buffer() {
    // 60
    let mut asked = sound();
    let whole = Part {
        place: 0,
        length: 10,
    };
    asked.components[0].blob = whole;
    asked.component(
        b"d",
        Part {
            place: 3,
            length: 4,
        },
    );
    let (file, table, _) = read_back(&asked);
    assert_eq!(&file[64..74], b"w12345678c");
    assert_eq!(&file[128..132], b"3456");
    let blobs = [PART, PART + COMPONENT_ROW].map(|row| [table[row + BLOB], table[row + BLOB + 1]]);
    assert_eq!(blobs, [[64, 10], [128, 4]]);
}

#[test]
fn room_by_one_byte() {
    // 61, 62
    let asked = sound();
    let file = asked.file();
    let mut out = vec![0xA5; file.len()];
    let short = asked.write(&mut out[1..]);
    let refused = Written {
        number: ROOM,
        ..Written::default()
    };
    assert_eq!(short, refused);
    assert!(out.iter().all(|&byte| byte == 0xA5));
    assert_eq!(asked.write(&mut out).length, file.len() as u64);
    assert_eq!(out, file);
}
