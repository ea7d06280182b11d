//! Files of layout 1.0 (document 001, Req 05): the calls that take a layout against the second program, 001's own examples, files read in the other layout, and
//! imported rows through the writer. The seed is fixed; `SEED=n` takes another. Each test prints how often each answer occurred.

#[path = "../../tests/readings/first_layout.rs"]
mod first_layout;

use against::beside;
use against::tally::{hex, rounds, seed, Tally};
use against::{Answer, Verdict};
use second::columns;
use second::compose::named;
use second::encode::Item;
use second::explain::explain;
use second::frame::SIZE_LIMIT;
use second::generate::{nth_file_as, RowSet};
use second::layout::Layout;
use second::refusal::{BIG, COUNT, ROLE, ROOM};
use second::rows::{self, split, Part};
use second::sweep;

const FILES: u64 = rounds(120_000);
/// The number that says layout 1.0.
const FIRST: u64 = 1;
/// Numbers that say layout 1.2.0, one of them 1 in its low half.
const CURRENT: [u64; 4] = [0, 2, 1 << 32 | 1, u64::MAX];
/// Room for every file that is accepted.
const AMPLE: usize = columns::MOST;
/// Room for nearly every generated file: lent to each that is refused, and must come back as it was.
const ENOUGH: usize = 1024;

// What the shared readings ask, of the library.

fn accept_as(layout: u64, file: &[u8]) -> u64 {
    let answer = against::accept_as(layout, file);
    assert_eq!(against::box_accept_as(layout, file), answer.number);
    answer.number
}

fn read_as(layout: u64, file: &[u8], table: &mut [u64]) -> rows::Answer {
    let a = against::read_as(layout, file, table);
    rows::Answer {
        number: u8::try_from(a.number).expect("a refusal's number"),
        object: a.object,
        component: a.component,
        objects: a.objects,
        components: a.components,
        manifest_start: a.start,
        attributes_place: a.place,
        attributes_length: a.size,
    }
}

fn listing(file: &[u8], table: &[u64], objects: u64, components: u64) -> Vec<u8> {
    let mut text = vec![0; 4096];
    let listed = against::list(file, table, objects, components, &mut text);
    assert_eq!(listed.number, 0);
    text.truncate(listed.length as usize);
    text
}

/// A table whose numbers tell whether they were touched.
fn fresh(room: usize) -> Vec<u64> {
    (0..room as u64).map(|i| i ^ 0x5a5a_5a5a_5a5a_5a5a).collect()
}

fn label(number: u64) -> String {
    match number {
        0 => "accepted".to_string(),
        _ => format!("refused {number:2}"),
    }
}

/// Which checks a file got past: some answers are rare in the other layout.
fn reached(number: u64) -> String {
    let checks = match number {
        0 => "accepted",
        1..=5 => "refused by the frame",
        6..=7 => "refused by CBOR",
        _ => "refused by fields",
    };
    checks.to_string()
}

/// Holds the acceptance check with its indices against the second program.
fn compare_accept(tally: &mut Tally, layout: u64, file: &[u8], what: impl Fn() -> String) -> u64 {
    let (number, object, component) = Layout::of(layout).verdict(file);
    let number = u64::from(number);
    let second = Verdict { number, object, component };
    let proved = (against::box_accept_as(layout, file), against::accept_as(layout, file));
    tally.compare(label(number), proved, (number, second), || format!("{}: {}", what(), hex(file)));
    number
}

/// Holds one reading, and what the table then holds, against the second program.
fn compare_read(tally: &mut Tally, layout: u64, file: &[u8], room: usize, shown: fn(u64) -> String, what: &dyn Fn() -> String) {
    let (mut ours, mut theirs) = (fresh(room), fresh(room));
    let proved = against::read_as(layout, file, &mut ours);
    let second = beside::read_as(layout, file, &mut theirs);
    tally.compare(shown(second.number), (proved, ours), (second, theirs), || {
        format!("{}, room {room}: {}", what(), hex(file))
    });
}

#[test]
fn generated_and_damaged() {
    let mut accepts = Tally::of("files of layout 1.0");
    let mut reads = Tally::of("tables of layout 1.0");
    let mut ample = vec![0; AMPLE];
    for index in 0..FILES {
        let file = nth_file_as(Layout::First, seed(), index);
        let what = || format!("file {index}");
        let number = compare_accept(&mut accepts, FIRST, &file, what);
        if number == u64::from(ROLE) {
            // ROLE belongs to the object alone: a needed role is absent.
            let why = explain(FIRST, &file, AMPLE as u64);
            assert_eq!((why.number, why.component_name), (number, Part::default()), "file {index}");
        }
        let whole = beside::read_as(FIRST, &file, &mut ample);
        let exact = columns::numbers(whole.objects as usize, whole.components as usize);
        let rooms = match number {
            0 => vec![exact, exact + 7, exact.saturating_sub(1)],
            _ => vec![ENOUGH],
        };
        for room in rooms {
            compare_read(&mut reads, FIRST, &file, room, label, &what);
        }
    }
    // Accepted, and refusals 1 to 23 but FOOTER and TYPE; ROOM where a table is lent.
    accepts.report(1 + 21);
    reads.report(1 + 21 + 1);
    assert!(accepts.part(&label(0)) > 0.05);
}

/// Holds the acceptance check against the second program on files of layout 1.0.
fn compare_files(of: &'static str, files: Vec<Vec<u8>>, answers: usize) {
    let mut tally = Tally::of(of);
    for (at, file) in files.iter().enumerate() {
        compare_accept(&mut tally, FIRST, file, || format!("file {at}"));
    }
    tally.report(answers);
}

#[test]
fn every_place_changed() {
    compare_files("1.0: every byte of a file", sweep::bytes_as(Layout::First), 16);
    compare_files("1.0: every node of a manifest", sweep::nodes_as(Layout::First), 19);
    compare_files("1.0: every role of a format", sweep::roles_as(Layout::First), 4);
    compare_files("1.0: every two faults", sweep::two_faults_as(Layout::First), 16);
    compare_files("1.0: names at their limits", sweep::many_names_as(Layout::First), 6);
}

/// The manifest of a file in the other layout's frame, where this layout's is sound.
fn framed_anew(of: Layout, other: Layout, file: &[u8]) -> Option<Vec<u8>> {
    let range = of.manifest_range(file).ok()?;
    Some(other.assemble(&file[8..range.start], &file[range]))
}

/// The same with the other's name for the root's objects, which is as long.
fn renamed(of: Layout, other: Layout, mut file: Vec<u8>) -> Vec<u8> {
    let (old, new) = (of.objects().as_bytes(), other.objects().as_bytes());
    if let Some(at) = file.windows(old.len()).position(|part| part == old) {
        file[at..at + new.len()].copy_from_slice(new);
    }
    file
}

/// Files of each layout asked for as the other's: as they are, in its frame, and with its name for the objects.
#[test]
fn in_the_other_layout() {
    let mut tally = Tally::of("files in the other layout");
    for index in 0..FILES / 8 {
        for of in Layout::ALL {
            let (other, layout) = match of {
                Layout::Current => (Layout::First, FIRST),
                Layout::First => (Layout::Current, CURRENT[index as usize % CURRENT.len()]),
            };
            let file = nth_file_as(of, seed(), index);
            let framed = framed_anew(of, other, &file);
            let renamed = framed.clone().map(|file| renamed(of, other, file));
            for file in [Some(file), framed, renamed].into_iter().flatten() {
                let what = || format!("file {index} of {of:?} as {layout}");
                compare_read(&mut tally, layout, &file, ENOUGH, reached, &what);
                let proved = against::box_accept_as(layout, &file);
                let second = second::layout::accept_as(layout, &file);
                tally.compare(reached(second), proved, second, || format!("{}: {}", what(), hex(&file)));
            }
        }
    }
    tally.report(4);
}

/// What the rows of an accepted 1.0 file ask of the writer.
fn imported(file: Vec<u8>, table: &[u64], read: &Answer) -> RowSet {
    RowSet {
        rows: table[..columns::numbers(read.objects as usize, read.components as usize)].to_vec(),
        objects: read.objects,
        components: read.components,
        attributes_place: read.place,
        attributes_length: read.size,
        buffer: file,
    }
}

/// That a file of 1.2.0 describes what the rows with their buffer do: names, formats, shapes, codes, digests, attributes, order and blobs.
fn describes(old: &RowSet, new: &[u8], table: &[u64], read: &Answer) {
    assert_eq!((read.number, read.objects, read.components), (0, old.objects, old.components));
    let attributes = |place, length, of| Part { place, length }.of(of).map(<[u8]>::to_vec);
    assert_eq!(
        attributes(old.attributes_place, old.attributes_length, &old.buffer[..]),
        attributes(read.place, read.size, new)
    );
    let (old_objects, old_components) = split(&old.rows, old.objects, old.components).expect("rows");
    let (new_objects, new_components) = split(table, old.objects, old.components).expect("rows");
    for (one, other) in old_objects.iter().zip(&new_objects) {
        assert_eq!(one.name.of(&old.buffer), other.name.of(new));
        assert_eq!(one.format.of(&old.buffer), other.format.of(new));
        assert_eq!((one.rank, one.dimensions, one.components), (other.rank, other.dimensions, other.components));
        assert_eq!((one.attributes, other.attributes), (Part::default(), Part::default()));
    }
    for (one, other) in old_components.iter().zip(&new_components) {
        assert_eq!(one.name.of(&old.buffer), other.name.of(new));
        assert_eq!(one.blob.of(&old.buffer), other.blob.of(new));
        assert_eq!(one.digest.of(&old.buffer), other.digest.of(new));
        assert_eq!((one.dtype, one.owner), (other.dtype, other.owner));
        assert_eq!((one.logical, other.logical), (Part::default(), Part::default()));
    }
}

#[test]
fn imported_rows_write_and_read_back() {
    let mut tally = Tally::of("imported rows");
    let (mut table, mut back) = (vec![0; AMPLE], vec![0; AMPLE]);
    for index in 0..FILES {
        let file = nth_file_as(Layout::First, !seed(), index);
        if Layout::First.verdict(&file).0 != 0 {
            continue;
        }
        let read = against::read_as(FIRST, &file, &mut table);
        assert_eq!(read.number, 0, "file {index}");
        let set = imported(file, &table, &read);
        let exact = beside::write(&set, &mut vec![0; 3 * set.buffer.len() + (1 << 16)]).length as usize;
        for room in [exact, exact.saturating_sub(1)] {
            let (mut ours, mut theirs) = (vec![7; room], vec![7; room]);
            let proved = against::write(&set, &mut ours);
            let second = beside::write(&set, &mut theirs);
            let label = label(second.number);
            if proved.number == 0 {
                let read = against::read(&ours, &mut back);
                describes(&set, &ours, &back, &read);
            }
            tally.compare(label, (proved, ours), (second, theirs), || format!("file {index}, room {room}"));
        }
    }
    // Written, and ROOM; BIG and COUNT stand below.
    tally.report(2);
}

/// A tensor without any rule, with this dtype and these components.
fn tensor(dtype: &str, components: Item) -> Item {
    Item::map([
        ("dtype", Item::text(dtype)),
        ("shape", Item::Array(Vec::new())),
        ("format", Item::text("pack")),
        ("components", components),
    ])
}

fn part(offset: u64, length: u64) -> Item {
    Item::map([("offset", Item::Unsigned(offset)), ("length", Item::Unsigned(length))])
}

/// What the writer answers for the rows of an accepted 1.0 file, given no room.
fn import_refused(file: Vec<u8>) -> (u64, u64, u64, u64) {
    let mut table = vec![0; AMPLE];
    let read = against::read_as(FIRST, &file, &mut table);
    assert_eq!(read.number, 0);
    let written = against::write(&imported(file, &table, &read), &mut []);
    (written.number, written.object, written.component, written.length)
}

/// The greatest manifest of 1.0: each component's dtype in 1.2.0 makes it too long. A byte of name less for each byte more, and there is just no room.
#[test]
fn imported_rows_of_the_greatest_manifest() {
    let of = |name: usize| {
        let components = (0..16u64).map(|at| (Item::text(at.to_string()), part(64, 0)));
        let tensors = Item::Map(vec![(Item::text(vec![b'n'; name]), tensor("int8", Item::Map(components.collect())))]);
        let manifest = Item::map([("version", Item::text("1.0")), ("tensors", tensors)]);
        Layout::First.assemble(&[0; 56], &manifest.shortest())
    };
    let most = SIZE_LIMIT as usize + 64 + 8;
    let name = (1 << 20) + most - of(1 << 20).len();
    assert_eq!(of(name).len(), most);
    assert_eq!(import_refused(of(name)), (BIG.into(), 0, 0, 0));
    assert_eq!(import_refused(of(name - 1000)), (ROOM.into(), 0, 0, 0));
}

/// 1,024 tensors of 16 components, all of the same 64 MiB: in 1.2.0 each has its own place, and the last one's end is past 2^40.
#[test]
fn imported_rows_past_the_last_place() {
    const BLOB: u64 = 1 << 26;
    let names = |count: u64| (0..count).map(|at| Item::text(at.to_string()));
    let components = Item::Map(names(16).map(|name| (name, part(64, BLOB))).collect());
    let of = |objects| {
        let tensors = names(objects).map(|name| (name, tensor("uint8", components.clone())));
        let manifest = Item::map([("version", Item::text("1.0")), ("tensors", Item::Map(tensors.collect()))]);
        Layout::First.assemble(&vec![0; 56 + BLOB as usize], &manifest.shortest())
    };
    assert_eq!(import_refused(of(1024)), (COUNT.into(), 0, 0, 0));
    assert_eq!(import_refused(of(1023)), (ROOM.into(), 0, 0, 0));
}

/// A file without tensors is written as the empty one of 1.2.0.
#[test]
fn an_empty_file_is_imported() {
    let manifest = Item::map([("version", Item::text("1.0")), ("tensors", named([]))]);
    let file = Layout::First.assemble(&[], &manifest.shortest());
    let read = against::read_as(FIRST, &file, &mut []);
    assert_eq!((read.number, read.start), (0, 8));
    let mut out = [0; 48];
    let written = against::write(&imported(file, &[], &read), &mut out);
    assert_eq!((written.number, written.length), (0, 48));
    assert_eq!(against::box_accept(&out), 0);
}
