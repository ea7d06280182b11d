//! Layout 1.0 (document 001, Req 05): 001's own examples, the frame, the fields and the order of checks. `super` has the calls: the second program's, or those of
//! another reader that is held to the same.

use super::{accept_as, listing, read_as};
use second::columns::{COMPONENT_ROW, OBJECT_ROW};
use second::compose::{component, data, dense, named, root, with};
use second::encode::Item;
use second::frame;
use second::layout::{Layout, LONG_NAMES};
use second::refusal::{
    ALIGN, BIG, BOUNDS, COUNT, DTYPE, ENCODING, FIT, FOOTER, HEADER, KEY, KIND, LENGTH, MAJOR,
    MISSING, RANK, ROLE, ROOM, SHORT, TEXT, TWICE, VERSION,
};
use second::rows::{split, Answer, Part};
use second::sweep::first::{place, tensor, tensors};
use second::types::{DTYPES, U64};

/// The number that says layout 1.0.
const FIRST: u64 = 1;
/// Every reading here has room enough.
const AMPLE: usize = 500;

/// A file of a manifest that starts at `start`.
fn file(manifest: &Item, start: usize) -> Vec<u8> {
    Layout::First.assemble(&vec![0; start - 8], &manifest.shortest())
}

fn judged(manifest: &Item, start: usize) -> (u8, u64, u64) {
    let file = file(manifest, start);
    let answer = read_as(FIRST, &file, &mut vec![0; AMPLE]);
    assert_eq!(accept_as(FIRST, &file), u64::from(answer.number));
    (answer.number, answer.object, answer.component)
}

/// A tensor that is right, with its blob from 64 to 72.
fn sound() -> Item {
    tensor("float32", &[2], "dense", named([("data", place(64, 8))]))
}

/// What reading answers for this tensor behind a sound one.
fn second_judged(entry: Item) -> (u8, u64, u64) {
    judged(
        &tensors(named([("first", sound()), ("second", entry)])),
        1 << 15,
    )
}

#[test]
fn the_examples_of_001() {
    let dense = tensor(
        "float32",
        &[5000, 256],
        "dense",
        named([("data", place(64, 5_120_000))]),
    );
    let one = |name, entry| tensors(named([(name, entry)]));
    assert_eq!(
        judged(&one("embedding_table", dense), 64 + 5_120_000),
        (0, 0, 0)
    );
    let csr = |indices| {
        let roles = named([
            ("values", place(64, 400)),
            ("indices", place(512, indices)),
            ("indptr", place(960, 8008)),
        ]);
        one(
            "adjacency_matrix",
            tensor("float32", &[1000, 1000], "sparse_csr", roles),
        )
    };
    // Half its indices' bytes: 100 values of 4 bytes want 100 indices of 8.
    assert_eq!(judged(&csr(400), 8968), (LENGTH, 0, 1));
    assert_eq!(judged(&csr(800), 8968), (0, 0, 0));
    let coo = named([("values", place(64, 4000)), ("coords", place(4096, 16_000))]);
    let coo = tensor("float32", &[10_000, 512], "sparse_coo", coo);
    assert_eq!(judged(&one("sparse_embeddings", coo), 20_096), (0, 0, 0));
    let quantized = named([
        ("data", place(64, 8_388_608)),
        ("scale", place(8_388_672, 16_384)),
        ("zero_point", place(8_405_056, 16_384)),
    ]);
    let quantized = tensor("uint8", &[4096, 4096], "quantized_4bit", quantized);
    assert_eq!(
        judged(&one("quantized_layer", quantized), 8_421_440),
        (0, 0, 0)
    );
    let zstd = with(place(64, 8), "encoding", Item::text("zstd"));
    let zstd = tensor("float32", &[2], "dense", named([("data", zstd)]));
    assert_eq!(second_judged(zstd), (ENCODING, 1, 0));
    let raw = with(place(64, 8), "encoding", Item::text("raw"));
    let raw = with(raw, "digest", Item::text("crc32c:0x1A2B3C4D"));
    let raw = tensor("float32", &[2], "dense", named([("data", raw)]));
    assert_eq!(second_judged(raw), (0, 0, 0));
}

#[test]
fn the_root_of_001() {
    let attributes = Item::map([("license", Item::text("Apache-2.0"))]);
    let manifest = Item::map([
        ("version", Item::text("1.0")),
        ("generator", Item::text("zTensor-Rust v0.1.0")),
        ("attributes", attributes),
        ("tensors", named([("layer1.weight", sound())])),
    ]);
    let file = file(&manifest, 72);
    let mut table = vec![0; OBJECT_ROW + COMPONENT_ROW];
    let answer = read_as(FIRST, &file, &mut table);
    assert_eq!(
        (answer.number, answer.objects, answer.components),
        (0, 1, 1)
    );
    assert_eq!(answer.manifest_start, 72);
    let attributes = Part {
        place: answer.attributes_place,
        length: answer.attributes_length,
    };
    assert_eq!(
        attributes.of(&file),
        Some(&b"\xA1\x67license\x6AApache-2.0"[..])
    );
    let (objects, components) = split(&table, 1, 1).unwrap();
    assert_eq!(objects[0].name.of(&file), Some(&b"layer1.weight"[..]));
    assert_eq!(objects[0].attributes, Part::default());
    assert_eq!(
        (components[0].dtype, components[0].logical),
        (1, Part::default())
    );
    let lines = b"objects 1 components 1\nobject layer1.weight dense\nblob data f32 64 8\n";
    assert_eq!(listing(&file, &table, 1, 1), lines);
    let short = read_as(FIRST, &file, &mut [0; OBJECT_ROW + COMPONENT_ROW - 1]);
    assert_eq!(short.number, ROOM);
}

#[test]
fn the_frame() {
    let manifest = tensors(named([])).shortest();
    // A file without blobs: the manifest takes all but 16 bytes.
    let file = Layout::First.assemble(&[], &manifest);
    assert_eq!(file.len(), manifest.len() + 16);
    let answer = read_as(FIRST, &file, &mut []);
    let accepted = Answer {
        manifest_start: 8,
        ..Answer::default()
    };
    assert_eq!(answer, accepted);
    for length in 0..16 {
        assert_eq!(accept_as(FIRST, &file[..length]), u64::from(SHORT));
        assert_eq!(accept_as(FIRST, &vec![0; length]), u64::from(SHORT));
    }
    assert_eq!(accept_as(FIRST, &[0; 16]), u64::from(HEADER));
    let sized = |size: u64| {
        let mut file = file.clone();
        Layout::First.set_size(&mut file, size);
        accept_as(FIRST, &file) as u8
    };
    assert_eq!(sized(manifest.len() as u64), 0);
    assert_eq!(sized(manifest.len() as u64 + 1), FIT);
    assert_eq!(sized(0), FIT);
    assert_eq!(sized(16_777_216), FIT);
    assert_eq!(sized(16_777_217), BIG);
    assert_eq!(sized(u64::MAX), BIG);
    let empty = [&b"ZTEN1000"[..], &[0; 8]].concat();
    assert_eq!(accept_as(FIRST, &empty), u64::from(FIT));
}

#[test]
fn only_1_says_the_first_layout() {
    let first = file(&tensors(named([("w", sound())])), 72);
    let current = frame::assemble(&[0; 64], &root(named([("w", dense(data()))])).shortest());
    for layout in [0, 2, 3, u64::MAX] {
        assert_eq!(accept_as(layout, &first), u64::from(FOOTER));
        assert_eq!(accept_as(layout, &current), 0);
    }
    assert_eq!(accept_as(1, &first), 0);
    assert_eq!(accept_as(1, &current), u64::from(BIG));
}

#[test]
fn dtypes_are_the_long_names_alone() {
    for (code, name) in LONG_NAMES.iter().enumerate() {
        let width = DTYPES[code].1;
        let entry = tensor(name, &[3], "dense", named([("data", place(64, 3 * width))]));
        let manifest = tensors(named([("w", entry)]));
        let mut table = vec![0; OBJECT_ROW + COMPONENT_ROW];
        let answer = read_as(FIRST, &file(&manifest, 128), &mut table);
        assert_eq!((answer.number, table[OBJECT_ROW + 2]), (0, code as u64));
        let short = DTYPES[code].0;
        if short != "bool" {
            let entry = tensor(
                short,
                &[3],
                "dense",
                named([("data", place(64, 3 * width))]),
            );
            assert_eq!(second_judged(entry), (DTYPE, 1, 0), "{short}");
        }
    }
    let broken = tensor("float32", &[2], "dense", named([("data", place(64, 8))]));
    let broken = set(broken, "dtype", Item::text(b"\xFF"));
    assert_eq!(second_judged(broken), (DTYPE, 1, 0));
}

/// The map with another value for a field.
fn set(mut map: Item, name: &str, value: Item) -> Item {
    second::compose::set(&mut map, name, value);
    map
}

/// The map without a field.
fn without(mut map: Item, name: &str) -> Item {
    if let Item::Map(pairs) = &mut map {
        pairs.retain(|(key, _)| !second::compose::is_text(key, name));
    }
    map
}

#[test]
fn index_roles_are_u64_and_all_else_is_the_tensors() {
    let csr = named([
        ("values", place(64, 4)),
        ("coords", place(64, 3)),
        ("indptr", place(64, 24)),
        ("indices", place(64, 16)),
    ]);
    let coo = named([
        ("coords", place(64, 32)),
        ("indices", place(64, 0)),
        ("values", place(64, 4)),
    ]);
    let other = named([("indices", place(64, 1)), ("coords", place(64, 1))]);
    let manifest = tensors(named([
        ("a", tensor("float16", &[2, 9], "sparse_csr", csr)),
        ("b", tensor("int16", &[7, 7], "sparse_coo", coo)),
        ("c", tensor("bool", &[], "dense ", other)),
    ]));
    let mut table = vec![0; 3 * OBJECT_ROW + 9 * COMPONENT_ROW];
    assert_eq!(read_as(FIRST, &file(&manifest, 128), &mut table).number, 0);
    let codes: Vec<u64> = (0..9)
        .map(|at| table[3 * OBJECT_ROW + at * COMPONENT_ROW + 2])
        .collect();
    let u64_code = U64 as u64;
    assert_eq!(codes, [2, 2, u64_code, u64_code, u64_code, 6, 6, 12, 12]);
}

#[test]
fn fields_that_001_lacks_are_unknown() {
    let odd = || Item::Bytes(vec![1]);
    let twice = |map, name| with(with(map, name, odd()), name, odd());
    let mut entry = place(64, 8);
    for name in ["type", "dtype", "uncompressed_length", "shape"] {
        entry = twice(entry, name);
    }
    let object = tensor("float32", &[2], "dense", named([("data", entry)]));
    let object = twice(twice(object, "attributes"), "offset");
    let manifest = tensors(named([("w", object)]));
    let manifest = twice(twice(manifest, "objects"), "generator");
    assert_eq!(judged(&manifest, 72), (0, 0, 0));
    let current = with(root(named([("w", dense(data()))])), "tensors", odd());
    let file = frame::assemble(&[0; 64], &current.shortest());
    assert_eq!(read_as(0, &file, &mut vec![0; AMPLE]).number, 0);
}

#[test]
fn null_is_absent_for_the_digest_only() {
    let component = |name| with(place(64, 8), name, Item::null());
    let judged = |entry| second_judged(tensor("float32", &[2], "dense", named([("data", entry)])));
    assert_eq!(judged(component("digest")), (0, 0, 0));
    assert_eq!(judged(component("encoding")), (KIND, 1, 0));
    assert_eq!(
        judged(set(place(64, 8), "offset", Item::null())),
        (KIND, 1, 0)
    );
    for name in ["dtype", "shape", "format", "components"] {
        assert_eq!(
            second_judged(set(sound(), name, Item::null())),
            (KIND, 1, 0)
        );
    }
}

/// Faults of one tensor from the last check to the first; each is added to those before it.
#[test]
fn the_order_of_a_tensors_checks() {
    let mut entry = named([
        ("values", place(64, 3)),
        ("indices", place(64, 8)),
        ("indptr", place(64, 8)),
    ]);
    let mut object = tensor("float32", &[5, 1], "sparse_csr", entry.clone());
    let judged = |object: &Item| second_judged(object.clone());
    assert_eq!(judged(&object), (LENGTH, 1, 0));
    entry = without(entry, "indptr");
    object = set(object, "components", entry.clone());
    assert_eq!(judged(&object), (ROLE, 1, 0));
    object = set(object, "shape", Item::Array(vec![Item::Unsigned(1)]));
    assert_eq!(judged(&object), (RANK, 1, 0));
    entry = set(entry, "indices", place(0, 8));
    object = set(object, "components", entry.clone());
    assert_eq!(judged(&object), (BOUNDS, 1, 1));
    entry = set(entry, "indices", place(1, 8));
    object = set(object, "components", entry.clone());
    assert_eq!(judged(&object), (ALIGN, 1, 1));
    // digest (8, 10) before the place, encoding (8, 17) before it, length, offset, missing, repeats, keys
    let mut indices = with(place(1, 8), "digest", Item::text(b"\x80"));
    let mut steps = vec![(indices.clone(), TEXT)];
    indices = set(indices, "digest", Item::Unsigned(0));
    steps.push((indices.clone(), KIND));
    indices = set(
        with(indices, "encoding", Item::text("zstd")),
        "digest",
        Item::text(b"\x80"),
    );
    steps.push((indices.clone(), ENCODING));
    indices = set(indices, "length", Item::Negative(0));
    steps.push((indices.clone(), KIND));
    indices = without(indices, "offset");
    steps.push((indices.clone(), MISSING));
    indices = with(indices, "encoding", Item::null());
    steps.push((indices.clone(), TWICE));
    if let Item::Map(pairs) = &mut indices {
        pairs.push((Item::Unsigned(0), Item::null()));
    }
    steps.push((indices.clone(), KEY));
    steps.push((Item::Array(vec![indices]), KIND));
    for (indices, number) in steps {
        entry = set(entry, "indices", indices);
        object = set(object, "components", entry.clone());
        assert_eq!(judged(&object), (number, 1, 1));
    }
    let names = Item::Map(vec![
        (Item::text("a"), place(64, 0)),
        (Item::text("a"), Item::null()),
    ]);
    let mut steps = vec![(set(object.clone(), "components", names), TWICE)];
    let mut add = |name: &str, value: Item, number| {
        let (last, _) = steps.last().unwrap().clone();
        steps.push((set(last, name, value), number));
    };
    add(
        "components",
        Item::Map(
            (0..17)
                .map(|n: u64| (Item::text(n.to_string()), Item::null()))
                .collect(),
        ),
        COUNT,
    );
    add(
        "components",
        Item::Map(vec![(Item::text(b"\xFF"), Item::null())]),
        TEXT,
    );
    add(
        "components",
        Item::Map(vec![(Item::null(), Item::null())]),
        KEY,
    );
    add("components", Item::null(), KIND);
    add("format", Item::text(b"\xFF"), TEXT);
    add("format", Item::null(), KIND);
    add("shape", Item::Array(vec![Item::Unsigned(1); 9]), COUNT);
    add("shape", Item::Array(vec![Item::null(); 9]), KIND);
    add("dtype", Item::text("f32"), DTYPE);
    add("dtype", Item::null(), KIND);
    let (last, _) = steps.last().unwrap().clone();
    let last = without(last, "format");
    steps.push((last.clone(), MISSING));
    let last = with(last, "dtype", Item::null());
    steps.push((last.clone(), TWICE));
    steps.push((Item::Array(vec![last]), KIND));
    for (object, number) in steps {
        assert_eq!(judged(&object), (number, 1, 0));
    }
}

#[test]
fn the_order_of_the_roots_checks() {
    let mut manifest = tensors(named([("w", Item::null())]));
    let mut holds = |name: &str, value: Item, number| {
        second::compose::set(&mut manifest, name, value);
        assert_eq!(judged(&manifest, 8), (number, 0, 0), "{name}");
    };
    holds("version", Item::text("1.0"), KIND);
    holds("tensors", Item::null(), KIND);
    holds("attributes", Item::null(), KIND);
    holds("version", Item::text("2.0"), MAJOR);
    holds("version", Item::text("1"), VERSION);
    let root = without(tensors(named([])), "tensors");
    assert_eq!(judged(&root, 8), (MISSING, 0, 0));
    assert_eq!(
        judged(&with(root, "objects", named([])), 8),
        (MISSING, 0, 0)
    );
}

#[test]
fn bounds_are_measured_against_the_manifest_start() {
    let one = |length| {
        let entry = tensor(
            "uint8",
            &[length],
            "dense",
            named([("data", place(64, length))]),
        );
        tensors(named([("w", entry)]))
    };
    assert_eq!(judged(&one(8), 72), (0, 0, 0));
    assert_eq!(judged(&one(9), 72), (BOUNDS, 0, 0));
}

#[test]
fn a_1_2_0_component_inside_a_tensor_is_fine() {
    let entry = tensor(
        "float32",
        &[2],
        "dense",
        named([("data", component("zzz", 64, 8))]),
    );
    assert_eq!(second_judged(entry), (0, 0, 0));
}

/// Req 12, where rows have its two columns: place and length of the component's map, the whole item.
#[test]
fn imported_rows_know_their_entry() {
    let file = file(&tensors(named([("w", sound())])), 72);
    let mut table = vec![0; OBJECT_ROW + COMPONENT_ROW];
    assert_eq!(read_as(FIRST, &file, &mut table).number, 0);
    if let &[entry, length] = &table[OBJECT_ROW + 10..] {
        let entry = Part {
            place: entry,
            length,
        };
        assert_eq!(entry.of(&file), Some(&place(64, 8).shortest()[..]));
    }
}
