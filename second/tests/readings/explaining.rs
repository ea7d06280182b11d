//! Why a file was refused (Req 08): the span of every number, names, leftmost faults, the sentence to the letter. `super` has the calls: the second program's, or
//! those of another explainer that is held to the same.

use super::{explain, sentence, sentence_text};
use second::cases::{one_dense_object, NO_OBJECTS};
use second::columns::{COMPONENT_ROW, OBJECT_ROW};
use second::compose::{component, data, dense, is_text, named, object, root, set, with};
use second::encode::Item;
use second::explain::{Explanation, Said};
use second::frame;
use second::layout::Layout;
use second::refusal::ROOM;
use second::rows::Part;

const AMPLE: u64 = 1 << 40;

fn part(place: usize, length: usize) -> Part {
    Part {
        place: place as u64,
        length: length as u64,
    }
}

/// The explanation of a manifest that starts at 200, and the bytes of its span, of the object's name and of the component's.
struct Told {
    number: u64,
    indices: (u64, u64),
    span: Vec<u8>,
    place: usize,
    object: Option<Vec<u8>>,
    component: Option<Vec<u8>>,
}

const START: usize = 200;

fn told_bytes(layout: Layout, manifest: &[u8]) -> Told {
    let file = layout.assemble(&[0; START - 8], manifest);
    let answer = explain(layout.number(), &file, AMPLE);
    let reader = layout.verdict(&file);
    let (object, component) = (answer.object, answer.component);
    assert_eq!((answer.number as u8, object, component), reader);
    let name = |name: Part| (name != Part::default()).then(|| name.of(&file).unwrap().to_vec());
    Told {
        number: answer.number,
        indices: (object, component),
        span: answer.span.of(&file).unwrap().to_vec(),
        place: answer.span.place as usize,
        object: name(answer.object_name),
        component: name(answer.component_name),
    }
}

fn told(manifest: &Item) -> Told {
    told_bytes(Layout::Current, &manifest.shortest())
}

/// A manifest whose second object is this one.
fn second(entry: Item) -> Item {
    root(named([("first", dense(data())), ("second", entry)]))
}

fn changed(mut map: Item, name: &str, value: Item) -> Item {
    set(&mut map, name, value);
    map
}

fn without(mut map: Item, name: &str) -> Item {
    if let Item::Map(pairs) = &mut map {
        pairs.retain(|(key, _)| !is_text(key, name));
    }
    map
}

/// The root breaks this check at this item; no name is given.
fn root_breaks(manifest: Item, number: u64, span: &Item) {
    let told = told(&manifest);
    assert_eq!((told.number, told.indices), (number, (0, 0)));
    assert_eq!(told.span, span.shortest(), "{number}");
    assert_eq!((told.object, told.component), (None, None));
}

/// The second object breaks this check at this item; its name is given alone.
fn object_breaks(entry: Item, number: u64, span: &Item) {
    let told = told(&second(entry));
    assert_eq!((told.number, told.indices), (number, (1, 0)));
    assert_eq!(told.span, span.shortest(), "{number}");
    assert_eq!(
        (told.object, told.component),
        (Some(b"second".to_vec()), None)
    );
}

/// The same for its component "x", which stands behind another.
fn component_breaks(entry: Item, number: u64, span: &Item) {
    let parts = named([("w", component("u8", 64, 1)), ("x", entry)]);
    let told = told(&second(object(&[], "f", parts)));
    assert_eq!((told.number, told.indices), (number, (1, 1)));
    assert_eq!(told.span, span.shortest(), "{number}");
    let names = (Some(b"second".to_vec()), Some(b"x".to_vec()));
    assert_eq!((told.object, told.component), names);
}

#[test]
fn the_frame() {
    let spans = |layout: u64, file: &[u8]| {
        let answer = explain(layout, file, AMPLE);
        (answer.number, answer.span)
    };
    assert_eq!(spans(0, &[]), (1, part(0, 0)));
    assert_eq!(spans(0, &NO_OBJECTS[..23]), (1, part(0, 23)));
    let flipped = |at: usize| {
        let mut file = NO_OBJECTS.to_vec();
        file[at] ^= 1;
        file
    };
    assert_eq!(spans(0, &flipped(3)), (2, part(0, 8)));
    assert_eq!(spans(0, &flipped(44)), (3, part(40, 8)));
    assert_eq!(spans(0, &flipped(39)), (4, part(32, 8)));
    assert_eq!(spans(0, &flipped(33)), (5, part(32, 8)));
    // 1.0: the size stands last
    assert_eq!(spans(1, NO_OBJECTS), (4, part(40, 8)));
    let mut old = NO_OBJECTS[..40].to_vec();
    old[32] = 0;
    assert_eq!(spans(1, &old), (5, part(32, 8)));
    assert_eq!(spans(1, &old[..15]), (1, part(0, 15)));
}

#[test]
fn the_first_byte_of_the_head_met() {
    let fault = |bytes: &[u8]| {
        let told = told_bytes(Layout::Current, bytes);
        assert_eq!((&told.object, &told.component), (&None, &None));
        (told.number, told.place - START, told.span.len())
    };
    assert_eq!(fault(b"\xA1\x1C\x00"), (6, 1, 1));
    // ended early: the empty span at the manifest's end
    assert_eq!(fault(b"\xA1\x61"), (6, 2, 0));
    assert_eq!(fault(b"\xA1\x00\x1B\x00"), (6, 4, 0));
    // bytes left over
    assert_eq!(fault(b"\xA0\x00\x00"), (6, 1, 1));
    assert_eq!(fault(&[&[0x81; 32][..], &[0]].concat()), (7, 32, 1));
    // a chunk of the wrong type is met at its own first byte, even if its argument is cut off
    assert_eq!(fault(b"\x7F\x61a\x5B\x00"), (6, 3, 1));
    assert_eq!(fault(b"\x7F\x61a\x7B\x00"), (6, 5, 0));
    assert_eq!(fault(b"\xBF\x00\xFF"), (6, 2, 1));
}

#[test]
fn the_root() {
    let sound = || root(named([("w", dense(data()))]));
    let null = Item::null();
    root_breaks(Item::Array(vec![sound()]), 8, &Item::Array(vec![sound()]));
    root_breaks(sound().tagged(1), 8, &sound().tagged(1));
    let mut odd = sound();
    if let Item::Map(pairs) = &mut odd {
        pairs.insert(1, (Item::Unsigned(7), null.clone()));
        pairs.push((Item::Unsigned(8), null.clone()));
    }
    root_breaks(odd, 9, &Item::Unsigned(7));
    root_breaks(
        without(sound(), "version"),
        12,
        &without(sound(), "version"),
    );
    root_breaks(
        without(sound(), "objects"),
        12,
        &without(sound(), "objects"),
    );
    for (version, number) in [("1", 13), ("2.0", 14), ("01.2", 13)] {
        let version = Item::text(version);
        root_breaks(
            changed(sound(), "version", version.clone()),
            number,
            &version,
        );
    }
    for name in ["version", "attributes", "objects"] {
        root_breaks(
            changed(sound(), name, Item::Negative(5)),
            8,
            &Item::Negative(5),
        );
    }
    let names = |names: &[&[u8]]| {
        Item::Map(
            names
                .iter()
                .map(|&name| (Item::text(name), Item::null()))
                .collect(),
        )
    };
    root_breaks(
        root(names(&[b"a", b"\xFF", b"\xFE"])),
        10,
        &Item::text(b"\xFF"),
    );
    let many: Vec<_> = (0..1_025)
        .map(|at| (Item::text(at.to_string()), null.clone()))
        .collect();
    root_breaks(root(Item::Map(many.clone())), 15, &Item::Map(many));
}

/// a b b a: the leftmost second copy is the second b, and it is its key that is shown.
#[test]
fn repeats() {
    let names = ["a", "b", "b", "a"].map(|name| (Item::text(name), Item::null()));
    let manifest = root(Item::Map(names.into())).shortest();
    let told = told_bytes(Layout::Current, &manifest);
    let end = START + manifest.len();
    assert_eq!((told.number, told.span.as_slice()), (11, &b"\x61b"[..]));
    assert_eq!(told.place, end - 6);
    let sound = root(named([]));
    let twice = with(
        with(sound, "objects", Item::null()),
        "version",
        Item::null(),
    );
    let told = self::told(&twice);
    assert_eq!(
        (told.number, told.span),
        (11, Item::text("objects").shortest())
    );
    assert_eq!(told.place, START + twice.shortest().len() - 18);
    // an unknown field may stand twice
    let unknown = with(with(dense(data()), "x", Item::null()), "x", Item::null());
    object_breaks(
        with(unknown, "shape", Item::null()),
        11,
        &Item::text("shape"),
    );
}

#[test]
fn an_object() {
    let sound = || dense(data());
    object_breaks(Item::Unsigned(3), 8, &Item::Unsigned(3));
    for name in ["shape", "format", "components"] {
        let lacking = without(sound(), name);
        object_breaks(lacking.clone(), 12, &lacking);
        object_breaks(changed(sound(), name, Item::null()), 8, &Item::null());
    }
    object_breaks(
        with(sound(), "attributes", Item::Negative(0)),
        8,
        &Item::Negative(0),
    );
    // shape: the leftmost element that is no unsigned integer
    let shape = Item::Array(vec![Item::Unsigned(1), Item::Negative(3), Item::null()]);
    object_breaks(changed(sound(), "shape", shape), 8, &Item::Negative(3));
    let shape = Item::Array(vec![Item::Unsigned(1); 9]);
    object_breaks(changed(sound(), "shape", shape.clone()), 15, &shape);
    object_breaks(
        changed(sound(), "format", Item::text(b"\x80")),
        10,
        &Item::text(b"\x80"),
    );
    // names in `components` belong to the object
    let parts = |names: &[&[u8]]| {
        Item::Map(
            names
                .iter()
                .map(|&name| (Item::text(name), Item::null()))
                .collect(),
        )
    };
    let of = |parts: Item| changed(sound(), "components", parts);
    object_breaks(of(parts(&[b"p", b"q", b"p", b"q"])), 11, &Item::text("p"));
    object_breaks(of(parts(&[b"p", b"\xC0"])), 10, &Item::text(b"\xC0"));
    let odd = Item::Map(vec![
        (Item::text("p"), Item::null()),
        (Item::null(), Item::null()),
    ]);
    object_breaks(of(odd), 9, &Item::null());
    let many: Vec<_> = (0..17)
        .map(|at: u8| (Item::text([at]), Item::null()))
        .collect();
    object_breaks(of(Item::Map(many.clone())), 15, &Item::Map(many));
}

#[test]
fn a_component() {
    let sound = || component("u8", 64, 1);
    component_breaks(Item::Array(Vec::new()), 8, &Item::Array(Vec::new()));
    for name in ["dtype", "offset", "length"] {
        let lacking = without(sound(), name);
        component_breaks(lacking.clone(), 12, &lacking);
        component_breaks(changed(sound(), name, Item::null()), 8, &Item::null());
    }
    for name in ["type", "uncompressed_length", "encoding", "digest"] {
        component_breaks(
            with(sound(), name, Item::Negative(2)),
            8,
            &Item::Negative(2),
        );
    }
    for (name, text, number) in [
        ("dtype", &b"float32"[..], 16),
        ("dtype", b"\xFF", 16),
        ("type", b"\xFF", 10),
        ("type", b"complex64", 18),
        ("encoding", b"zstd", 17),
        ("digest", b"\xFF", 10),
    ] {
        component_breaks(
            changed(sound(), name, Item::text(text)),
            number,
            &Item::text(text),
        );
    }
    for (offset, number) in [(65, 19), (8, 19), (0, 20), (256, 20), (u64::MAX - 63, 20)] {
        let offset = Item::Unsigned(offset);
        component_breaks(changed(sound(), "offset", offset.clone()), number, &offset);
    }
    let mut odd = sound();
    if let Item::Map(pairs) = &mut odd {
        pairs.push((Item::ChunkedText(vec![b"x".to_vec()]), Item::null()));
    }
    component_breaks(odd, 9, &Item::ChunkedText(vec![b"x".to_vec()]));
}

#[test]
fn the_formats_rules() {
    let shape = |shape: &[u64]| Item::Array(shape.iter().map(|&n| Item::Unsigned(n)).collect());
    let roles = |indices: Item, rest: [(&str, Item); 2]| {
        let [one, two] = rest;
        named([
            ("more", component("u8", 64, 0)),
            one,
            ("indices", indices),
            two,
        ])
    };
    let values = || ("values", component("f32", 64, 8));
    let indptr = || ("indptr", component("u64", 64, 24));
    let indices = |length| component("u64", 128, length);
    let csr = |dimensions: &[u64], parts| object(dimensions, "sparse_csr", parts);
    object_breaks(
        csr(&[1, 2, 3], roles(indices(16), [values(), indptr()])),
        21,
        &shape(&[1, 2, 3]),
    );
    // an absent role: the `components` map
    let lacking = roles(indices(16), [values(), ("x", component("u8", 64, 0))]);
    object_breaks(csr(&[2, 2], lacking.clone()), 22, &lacking);
    // an index role: its component's map
    let odd = component("u32", 128, 16);
    let told = self::told(&second(csr(
        &[2, 2],
        roles(odd.clone(), [values(), indptr()]),
    )));
    assert_eq!(
        (told.number, told.indices, told.span),
        (22, (1, 2), odd.shortest())
    );
    assert_eq!(told.component, Some(b"indices".to_vec()));
    // the same at place 0 is told from an absent role by its name
    let parts = named([("coords", component("u8", 64, 0)), values()]);
    let told = self::told(&second(object(&[], "sparse_coo", parts)));
    assert_eq!((told.number, told.indices), (22, (1, 0)));
    assert_eq!(told.component, Some(b"coords".to_vec()));
    assert_eq!(told.span, component("u8", 64, 0).shortest());
    // the length's value of that component
    let told = self::told(&second(csr(
        &[2, 2],
        roles(indices(48), [values(), indptr()]),
    )));
    assert_eq!(
        (told.number, told.indices, told.span),
        (23, (1, 2), vec![0x18, 48])
    );
    assert_eq!(told.component, Some(b"indices".to_vec()));
    let told = self::told(&second(dense(component("f32", 64, 29))));
    assert_eq!(
        (told.number, told.indices, told.span),
        (23, (1, 0), vec![0x18, 29])
    );
}

#[test]
fn layout_1_0() {
    let place = |offset, length| {
        Item::map([
            ("offset", Item::Unsigned(offset)),
            ("length", Item::Unsigned(length)),
        ])
    };
    let tensor = |dtype: Item, parts: Item| {
        Item::map([
            ("dtype", dtype),
            ("shape", Item::Array(vec![Item::Unsigned(2)])),
            ("format", Item::text("dense")),
            ("components", parts),
        ])
    };
    let sound = || tensor(Item::text("float32"), named([("data", place(64, 8))]));
    let told = |entry: Item| {
        let tensors = named([("first", sound()), ("second", entry)]);
        let manifest = Item::map([("version", Item::text("1.0")), ("tensors", tensors)]);
        let told = told_bytes(Layout::First, &manifest.shortest());
        (
            told.number,
            told.indices,
            told.span,
            told.object.is_some(),
            told.component.is_some(),
        )
    };
    let parts = || named([("data", place(64, 8))]);
    let short = Item::text("f32");
    assert_eq!(
        told(tensor(short.clone(), parts())),
        (16, (1, 0), short.shortest(), true, false)
    );
    assert_eq!(
        told(tensor(Item::null(), parts())),
        (8, (1, 0), vec![0xF6], true, false)
    );
    let lacking = without(sound(), "dtype");
    assert_eq!(
        told(lacking.clone()),
        (12, (1, 0), lacking.shortest(), true, false)
    );
    let of = |entry| {
        tensor(
            Item::text("float32"),
            named([("x", place(64, 0)), ("data", entry)]),
        )
    };
    assert_eq!(
        told(of(place(64, 29))),
        (23, (1, 1), vec![0x18, 29], true, true)
    );
    assert_eq!(told(of(place(8, 8))), (19, (1, 1), vec![8], true, true));
    let unknown = with(place(64, 8), "type", Item::Unsigned(0));
    assert_eq!(told(of(unknown)), (0, (0, 0), vec![], false, false));
    let root = Item::map([("version", Item::text("1.0")), ("objects", named([]))]);
    let told = told_bytes(Layout::First, &root.shortest());
    assert_eq!((told.number, told.span), (12, root.shortest()));
}

#[test]
fn room_says_what_is_needed() {
    let needed = (OBJECT_ROW + COMPONENT_ROW) as u64;
    let file = one_dense_object();
    assert_eq!(explain(0, &file, needed), Explanation::default());
    let room = Explanation {
        number: ROOM.into(),
        room: needed,
        ..Explanation::default()
    };
    assert_eq!(explain(0, &file, needed - 1), room);
    assert_eq!(explain(0, NO_OBJECTS, 0), Explanation::default());
}

#[test]
fn the_sentence_to_the_letter() {
    let text = |layout: u64, file: &[u8], room: u64| {
        String::from_utf8(sentence_text(layout, file, room)).unwrap()
    };
    assert_eq!(text(0, NO_OBJECTS, 0), "accepted\n");
    assert_eq!(
        text(0, &[], 0),
        "refused 1 SHORT: file under 24 bytes; at byte 0\n"
    );
    assert_eq!(
        text(0, &[0; 23], 0),
        "refused 1 SHORT: file under 24 bytes; bytes 0 to 22\n"
    );
    assert_eq!(
        text(1, &[0; 1], 0),
        "refused 1 SHORT: file under 16 bytes; bytes 0 to 0\n"
    );
    assert_eq!(
        text(1, &[0; 16], 0),
        "refused 2 HEADER: first 8 wrong; bytes 0 to 7\n"
    );
    let room = text(0, &one_dense_object(), 0);
    let needed = OBJECT_ROW + COMPONENT_ROW;
    assert_eq!(
        room,
        format!("refused 24 ROOM: lent table too short; {needed} numbers needed\n")
    );
    let parts = named([("", component("u8", 65, 1))]);
    let manifest = root(named([("a b\n", object(&[], "f", parts))])).shortest();
    let file = frame::assemble(&[0; START - 8], &manifest);
    let place = START
        + manifest
            .windows(3)
            .position(|part| part == b"\x18\x41\x66")
            .unwrap();
    let expected = format!(
        "refused 19 ALIGN: offset not a multiple of 64; object a\\20b\\0a; component ; bytes {place} to {}\n",
        place + 1
    );
    assert_eq!(text(0, &file, AMPLE), expected);
    let early = frame::assemble(&[], b"\xA1");
    assert_eq!(
        text(0, &early, 0),
        "refused 6 CBOR: malformed, ended early, or bytes left over; at byte 9\n"
    );
    // the lent text
    let mut lent = vec![7; 48];
    let wanted = "refused 1 SHORT: file under 24 bytes; at byte 0\n";
    let said = Said {
        number: 0,
        length: 48,
    };
    assert_eq!(sentence(0, &[], 0, &mut lent), said);
    assert_eq!(lent, wanted.as_bytes());
    let mut short = [7; 47];
    let room = Said {
        number: ROOM.into(),
        length: 0,
    };
    assert_eq!(sentence(0, &[], 0, &mut short), room);
    assert_eq!(short, [7; 47]);
}
