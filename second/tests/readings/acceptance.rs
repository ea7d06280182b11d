//! The decided readings of which files are accepted, one test each; the item's number stands in its comment. `super::judged` answers for a manifest
//! at a start: the second program, or another reader that is held to the same.

use super::judged;
use second::cbor::{self, Fault, Kind};
use second::compose::{component, data, dense, named, object, root, with};
use second::encode::Item;
use second::types::DTYPES;

/// A manifest without objects whose last field is unknown and has this value, at depth 2.
fn unknown(value: &[u8]) -> Vec<u8> {
    with(root(named([])), "x", Item::Raw(value.to_vec())).shortest()
}

/// The same, the bytes inside as many arrays as put them at `depth`.
fn at_depth(depth: usize, bytes: &[u8]) -> Vec<u8> {
    unknown(&[&vec![0x81; depth - 2], bytes].concat())
}

fn number(manifest: &[u8]) -> u8 {
    judged(manifest, 8).0
}

/// What reading answers for this dense object's component; the manifest starts at 72.
fn data_judged(data: Item) -> (u8, u64, u64) {
    object_judged(dense(data))
}

/// What reading answers for this object behind a sound one, so that its index is 1.
fn object_judged(object: Item) -> (u8, u64, u64) {
    let objects = named([("first", dense(data())), ("second", object)]);
    judged(&root(objects).shortest(), 320)
}

/// The same for an object with these components; their offsets are all 64.
fn format_judged<const N: usize>(
    shape: &[u64],
    format: &str,
    components: [(&str, &str, u64); N],
) -> (u8, u64, u64) {
    let entries = components.map(|(name, dtype, length)| (name, component(dtype, 64, length)));
    object_judged(object(shape, format, named(entries)))
}

/// Takes the place of a field, or is added.
fn set(mut map: Item, name: &str, value: Item) -> Item {
    let Item::Map(pairs) = &mut map else {
        panic!("not a map");
    };
    pairs.retain(|(key, _)| !matches!(key, Item::Text(text) if text == name.as_bytes()));
    with(map, name, value)
}

fn chunked(text: &str) -> Item {
    Item::ChunkedText(vec![text.as_bytes().to_vec()])
}

fn names<const N: usize>(names: [Item; N]) -> Item {
    Item::Map(names.map(|name| (name, Item::map([]))).into())
}

#[test]
fn a_break_at_depth_33_is_judged_by_cbors_rules() {
    // 1
    assert_eq!(number(&at_depth(32, b"\x9F\xFF")), 0);
    assert_eq!(number(&at_depth(32, b"\xBF\xFF")), 0);
    assert_eq!(number(&at_depth(32, b"\x81\xFF")), 6);
    assert_eq!(number(&at_depth(32, b"\xA1\xFF")), 6);
    assert_eq!(number(&at_depth(32, b"\xC0\xFF")), 6);
    assert_eq!(number(&at_depth(32, b"\x9F\x00\xFF")), 7);
}

#[test]
fn the_manifests_end_at_depth_33_is_6() {
    // 2
    for held in [&b"\x81"[..], b"\xA1", b"\xC0", b"\x9F", b"\xBF"] {
        let manifest = at_depth(32, held);
        let ended = Fault {
            number: 6,
            place: manifest.len(),
        };
        assert_eq!(cbor::decode(&manifest).unwrap_err(), ended);
        assert_eq!(number(&manifest), 6);
    }
}

#[test]
fn a_malformed_byte_at_depth_33_is_7() {
    // 3
    for first in [0x1C, 0xFE, 0x1F, 0xDF, 0x61, 0x5B, 0x00] {
        assert_eq!(number(&at_depth(33, &[first])), 7, "{first:x}");
    }
    let manifest = at_depth(33, b"\x1C");
    assert_eq!(
        cbor::decode(&manifest).unwrap_err().place,
        manifest.len() - 1
    );
}

#[test]
fn elements_are_read_before_a_count_that_cant_be_met() {
    // 4
    let too_many = b"\x9B\xFF\xFF\xFF\xFF\xFF\xFF\xFF\xFF";
    let too_deep = [&vec![0x81; 32][..], &[0]].concat();
    assert_eq!(number(&unknown(&[&too_many[..], &too_deep].concat())), 7);
    assert_eq!(number(&unknown(&[&too_many[..], b"\x00"].concat())), 6);
    let pairs = b"\xBB\xFF\xFF\xFF\xFF\xFF\xFF\xFF\xFF";
    assert_eq!(number(&unknown(&[&pairs[..], &too_deep].concat())), 7);
    assert_eq!(number(&unknown(pairs)), 6);
}

#[test]
fn empty_containers_and_chunked_strings_at_depth_32_are_fine() {
    // 5, 6
    for item in [
        &b"\x80"[..],
        b"\xA0",
        b"\x9F\xFF",
        b"\xBF\xFF",
        b"\x7F\x61a\xFF",
        b"\x5F\xFF",
    ] {
        assert_eq!(number(&at_depth(32, item)), 0);
        assert_eq!(number(&at_depth(33, item)), 7);
    }
}

#[test]
fn chunks_are_definite_strings_of_the_same_type() {
    // 7
    for chunks in [
        &b"\x5F\x5F\xFF\xFF"[..],
        b"\x7F\x7F\xFF\xFF",
        b"\x5F\x61a\xFF",
        b"\x7F\x41a\xFF",
        b"\x5F\x5C\xFF",
        b"\x7F\x7E\xFF",
        b"\x7F\x00\xFF",
        b"\x7F\xF6\xFF",
        b"\x7F\x61a",
    ] {
        assert_eq!(number(&unknown(chunks)), 6, "{chunks:x?}");
        assert_eq!(number(&at_depth(32, chunks)), 6, "{chunks:x?}");
    }
    assert_eq!(number(&unknown(b"\x7F\x78\x01a\x60\x79\x00\x01b\xFF")), 0);
}

#[test]
fn bytes_left_over_are_met_last_and_beat_every_kind() {
    // 8
    assert_eq!(number(b"\x00"), 8);
    assert_eq!(number(b"\x00\x00"), 6);
    assert_eq!(number(&[&at_depth(33, b"\x00")[..], b"\x00"].concat()), 7);
    assert_eq!(number(b"\x80\x80"), 6);
    let manifest = root(named([])).shortest();
    let left_over = cbor::decode(&[&manifest[..], b"\xFF"].concat()).unwrap_err();
    assert_eq!((left_over.number, left_over.place), (6, manifest.len()));
}

#[test]
fn a_two_byte_simple_value_has_a_second_byte_from_32_on() {
    // 9, as 02's Req 09 has it
    for second in 0..=0xFF {
        let simple = [0xF8, second];
        let sound = second >= 32;
        assert_eq!(number(&unknown(&simple)), if sound { 0 } else { 6 });
        assert_eq!(number(&at_depth(32, &simple)), if sound { 0 } else { 6 });
        assert_eq!(number(&at_depth(33, &simple)), 7);
        for field in ["type", "digest", "uncompressed_length", "unknown"] {
            let answer = data_judged(with(data(), field, Item::Raw(simple.to_vec())));
            let expected = match (sound, field) {
                (false, _) => (6, 0, 0),
                (true, "unknown") => (0, 0, 0),
                (true, _) => (8, 1, 0),
            };
            assert_eq!(answer, expected, "{field} {second}");
        }
        let key = vec![(Item::Raw(simple.to_vec()), Item::null())];
        let attributes = with(root(named([])), "attributes", Item::Map(key));
        assert_eq!(number(&attributes.shortest()), if sound { 0 } else { 6 });
    }
    assert_eq!(number(&unknown(b"\x9F\xF8\x20\xF8\x1F\xFF")), 6);
    assert_eq!(number(&unknown(b"\x7F\x61a\xF8\x20\xFF")), 6);
    let manifest = unknown(b"\x82\x00\xF8\x1F");
    let reserved = cbor::decode(&manifest).unwrap_err();
    assert_eq!((reserved.number, reserved.place), (6, manifest.len() - 2));
    for low in 0..24 {
        let null = matches!(cbor::decode(&[0xE0 | low]).unwrap().kind, Kind::Simple(22));
        assert_eq!(null, low == 22);
    }
}

#[test]
fn text_that_isnt_utf8_is_well_formed() {
    // 10
    assert_eq!(number(&unknown(b"\x62\xC3\x28")), 0);
    assert_eq!(
        number(&with(root(named([])), "x", Item::text([0xFF])).shortest()),
        0
    );
    let attributes = Item::Map(vec![(Item::text([0x80]), Item::text([0x80]))]);
    assert_eq!(
        number(&with(root(named([])), "attributes", attributes).shortest()),
        0
    );
    let unknown_key = Item::Map(vec![
        (Item::text("version"), Item::text("1.2")),
        (Item::text([0xFF]), Item::null()),
        (Item::text([0xFF]), Item::null()),
        (Item::text("objects"), named([])),
    ]);
    assert_eq!(number(&unknown_key.shortest()), 0);
}

#[test]
fn keys_inside_attributes_and_unknown_values_are_never_judged() {
    // 11
    let odd = || {
        Item::Map(vec![
            (Item::text("a"), Item::null()),
            (Item::text("a"), Item::null()),
            (Item::Unsigned(1), Item::null()),
            (chunked("version"), Item::map([]).tagged(5)),
        ])
    };
    let manifest = with(with(root(named([])), "attributes", odd()), "x", odd());
    assert_eq!(number(&manifest.shortest()), 0);
    assert_eq!(
        object_judged(with(dense(data()), "attributes", odd())),
        (0, 0, 0)
    );
}

#[test]
fn depth_counts_from_the_root() {
    // 12
    let nested = |depth: usize, deepest: usize| {
        let mut item = Item::Unsigned(0);
        for _ in depth..deepest {
            item = Item::Map(vec![(item, Item::Unsigned(0))]);
        }
        item
    };
    for (deepest, expected) in [(32, 0), (33, 7)] {
        let judge_root = |key, item| judged(&with(root(named([])), key, item).shortest(), 8);
        let judge_object = |key, item| object_judged(with(dense(data()), key, item));
        let judge_component = |key, item| data_judged(with(data(), key, item));
        let expected = (expected, 0, 0);
        assert_eq!(judge_root("x", nested(2, deepest)), expected);
        assert_eq!(judge_root("attributes", nested(2, deepest)), expected);
        assert_eq!(judge_object("x", nested(4, deepest)), expected);
        assert_eq!(judge_object("attributes", nested(4, deepest)), expected);
        assert_eq!(judge_component("x", nested(6, deepest)), expected);
    }
}

#[test]
fn checks_are_passes_over_a_whole_map() {
    // 13
    let odd_key = (Item::Unsigned(0), Item::null());
    let twice = with(root(named([])), "version", Item::text("1.2"));
    assert_eq!(number(&twice.shortest()), 11);
    let Item::Map(mut pairs) = twice else {
        panic!("not a map");
    };
    pairs.push(odd_key);
    assert_eq!(number(&Item::Map(pairs).shortest()), 9);

    let broken = || Item::text([0xFF]);
    let name = || Item::text("a");
    let objects = names([broken(), name(), name(), Item::Unsigned(0)]);
    assert_eq!(number(&root(objects).shortest()), 9);
    let objects = names([name(), name(), broken()]);
    assert_eq!(number(&root(objects).shortest()), 10);
    let components = names([name(), name(), broken(), chunked("b")]);
    assert_eq!(object_judged(object(&[], "", components)), (9, 1, 0));
    let components = names([name(), name(), broken()]);
    assert_eq!(object_judged(object(&[], "", components)), (10, 1, 0));
}

/// That many names, the last one being `last`.
pub fn many_names(count: usize, last: &[u8]) -> Item {
    let entry = || object(&[], "", named([]));
    let mut pairs: Vec<_> = (1..count)
        .map(|index| (Item::text(index.to_string()), entry()))
        .collect();
    pairs.push((Item::text(last), entry()));
    Item::Map(pairs)
}

#[test]
fn count_before_repeats_and_utf8_before_count() {
    // 14
    let objects = |count, last: &[u8]| judged(&root(many_names(count, last)).shortest(), 8);
    assert_eq!(objects(1024, b"last"), (0, 0, 0));
    assert_eq!(objects(1025, b"last"), (15, 0, 0));
    assert_eq!(objects(1024, b"1"), (11, 0, 0));
    assert_eq!(objects(1025, b"1"), (15, 0, 0));
    assert_eq!(objects(1025, b"\xFF"), (10, 0, 0));
    let components = |count, last: &[u8]| object_judged(object(&[], "", many_names(count, last)));
    assert_eq!(components(16, b"last"), (12, 1, 0));
    assert_eq!(components(17, b"last"), (15, 1, 0));
    assert_eq!(components(17, b"1"), (15, 1, 0));
    assert_eq!(components(16, b"1"), (11, 1, 0));
    assert_eq!(components(17, b"\xFF"), (10, 1, 0));
}

#[test]
fn chunked_text_is_9_as_a_key_and_8_as_a_value() {
    // 15
    let keyed = |key: Item| {
        Item::Map(vec![
            (Item::text("version"), Item::text("1.2")),
            (key, named([])),
        ])
        .shortest()
    };
    assert_eq!(number(&keyed(Item::text("objects"))), 0);
    assert_eq!(number(&keyed(chunked("objects"))), 9);
    assert_eq!(number(&keyed(chunked("unknown"))), 9);
    assert_eq!(number(&keyed(Item::text("objects").tagged(3))), 9);
    assert_eq!(number(&root(names([chunked("w")])).shortest()), 9);
    assert_eq!(
        number(&set(root(named([])), "version", chunked("1.2")).shortest()),
        8
    );
    for field in ["dtype", "type", "encoding", "digest"] {
        assert_eq!(
            data_judged(set(data(), field, chunked("raw"))),
            (8, 1, 0),
            "{field}"
        );
    }
    assert_eq!(
        object_judged(set(dense(data()), "format", chunked("dense"))),
        (8, 1, 0)
    );
}

#[test]
fn a_longer_head_changes_nothing() {
    // 16
    let manifest = b"\xB8\x02\x78\x07version\x79\x00\x051.2.0\x7A\x00\x00\x00\x07objects\xBF\xFF";
    assert_eq!(number(manifest), 0);
    let twice = b"\xA3\x67version\x651.2.0\x67objects\xA0\x78\x07version\x651.2.0";
    assert_eq!(number(twice), 11);
}

#[test]
fn null_is_a_value_for_repeats() {
    // 17
    for field in ["type", "digest", "uncompressed_length"] {
        let null = with(data(), field, Item::null());
        assert_eq!(data_judged(null.clone()), (0, 0, 0));
        assert_eq!(
            data_judged(with(null.clone(), field, Item::null())),
            (11, 1, 0)
        );
        assert_eq!(data_judged(with(null, field, Item::text("x"))), (11, 1, 0));
    }
}

#[test]
fn null_elsewhere_is_a_kind_fault() {
    // 18
    for field in ["encoding", "dtype", "offset", "length"] {
        assert_eq!(
            data_judged(set(data(), field, Item::null())),
            (8, 1, 0),
            "{field}"
        );
    }
    for field in ["attributes", "shape", "format", "components"] {
        let object = set(dense(data()), field, Item::null());
        assert_eq!(object_judged(object), (8, 1, 0), "{field}");
    }
    for field in ["version", "attributes", "objects"] {
        let manifest = set(root(named([])), field, Item::null());
        assert_eq!(judged(&manifest.shortest(), 8), (8, 0, 0), "{field}");
    }
    for field in ["type", "digest", "uncompressed_length"] {
        let undefined = set(data(), field, Item::Simple(23));
        assert_eq!(data_judged(undefined), (8, 1, 0), "{field}");
        let tagged = set(data(), field, Item::null().tagged(0));
        assert_eq!(data_judged(tagged), (8, 1, 0), "{field}");
    }
}

#[test]
fn a_tag_on_a_known_value_is_8() {
    // 19
    let manifest = root(named([])).tagged(55_799);
    assert_eq!(judged(&manifest.shortest(), 8), (8, 0, 0));
    assert_eq!(object_judged(dense(data()).tagged(1)), (8, 1, 0));
    assert_eq!(data_judged(data().tagged(1)), (8, 1, 0));
    let dimension = Item::Array(vec![Item::Unsigned(2).tagged(1)]);
    assert_eq!(
        object_judged(set(dense(data()), "shape", dimension)),
        (8, 1, 0)
    );
    let shape = Item::Array(vec![Item::Unsigned(2)]).tagged(1);
    assert_eq!(object_judged(set(dense(data()), "shape", shape)), (8, 1, 0));
    let attributes = Item::map([]).tagged(1);
    assert_eq!(
        object_judged(with(dense(data()), "attributes", attributes)),
        (8, 1, 0)
    );
}

#[test]
fn uncompressed_length_has_a_kind_but_no_value_rule() {
    // 20
    let judge = |value| data_judged(with(data(), "uncompressed_length", value));
    assert_eq!(judge(Item::Unsigned(u64::MAX)), (0, 0, 0));
    assert_eq!(judge(Item::Unsigned(0)), (0, 0, 0));
    assert_eq!(judge(Item::null()), (0, 0, 0));
    assert_eq!(judge(Item::text("8")), (8, 1, 0));
    assert_eq!(judge(Item::Negative(0)), (8, 1, 0));
}

#[test]
fn a_field_of_another_map_is_unknown() {
    // 21
    let twice = |map: Item, key| with(with(map, key, Item::null()), key, Item::Unsigned(1));
    assert_eq!(object_judged(twice(dense(data()), "type")), (0, 0, 0));
    assert_eq!(data_judged(twice(data(), "shape")), (0, 0, 0));
    assert_eq!(number(&twice(root(named([])), "offset").shortest()), 0);
}

#[test]
fn only_major_type_0_is_an_unsigned_integer() {
    // 22
    let bignum = || Item::Bytes(vec![64]).tagged(2);
    for value in [bignum(), Item::Negative(64), Item::Double(0), Item::Half(0)] {
        for field in ["offset", "length"] {
            assert_eq!(data_judged(set(data(), field, value.clone())), (8, 1, 0));
        }
        let shape = Item::Array(vec![value]);
        assert_eq!(object_judged(set(dense(data()), "shape", shape)), (8, 1, 0));
    }
}

#[test]
fn version_dtype_and_encoding_arent_judged_as_utf8() {
    // 23
    let broken = || Item::text([0xFF]);
    let version = set(root(named([])), "version", broken());
    assert_eq!(number(&version.shortest()), 13);
    assert_eq!(data_judged(set(data(), "dtype", broken())), (16, 1, 0));
    assert_eq!(data_judged(set(data(), "encoding", broken())), (17, 1, 0));
    assert_eq!(data_judged(set(data(), "type", broken())), (10, 1, 0));
    assert_eq!(data_judged(set(data(), "digest", broken())), (10, 1, 0));
    assert_eq!(
        object_judged(set(dense(data()), "format", broken())),
        (10, 1, 0)
    );
}

#[test]
fn a_digests_form_isnt_judged() {
    // 24
    for digest in ["", "sha256:", "no digest"] {
        assert_eq!(
            data_judged(with(data(), "digest", Item::text(digest))),
            (0, 0, 0)
        );
    }
    assert_eq!(
        data_judged(with(data(), "digest", Item::Unsigned(1))),
        (8, 1, 0)
    );
}

#[test]
fn empty_texts_are_allowed() {
    // 25
    let entry = with(component("u8", 64, 1), "type", Item::text(""));
    let manifest = root(named([("", object(&[7], "", named([("", entry)])))]));
    assert_eq!(judged(&manifest.shortest(), 65), (0, 0, 0));
}

#[test]
fn missing_fields_are_asked_for_before_any_kind() {
    // 26
    let attributes = Item::map([("version", Item::text("1.2")), ("attributes", Item::null())]);
    assert_eq!(number(&attributes.shortest()), 8);
    let version = Item::map([("attributes", Item::null()), ("objects", Item::null())]);
    assert_eq!(number(&version.shortest()), 12);
    let object = Item::map([("shape", Item::null()), ("format", Item::null())]);
    assert_eq!(object_judged(object), (12, 1, 0));
    let component = Item::map([("dtype", Item::null()), ("offset", Item::null())]);
    assert_eq!(data_judged(component), (12, 1, 0));
}

#[test]
fn shapes_kinds_before_the_rank_limit() {
    // 27
    let shape = |last: Item| {
        let mut dimensions = vec![Item::Unsigned(1); 8];
        dimensions.push(last);
        set(
            dense(component("f32", 64, 4)),
            "shape",
            Item::Array(dimensions),
        )
    };
    assert_eq!(object_judged(shape(Item::null())), (8, 1, 0));
    assert_eq!(object_judged(shape(Item::Unsigned(1))), (15, 1, 0));
    let eight = object(&[1; 8], "dense", named([("data", component("f32", 64, 4))]));
    assert_eq!(object_judged(eight), (0, 0, 0));
}

#[test]
fn rank_gives_the_object_and_0() {
    // 28
    let components = [
        ("indptr", "u64", 24),
        ("indices", "u64", 8),
        ("values", "f32", 4),
    ];
    assert_eq!(format_judged(&[2, 5], "sparse_csr", components), (0, 0, 0));
    assert_eq!(format_judged(&[2], "sparse_csr", components), (21, 1, 0));
    assert_eq!(
        format_judged(&[2, 5, 1], "sparse_csr", components),
        (21, 1, 0)
    );
    assert_eq!(format_judged(&[2], "sparse_csr", []), (21, 1, 0));
}

#[test]
fn an_absent_role_gives_0_and_an_odd_one_its_component() {
    // 29
    assert_eq!(
        format_judged(&[2], "dense", [("x", "u8", 0), ("Data", "f32", 8)]),
        (22, 1, 0)
    );
    let odd = [("x", "u8", 0), ("coords", "u32", 8), ("values", "f32", 4)];
    assert_eq!(format_judged(&[5], "sparse_coo", odd), (22, 1, 1));
    let quantized = [("zeros", "f16", 3), ("packed_weight", "i32", 1)];
    assert_eq!(
        format_judged(&[5], "quantized_group", quantized),
        (22, 1, 0)
    );
    let quantized = [
        ("zeros", "f16", 3),
        ("packed_weight", "i32", 1),
        ("scales", "u8", 0),
    ];
    assert_eq!(format_judged(&[5], "quantized_group", quantized), (0, 0, 0));
}

#[test]
fn presence_and_plainness_are_one_pass_by_roles() {
    // 30
    let values = ("values", "f32", 4);
    let judge = |components| format_judged(&[2, 5], "sparse_csr", components);
    assert_eq!(
        judge([values, ("x", "u8", 0), ("indices", "i64", 8)]),
        (22, 1, 2)
    );
    assert_eq!(
        judge([values, ("indptr", "i64", 24), ("x", "u8", 0)]),
        (22, 1, 0)
    );
    assert_eq!(
        judge([values, ("indptr", "i64", 24), ("indices", "i64", 8)]),
        (22, 1, 2)
    );
    assert_eq!(
        judge([("x", "u8", 0), ("indptr", "i64", 24), ("indices", "i64", 8)]),
        (22, 1, 0)
    );
}

#[test]
fn lengths_go_by_roles() {
    // 31
    let judge = |indptr, indices, values| {
        let components = [
            ("indptr", "u64", indptr),
            ("indices", "u64", indices),
            ("values", "f32", values),
        ];
        format_judged(&[2, 5], "sparse_csr", components)
    };
    assert_eq!(judge(24, 8, 4), (0, 0, 0));
    assert_eq!(judge(1, 1, 5), (23, 1, 2));
    assert_eq!(judge(1, 1, 4), (23, 1, 1));
    assert_eq!(judge(1, 8, 4), (23, 1, 0));
    assert_eq!(judge(24, 8, 8), (23, 1, 1));
    let coo = |coords, values| {
        let components = [("coords", "u64", coords), ("values", "f16", values)];
        format_judged(&[9, 9, 9], "sparse_coo", components)
    };
    assert_eq!(coo(48, 4), (0, 0, 0));
    assert_eq!(coo(48, 3), (23, 1, 1));
    assert_eq!(coo(40, 4), (23, 1, 0));
}

#[test]
fn a_refusal_belongs_to_the_map_at_fault() {
    // 32, 33
    let second = |entry| object(&[2], "dense", named([("data", data()), ("more", entry)]));
    let judge = |entry| object_judged(second(entry));
    assert_eq!(judge(Item::null()), (8, 1, 1));
    assert_eq!(judge(Item::map([])), (12, 1, 1));
    assert_eq!(judge(component("f8", 64, 0)), (16, 1, 1));
    assert_eq!(judge(component("u8", 63, 0)), (19, 1, 1));
    assert_eq!(judge(component("u8", 0, 0)), (20, 1, 1));
    assert_eq!(
        judge(with(component("u8", 64, 0), "dtype", Item::null())),
        (11, 1, 1)
    );
}

#[test]
fn each_object_is_finished_before_the_next() {
    // 01, Order: a later object's earlier check doesn't win.
    let short = object(&[3], "dense", named([("data", data())]));
    let objects = named([("a", short), ("b", Item::null())]);
    assert_eq!(judged(&root(objects).shortest(), 72), (23, 0, 0));
    let objects = named([("a", dense(data())), ("b", Item::null())]);
    assert_eq!(judged(&root(objects).shortest(), 72), (8, 1, 0));
}

#[test]
fn only_listed_types_are_type_faults() {
    // 34
    let judge = |dtype: &str, length, logical: &str| {
        data_judged(with(
            component(dtype, 64, length),
            "type",
            Item::text(logical),
        ))
    };
    for listed in ["f8_e4m3fn", "f8_e5m2", "f8_e4m3fnuz", "f8_e5m2fnuz"] {
        assert_eq!(judge("u8", 2, listed), (0, 0, 0));
        assert_eq!(judge("i8", 2, listed), (18, 1, 0));
    }
    assert_eq!(judge("f32", 16, "complex64"), (0, 0, 0));
    assert_eq!(judge("f32", 8, "complex64"), (23, 1, 0));
    assert_eq!(judge("f64", 32, "complex128"), (0, 0, 0));
    assert_eq!(judge("f64", 32, "complex64"), (18, 1, 0));
    for other in ["", "f32", "Complex64", "complex64 "] {
        assert_eq!(judge("u8", 2, other), (0, 0, 0));
        assert_eq!(judge("u8", 3, other), (0, 0, 0));
    }
    let indices = with(component("u64", 64, 8), "type", Item::text("complex64"));
    let components = named([
        ("values", component("f32", 64, 4)),
        ("indices", indices),
        ("indptr", component("u64", 64, 24)),
    ]);
    assert_eq!(
        object_judged(object(&[2, 5], "sparse_csr", components)),
        (18, 1, 1)
    );
}

/// A component whose type is this text.
fn typed(dtype: &str, length: u64, logical: &str) -> Item {
    with(component(dtype, 64, length), "type", Item::text(logical))
}

/// Types that 01 doesn't list: any text, also the name of a storage type.
const UNLISTED: [&str; 4] = ["", "f32", "quad", "Complex64"];

#[test]
fn dense_data_of_an_unlisted_type_are_whole_numbers() {
    // 34, as 02's Req 03 has it
    for (dtype, width) in DTYPES {
        for logical in UNLISTED {
            for length in [0, width, 4 * width * 6, 4 * width * 6 + 1, width + 1] {
                let components = named([("data", typed(dtype, length, logical))]);
                let answer = object_judged(object(&[2, 3], "dense", components));
                let expected = if length % width == 0 {
                    (0, 0, 0)
                } else {
                    (23, 1, 0)
                };
                assert_eq!(answer, expected, "{dtype} {logical} {length}");
            }
        }
    }
    // The shape may be anything, and then its product is never looked at.
    for shape in [&[][..], &[0], &[1 << 63, 1 << 63]] {
        let components = named([("data", typed("f32", 12, "quad"))]);
        assert_eq!(object_judged(object(shape, "dense", components)), (0, 0, 0));
    }
    // Listed types and absent ones keep their rule.
    let dense = |data| object_judged(object(&[2, 3], "dense", named([("data", data)])));
    assert_eq!(dense(component("f32", 64, 24)), (0, 0, 0));
    assert_eq!(dense(component("f32", 64, 28)), (23, 1, 0));
    let null = |length| with(component("f32", 64, length), "type", Item::null());
    assert_eq!(dense(null(24)), (0, 0, 0));
    assert_eq!(dense(null(28)), (23, 1, 0));
    assert_eq!(dense(typed("f32", 48, "complex64")), (0, 0, 0));
    assert_eq!(dense(typed("f32", 52, "complex64")), (23, 1, 0));
    assert_eq!(dense(typed("u8", 6, "f8_e5m2")), (0, 0, 0));
    assert_eq!(dense(typed("u8", 7, "f8_e5m2")), (23, 1, 0));
}

/// Lengths of indices or coordinates, whole and not.
const INDEX_LENGTHS: [u64; 7] = [0, 1, 8, 12, 16, 48, 49];

#[test]
fn indices_of_an_unlisted_type_are_whole_numbers() {
    // 34, as 02's Req 03 has it
    let csr = |values, indices, indptr| {
        let components = named([
            ("values", values),
            ("indices", component("u64", 64, indices)),
            ("indptr", component("u64", 64, indptr)),
        ]);
        object_judged(object(&[2, 5], "sparse_csr", components))
    };
    for logical in UNLISTED {
        for length in [0, 4, 96, 97, 2] {
            for indices in INDEX_LENGTHS {
                let expected = match (length % 4, indices % 8) {
                    (0, 0) => (0, 0, 0),
                    (0, _) => (23, 1, 1),
                    _ => (23, 1, 0),
                };
                let answer = csr(typed("f32", length, logical), indices, 24);
                assert_eq!(answer, expected, "{logical} {length} {indices}");
            }
        }
        // indptr keeps its rule, as it doesn't depend on values.
        assert_eq!(csr(typed("f32", 96, logical), 8, 16), (23, 1, 2));
        assert_eq!(csr(typed("f32", 96, logical), 8, 32), (23, 1, 2));
    }
    for indices in INDEX_LENGTHS {
        let kept = |n: u64| {
            if indices == 8 * n {
                (0, 0, 0)
            } else {
                (23, 1, 1)
            }
        };
        assert_eq!(csr(component("f32", 64, 8), indices, 24), kept(2));
        assert_eq!(csr(typed("f32", 16, "complex64"), indices, 24), kept(2));
        assert_eq!(csr(typed("f32", 12, "complex64"), indices, 24), (23, 1, 0));
        let null = with(component("f32", 64, 24), "type", Item::null());
        assert_eq!(csr(null, indices, 24), kept(6));
    }
    // Only the values' type counts: an index role still has none.
    let components = named([
        ("values", typed("f32", 4, "quad")),
        ("indices", typed("u64", 8, "quad")),
        ("indptr", component("u64", 64, 24)),
    ]);
    let answer = object_judged(object(&[2, 5], "sparse_csr", components));
    assert_eq!(answer, (22, 1, 1));
}

#[test]
fn coordinates_of_an_unlisted_type_are_whole_numbers() {
    // 34 and 37, as 02's Req 03 has them
    let coo = |shape: &[u64], values, coords| {
        let components = named([("coords", component("u64", 64, coords)), ("values", values)]);
        object_judged(object(shape, "sparse_coo", components))
    };
    for shape in [&[][..], &[7], &[2, 3, 4]] {
        let rank = shape.len() as u64;
        for coords in INDEX_LENGTHS {
            let whole = if coords % 8 == 0 {
                (0, 0, 0)
            } else {
                (23, 1, 0)
            };
            for logical in UNLISTED {
                assert_eq!(coo(shape, typed("f32", 8, logical), coords), whole);
                assert_eq!(coo(shape, typed("f32", 6, logical), coords), (23, 1, 1));
            }
            let kept = if coords == 8 * rank * 2 {
                (0, 0, 0)
            } else {
                (23, 1, 0)
            };
            assert_eq!(coo(shape, component("f32", 64, 8), coords), kept);
            assert_eq!(coo(shape, typed("f32", 16, "complex64"), coords), kept);
        }
    }
}

#[test]
fn index_roles_are_plain_only_where_needed() {
    // 35
    let free = [
        ("data", "f32", 8),
        ("indptr", "bool", 1),
        ("coords", "f16", 3),
    ];
    assert_eq!(format_judged(&[2], "dense", free), (0, 0, 0));
    let judge = |logical| {
        let coords = with(component("u64", 64, 8), "type", logical);
        let components = named([("values", component("u8", 64, 1)), ("coords", coords)]);
        object_judged(object(&[2], "sparse_coo", components))
    };
    assert_eq!(judge(Item::null()), (0, 0, 0));
    assert_eq!(judge(Item::text("")), (22, 1, 1));
    assert_eq!(judge(Item::text("u64")), (22, 1, 1));
}

#[test]
fn rows_are_the_first_dimension_and_sums_are_exact() {
    // 36, 37, 38
    let csr = |shape: [u64; 2], indptr| {
        let components = [
            ("values", "u8", 0),
            ("indices", "u64", 0),
            ("indptr", "u64", indptr),
        ];
        format_judged(&shape, "sparse_csr", components)
    };
    assert_eq!(csr([0, u64::MAX], 8), (0, 0, 0));
    assert_eq!(csr([2, 0], 24), (0, 0, 0));
    assert_eq!(csr([u64::MAX, 0], 0), (23, 1, 2));
    assert_eq!(csr([(1 << 61) - 1, 0], 0), (23, 1, 2));
    let coo = |shape: &[u64], coords| {
        format_judged(
            shape,
            "sparse_coo",
            [("values", "u8", 3), ("coords", "u64", coords)],
        )
    };
    assert_eq!(coo(&[], 0), (0, 0, 0));
    assert_eq!(coo(&[], 24), (23, 1, 1));
    assert_eq!(coo(&[u64::MAX, 0], 48), (0, 0, 0));
}

#[test]
fn align_and_bounds_hold_for_empty_blobs_too() {
    // 39, 40
    let judge = |offset| {
        let components = named([("data", component("f32", offset, 0))]);
        let objects = named([("w", object(&[0], "dense", components))]);
        judged(&root(objects).shortest(), 128).0
    };
    let expected = [
        (8, 19),
        (0, 20),
        (64, 0),
        (128, 0),
        (192, 20),
        (1, 19),
        (129, 19),
    ];
    for (offset, number) in expected {
        assert_eq!(judge(offset), number, "offset {offset}");
    }
}

#[test]
fn formats_are_compared_by_bytes() {
    // 41
    for format in ["Dense", "", "dense ", "sparse", "sparse_CSR"] {
        assert_eq!(format_judged(&[2], format, []), (0, 0, 0));
    }
    assert_eq!(format_judged(&[2], "dense", []), (22, 1, 0));
}
