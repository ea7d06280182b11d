//! One file for each entry of document 01's lists, on both sides of each rule: storage types, logical types, roles, limits.

use crate::compose::{component, named, object, root, with};
use crate::encode::Item;
use crate::frame;
use crate::types::{DTYPES, LISTED};

/// Blob bytes before the manifest, which then starts at 128.
const BLOBS: usize = 120;

pub fn files() -> Vec<Vec<u8>> {
    let mut files = Vec::new();
    files.extend(DTYPES.iter().flat_map(|&(dtype, width)| {
        [3 * width, 3 * width + 1]
            .map(|length| one("dense", &[3], &[("data", component(dtype, 64, length))]))
    }));
    files.extend(LISTED.iter().flat_map(|listed| {
        let (dtype, width) = DTYPES[listed.dtype];
        let length = 2 * listed.ratio * width;
        [(dtype, length), (dtype, length + width), ("u16", 4)].map(|(dtype, length)| {
            let typed = with(
                component(dtype, 64, length),
                "type",
                Item::text(listed.name),
            );
            one("dense", &[2], &[("data", typed)])
        })
    }));
    files.extend(FORMATS.iter().flat_map(|(format, roles)| {
        (0..=roles.len()).map(move |missing| format_without(format, roles, missing))
    }));
    files.extend(unlisted());
    files.extend(
        [8, 9].map(|rank| one("dense", &vec![1; rank], &[("data", component("u8", 64, 1))])),
    );
    files.extend(
        [16, 17].map(|count| one("other", &[], &numbered(count, || component("u8", 64, 1)))),
    );
    files.extend([1_024, 1_025].map(|count| file(&root(numbered_map(count, || named([]))))));
    files.extend([16_777_216_u64, 16_777_217].map(sized));
    files.extend(UTF8_EDGES.iter().map(|name| called(name)));
    files.push(called(&(0..128).collect::<Vec<u8>>()));
    files
}

/// A type that 01 doesn't list, in each format that has a length rule: whole numbers and one byte off.
fn unlisted() -> Vec<Vec<u8>> {
    let quad = |length| with(component("f16", 64, length), "type", Item::text("quad"));
    let index = |length| component("u64", 64, length);
    let mut files = Vec::new();
    files.extend([0, 2, 24, 25].map(|length| one("dense", &[3], &[("data", quad(length))])));
    files.extend([(6, 8, 24), (6, 9, 24), (7, 8, 24), (6, 8, 16)].map(
        |(values, indices, indptr)| {
            let parts = [
                ("values", quad(values)),
                ("indices", index(indices)),
                ("indptr", index(indptr)),
            ];
            one("sparse_csr", &[2, 1], &parts)
        },
    ));
    for shape in [&[][..], &[4]] {
        files.extend([(6, 0), (6, 8), (6, 12), (7, 8)].map(|(values, coords)| {
            let parts = [("values", quad(values)), ("coords", index(coords))];
            one("sparse_coo", shape, &parts)
        }));
    }
    files
}

/// The edges of RFC 3629's ranges, on both sides, and texts that end early.
const UTF8_EDGES: [&[u8]; 24] = [
    b"\x7f",
    b"\x80",
    b"\xc1\xbf",
    b"\xc2\x80",
    b"\xdf\xbf",
    b"\xc2\x7f",
    b"\xc2\xc0",
    b"\xe0\x9f\xbf",
    b"\xe0\xa0\x80",
    b"\xe1\x80\x80",
    b"\xed\x9f\xbf",
    b"\xed\xa0\x80",
    b"\xee\x80\x80",
    b"\xee\xbf\xbf",
    b"\xef\xbf\xbf",
    b"\xf0\x8f\xbf\xbf",
    b"\xf0\x90\x80\x80",
    b"\xf1\x80\x80\x80",
    b"\xf3\xbf\xbf\xbf",
    b"\xf4\x8f\xbf\xbf",
    b"\xf4\x90\x80\x80",
    b"\xf5\x80\x80\x80",
    b"\xe1\x80",
    b"a\xc2",
];

/// Files that only the box's small program tells apart: by their length, and by the room that their rows take.
pub fn program_files() -> Vec<Vec<u8>> {
    let mut files = vec![vec![0; 65_536], vec![0; 65_537]];
    files.extend(
        [512, 513].map(|count| file(&root(numbered_map(count, || object(&[], "", named([])))))),
    );
    files
}

const FORMATS: [(&str, &[&str]); 4] = [
    ("dense", &["data"]),
    ("sparse_csr", &["values", "indices", "indptr"]),
    ("sparse_coo", &["values", "coords"]),
    ("quantized_group", &["packed_weight", "scales", "zeros"]),
];

/// Every role is there but one, or none is missing: two by one numbers, no value.
fn format_without(format: &str, roles: &[&str], missing: usize) -> Vec<u8> {
    let present = roles
        .iter()
        .enumerate()
        .filter(|&(index, _)| index != missing);
    let parts: Vec<_> = present
        .map(|(_, &role)| (role, component("u64", 64, 0)))
        .collect();
    one(format, &[2, 1], &parts)
}

fn numbered(count: usize, value: impl Fn() -> Item) -> Vec<(String, Item)> {
    (0..count)
        .map(|index| (index.to_string(), value()))
        .collect()
}

fn numbered_map(count: usize, value: impl Fn() -> Item) -> Item {
    Item::Map(pairs(&numbered(count, value)))
}

fn pairs<Name: AsRef<str>>(entries: &[(Name, Item)]) -> Vec<(Item, Item)> {
    entries
        .iter()
        .map(|(name, value)| (Item::text(name.as_ref()), value.clone()))
        .collect()
}

fn one<Name: AsRef<str>>(format: &str, shape: &[u64], components: &[(Name, Item)]) -> Vec<u8> {
    file(&root(named([(
        "w",
        object(shape, format, Item::Map(pairs(components))),
    )])))
}

/// One object of this name that holds nothing.
fn called(name: &[u8]) -> Vec<u8> {
    let objects = vec![(Item::text(name), object(&[], "", named([])))];
    file(&root(Item::Map(objects)))
}

fn file(manifest: &Item) -> Vec<u8> {
    frame::assemble(&[0; BLOBS], &manifest.shortest())
}

/// A file without objects whose manifest size is said to be this.
fn sized(size: u64) -> Vec<u8> {
    let mut file = file(&root(named([])));
    frame::set_size(&mut file, size);
    file
}
