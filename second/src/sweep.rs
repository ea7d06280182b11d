//! Every place of a file changed in every way: each byte of case 2, each node of a manifest with all known fields, each role of a format; and
//! every two faults together.

mod faults;
pub mod first;
mod roles;

pub use faults::{many_names, many_names_as, two_faults, two_faults_as};
pub use roles::{roles, roles_as};

use crate::cases;
use crate::compose::{component, data, dense, named, object, root, with};
use crate::encode::{Item, Style};
use crate::layout::Layout;

/// Every byte of case 2 in turn: removed, doubled, and made each other byte.
pub fn bytes() -> Vec<Vec<u8>> {
    bytes_as(Layout::Current)
}

/// The same of case 2's like in a layout.
pub fn bytes_as(layout: Layout) -> Vec<Vec<u8>> {
    let sound = match layout {
        Layout::Current => cases::one_dense_object(),
        Layout::First => first::one_dense_tensor(),
    };
    let mut files = Vec::new();
    for at in 0..sound.len() {
        let (before, after) = (&sound[..at], &sound[at + 1..]);
        files.push([before, after].concat());
        files.push([before, &sound[at..=at], &sound[at..]].concat());
        files.extend((0..=255).map(|byte| [before, &[byte], after].concat()));
    }
    files
}

/// Every node of the manifest in turn, key or value, changed in every way, in three styles.
pub fn nodes() -> Vec<Vec<u8>> {
    nodes_as(Layout::Current)
}

/// The same of a manifest of a layout.
pub fn nodes_as(layout: Layout) -> Vec<Vec<u8>> {
    let sound = manifest(layout);
    let mut trees = vec![sound.clone()];
    for index in 0.. {
        let mut changed = sound.clone();
        let Some((node, depth)) = nth(&mut changed, &mut { index }, 1) else {
            break;
        };
        for way in ways(&node.clone(), depth) {
            let mut changed = sound.clone();
            if let Some((node, _)) = nth(&mut changed, &mut { index }, 1) {
                *node = way;
            }
            trees.push(changed);
        }
    }
    let styles = [(0, false), (4, false), (0, true)];
    let in_style = |(wider, indefinite)| {
        let mut style = Always { wider, indefinite };
        let file = |tree: &Item| layout.assemble(BLOBS, &tree.encoded(&mut style));
        trees.iter().map(file).collect::<Vec<_>>()
    };
    styles.into_iter().flat_map(in_style).collect()
}

/// Room for the blobs of `manifest`.
const BLOBS: &[u8] = &[0; 248];

/// A sound manifest of a layout with every known field.
fn manifest(layout: Layout) -> Item {
    match layout {
        Layout::Current => current(),
        Layout::First => first::manifest(),
    }
}

/// Two objects, the second with every known field, and a field that no map knows in each.
fn current() -> Item {
    let unknown = |map| {
        with(
            map,
            "note",
            Item::Array(vec![Item::text("x"), Item::null()]),
        )
    };
    let attributes = |map| with(map, "attributes", named([("unit", Item::text("mm"))]));
    let full = |dtype, length| {
        [
            ("type", Item::text("f8")),
            ("uncompressed_length", Item::Unsigned(8)),
            ("encoding", Item::text("raw")),
            ("digest", Item::text("sha256:00")),
        ]
        .into_iter()
        .fold(component(dtype, 128, length), |map, (key, value)| {
            with(map, key, value)
        })
    };
    let roles = named([
        ("indptr", component("u64", 64, 24)),
        ("values", unknown(full("u8", 2))),
        (
            "indices",
            with(component("u64", 192, 16), "type", Item::null()),
        ),
    ]);
    let sparse = unknown(attributes(object(&[2, 5], "sparse_csr", roles)));
    unknown(attributes(root(named([
        ("w", dense(data())),
        ("ü", sparse),
    ]))))
}

/// The node of this index, in reading order, and its depth.
fn nth<'t>(node: &'t mut Item, index: &mut usize, depth: u32) -> Option<(&'t mut Item, u32)> {
    let Some(left) = index.checked_sub(1) else {
        return Some((node, depth));
    };
    *index = left;
    match node {
        Item::Map(pairs) => pairs
            .iter_mut()
            .flat_map(|(key, value)| [key, value])
            .find_map(|inner| nth(inner, index, depth + 1)),
        Item::Array(items) => items
            .iter_mut()
            .find_map(|inner| nth(inner, index, depth + 1)),
        _ => None,
    }
}

/// What may stand in a node's place: other kinds, the same behind a tag or in chunks, damage, depth 31 to 34.
fn ways(node: &Item, depth: u32) -> Vec<Item> {
    let mut ways = vec![
        Item::null(),
        Item::Raw(vec![0xF8, 22]),
        Item::Raw(vec![0xF8, 31]),
        Item::Raw(vec![0xF8, 32]),
        Item::null().tagged(0),
        node.clone().tagged(55_799),
        Item::Array(vec![node.clone()]),
        Item::Simple(23),
        Item::Unsigned(0),
        Item::Unsigned(64),
        Item::Unsigned(65),
        Item::Unsigned(1 << 63),
        Item::Unsigned(u64::MAX - 63),
        Item::Unsigned(u64::MAX),
        Item::Negative(63),
        Item::Bytes(vec![64]).tagged(2),
        Item::Half(0),
        Item::text(""),
        Item::text("1.2.0"),
        Item::text("2.0"),
        Item::text("dense"),
        Item::text("values"),
        Item::text("complex64"),
        Item::text("type"),
        Item::text("u64"),
        Item::text(b"\xED\xA0\x80"),
        Item::Array(Vec::new()),
        Item::Array(vec![Item::Unsigned(1); 8]),
        Item::Array(vec![Item::Unsigned(1); 9]),
        Item::Map(Vec::new()),
        Item::Raw(vec![0x1C]),
        Item::Raw(vec![0xFF]),
        Item::Raw(Vec::new()),
    ];
    match node {
        Item::Text(text) => {
            ways.push(Item::Bytes(text.clone()));
            ways.push(Item::ChunkedText(vec![text.clone()]));
            ways.push(Item::ChunkedText(vec![Vec::new(), text.clone()]));
        }
        Item::Map(pairs) => ways.extend(one_pair_changed(pairs)),
        _ => {}
    }
    for deepest in 31..=34 {
        let holders = vec![0x81; (deepest - depth) as usize];
        for innermost in [&b"\x00"[..], b"\x80", b"\xBF\xFF", b"\x1C"] {
            ways.push(Item::Raw([&holders, innermost].concat()));
        }
    }
    ways
}

/// The map with each pair in turn removed, doubled, or put first; and with pairs up to 16 and to 17.
fn one_pair_changed(pairs: &[(Item, Item)]) -> Vec<Item> {
    let mut maps = Vec::new();
    for (at, pair) in pairs.iter().enumerate() {
        let mut others = pairs.to_vec();
        others.remove(at);
        maps.push(others.clone());
        others.insert(0, pair.clone());
        maps.push(others.clone());
        others.push((pair.0.clone(), Item::null()));
        maps.push(others);
    }
    if let Some((_, value)) = pairs.first() {
        for count in [16, 17] {
            let further =
                (pairs.len()..count).map(|at| (Item::text(at.to_string()), value.clone()));
            maps.push(pairs.iter().cloned().chain(further).collect());
        }
    }
    maps.into_iter().map(Item::Map).collect()
}

/// The same widths and breaks at every head.
struct Always {
    wider: usize,
    indefinite: bool,
}

impl Style for Always {
    fn wider(&mut self) -> usize {
        self.wider
    }

    fn indefinite(&mut self) -> bool {
        self.indefinite
    }
}
