//! Every two faults in one manifest, so that the order of checks shows; and names at the limits of their count with every fault of names.

use super::{manifest, BLOBS};
use crate::compose::{field, is_text, named, object, pairs, set, with, Pairs};
use crate::encode::Item;
use crate::judge::{COMPONENT_LIMIT, OBJECT_LIMIT};
use crate::layout::Layout;

/// What is done to a map.
#[derive(Clone)]
enum Fault {
    Without(&'static str),
    With(&'static str, Item),
    /// A pair at the end, whose key may stand there already.
    Also(Item, Item),
}

use Fault::{Also, With, Without};

/// Names of the fields that lead from the root to a map, and what may be wrong there; "" is the field that holds the objects.
type Place = (&'static [&'static str], Vec<Fault>);

const NOT_UTF8: &[u8] = b"\xED\xA0\x80";

/// Each fault of every place alone and with each other.
pub fn two_faults() -> Vec<Vec<u8>> {
    two_faults_as(Layout::Current)
}

/// The same in a layout.
pub fn two_faults_as(layout: Layout) -> Vec<Vec<u8>> {
    let objects = || object_faults(layout);
    let places: [Place; 8] = [
        (&[], root_faults(layout)),
        (&[""], name_faults("w")),
        (&["", "w"], objects()),
        (&["", "w", "components", "data"], component_faults()),
        (&["", "ü"], objects()),
        (&["", "ü", "components"], name_faults("values")),
        (&["", "ü", "components", "values"], component_faults()),
        (&["", "ü", "components", "indices"], component_faults()),
    ];
    let in_place = |(path, faults): &Place| {
        let faults = faults.iter().cloned();
        faults.map(|fault| (*path, fault)).collect::<Vec<_>>()
    };
    let faults: Vec<_> = places.iter().flat_map(in_place).collect();
    let mut files = Vec::new();
    for (at, first) in faults.iter().enumerate() {
        for second in &faults[at..] {
            let mut tree = manifest(layout);
            // The inner map first, since an outer fault may take it away.
            for (path, fault) in [second, first] {
                put(&mut tree, layout, path, fault.clone());
            }
            files.push(layout.assemble(BLOBS, &tree.shortest()));
        }
    }
    files
}

/// Nothing is done where the map is gone.
fn put(tree: &mut Item, layout: Layout, path: &[&'static str], fault: Fault) {
    let named = |name: &&'static str| match *name {
        "" => layout.objects(),
        other => other,
    };
    let map = path
        .iter()
        .try_fold(tree, |map, name| field(map, named(name)));
    let Some(map) = map else { return };
    match (fault, pairs(map)) {
        (Without(name), Some(pairs)) => pairs.retain(|(key, _)| !is_text(key, name)),
        (Also(key, value), Some(pairs)) => pairs.push((key, value)),
        (With(name, value), Some(_)) => set(map, name, value),
        _ => {}
    }
}

fn odd_key() -> Fault {
    Also(Item::Unsigned(0), Item::null())
}

fn again(name: &str) -> Fault {
    Also(Item::text(name), Item::null())
}

fn root_faults(layout: Layout) -> Vec<Fault> {
    vec![
        odd_key(),
        again("version"),
        Without("version"),
        With("version", Item::null()),
        With("version", Item::text("1")),
        With("version", Item::text("2.0")),
        With("attributes", Item::null()),
        Without(layout.objects()),
        With(layout.objects(), Item::null()),
    ]
}

fn name_faults(present: &str) -> Vec<Fault> {
    let mut faults = vec![odd_key(), again(present)];
    faults.push(Also(Item::text(NOT_UTF8), Item::null()));
    faults.push(Also(Item::text("further"), Item::null()));
    faults
}

fn object_faults(layout: Layout) -> Vec<Fault> {
    let mut faults = vec![
        odd_key(),
        again("shape"),
        Without("shape"),
        Without("format"),
        Without("components"),
        With("shape", Item::null()),
        With("shape", Item::Array(vec![Item::null()])),
        With("shape", Item::Array(vec![Item::Unsigned(1); 9])),
        With("shape", Item::Array(vec![Item::Unsigned(3)])),
        With("format", Item::null()),
        With("format", Item::text(NOT_UTF8)),
        With("format", Item::text("sparse_coo")),
        With("attributes", Item::null()),
        With("components", Item::null()),
    ];
    if layout == Layout::First {
        faults.extend([
            again("dtype"),
            Without("dtype"),
            With("dtype", Item::null()),
            With("dtype", Item::text("f32")),
            With("dtype", Item::text("float64")),
        ]);
    }
    faults
}

fn component_faults() -> Vec<Fault> {
    let text = |text: &str| Item::text(text);
    let number = Item::Unsigned;
    vec![
        odd_key(),
        again("type"),
        Without("dtype"),
        Without("offset"),
        Without("length"),
        With("dtype", Item::null()),
        With("dtype", text("f8")),
        With("dtype", text("u32")),
        With("type", number(0)),
        With("type", Item::text(NOT_UTF8)),
        With("type", text("complex64")),
        With("offset", Item::null()),
        With("offset", number(0)),
        With("offset", number(65)),
        With("offset", number(u64::MAX - 63)),
        With("length", Item::null()),
        With("length", number(1)),
        With("length", number(u64::MAX - 63)),
        With("uncompressed_length", text("")),
        With("encoding", Item::null()),
        With("encoding", text("zstd")),
        With("digest", number(0)),
        With("digest", Item::text(NOT_UTF8)),
    ]
}

/// Objects and components one under the limit of their count, at it, and one over it, with every choice of an odd name, one that isn't UTF-8, a
/// repeated one and an entry at fault.
pub fn many_names() -> Vec<Vec<u8>> {
    many_names_as(Layout::Current)
}

/// The same in a layout.
pub fn many_names_as(layout: Layout) -> Vec<Vec<u8>> {
    let mut files = Vec::new();
    for limit in [OBJECT_LIMIT, COMPONENT_LIMIT] {
        for count in limit - 1..=limit + 1 {
            for faults in 0..16 {
                let dtype = Item::text(layout.dtype_name(11));
                let names = Item::Map(numbered(count, faults, &dtype));
                let objects = match limit {
                    OBJECT_LIMIT => names,
                    _ => named([("w", with(object(&[], "", names), "dtype", dtype))]),
                };
                let version = ("version", Item::text("1.2.0"));
                let root = Item::map([version, (layout.objects(), objects)]);
                files.push(layout.assemble(BLOBS, &root.shortest()));
            }
        }
    }
    files
}

/// So many names, the last of them wrong in the ways that the bits say.
fn numbered(count: usize, faults: usize, dtype: &Item) -> Pairs {
    // An object and a component at once: what is known in one is unknown in the other.
    let fields = [
        ("dtype", dtype.clone()),
        ("offset", Item::Unsigned(64)),
        ("length", Item::Unsigned(0)),
    ];
    let free = object(&[], "", named([]));
    let entry = fields
        .into_iter()
        .fold(free, |map, (key, value)| with(map, key, value));
    let mut pairs: Pairs = (0..count)
        .map(|at| (Item::text(at.to_string()), entry.clone()))
        .collect();
    let wrong: [fn(&mut (Item, Item)); 4] = [
        |(name, _)| *name = Item::Bytes(b"0".to_vec()),
        |(name, _)| *name = Item::text(NOT_UTF8),
        |(name, _)| *name = Item::text("0"),
        |(_, entry)| *entry = Item::null(),
    ];
    for (bit, change) in wrong.iter().enumerate() {
        if faults >> bit & 1 == 1 {
            change(&mut pairs[count - 1 - bit]);
        }
    }
    pairs
}
