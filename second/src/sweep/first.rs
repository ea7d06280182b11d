//! Sound files of layout 1.0 for the sweeps: case 2's like, and a manifest with every known field.

use crate::compose::{named, with};
use crate::encode::Item;
use crate::layout::Layout;

/// Case 2 in layout 1.0: its blob lies from 64 to 72.
pub fn one_dense_tensor() -> Vec<u8> {
    let data = named([("data", place(64, 8))]);
    let root = tensors(named([("w", tensor("float32", &[2], "dense", data))]));
    Layout::First.assemble(&[0; 64], &root.shortest())
}

/// Two tensors, the second with every known field, and a field that no map knows in each.
pub fn manifest() -> Item {
    let unknown = |map| with(map, "attributes_", Item::Array(vec![Item::null()]));
    let full = [
        ("encoding", Item::text("raw")),
        ("digest", Item::text("crc32c:0x1A2B3C4D")),
        ("type", Item::Unsigned(8)),
        ("dtype", Item::text("f32")),
    ]
    .into_iter()
    .fold(place(128, 4), |map, (key, value)| with(map, key, value));
    let roles = named([
        ("indptr", place(64, 24)),
        ("values", unknown(full)),
        ("indices", with(place(192, 16), "digest", Item::null())),
    ]);
    let data = named([("data", place(64, 8))]);
    let sparse = unknown(tensor("float16", &[2, 5], "sparse_csr", roles));
    let sparse = with(sparse, "attributes", Item::Unsigned(0));
    let root = tensors(named([
        ("w", tensor("float32", &[2], "dense", data)),
        ("ü", sparse),
    ]));
    let root = with(root, "attributes", named([("unit", Item::text("mm"))]));
    with(root, "generator", Item::text("zTensor-Rust v0.1.0"))
}

/// A component that lies there.
pub fn place(offset: u64, length: u64) -> Item {
    Item::map([
        ("offset", Item::Unsigned(offset)),
        ("length", Item::Unsigned(length)),
    ])
}

/// A tensor's map.
pub fn tensor(dtype: &str, shape: &[u64], format: &str, components: Item) -> Item {
    let shape = shape.iter().map(|&n| Item::Unsigned(n)).collect();
    Item::map([
        ("dtype", Item::text(dtype)),
        ("shape", Item::Array(shape)),
        ("format", Item::text(format)),
        ("components", components),
    ])
}

/// A root with these tensors.
pub fn tensors(entries: Item) -> Item {
    Item::map([("version", Item::text("1.0")), ("tensors", entries)])
}
