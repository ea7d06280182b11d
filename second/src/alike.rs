//! Manifests that are alike (demand 3, Req 06): the same once unknown fields are dropped, well-shaped 1.x versions read alike, and the pairs of each root, object
//! and component map put in order. Names keep theirs.

use crate::cbor::{self, Kind, Node};
use crate::compose::is_text;
use crate::encode::Item;
use crate::judge::major;
use crate::layout::{Layout, COMPONENT, OBJECT, ROOT};

/// The item that a node means; chunked strings come out in one chunk.
pub fn item_of(bytes: &[u8], node: &Node) -> Item {
    match &node.kind {
        Kind::Unsigned(n) => Item::Unsigned(*n),
        Kind::Negative(n) => Item::Negative(*n),
        Kind::Bytes(content) => Item::Bytes(bytes[content.clone()].to_vec()),
        Kind::ChunkedBytes(content) => Item::ChunkedBytes(vec![content.clone()]),
        Kind::Text(content) => Item::Text(bytes[content.clone()].to_vec()),
        Kind::ChunkedText(content) => Item::ChunkedText(vec![content.clone()]),
        Kind::Array(nodes) => Item::Array(nodes.iter().map(|node| item_of(bytes, node)).collect()),
        Kind::Map(pairs) => {
            let pair = |(key, value): &(Node, Node)| (item_of(bytes, key), item_of(bytes, value));
            Item::Map(pairs.iter().map(pair).collect())
        }
        Kind::Tag(number, content) => item_of(bytes, content).tagged(*number),
        Kind::Simple(number) => Item::Simple(*number),
        Kind::Float { width: 2, bits } => Item::Half(*bits as u16),
        Kind::Float { width: 4, bits } => Item::Single(*bits as u32),
        Kind::Float { bits, .. } => Item::Double(*bits),
    }
}

/// The one item that fills the bytes within so many depths, if one does.
pub fn whole_item(bytes: &[u8], levels: u32) -> Option<Item> {
    let node = cbor::first_item(bytes, levels).ok()?;
    (node.end == bytes.len()).then(|| item_of(bytes, &node))
}

/// The level of what a pair's value is read as, if it is a map with fields or names.
pub fn level_below(layout: Layout, level: usize, key: &Item) -> Option<usize> {
    let leads_on = match level {
        ROOT => is_text(key, layout.objects()),
        OBJECT => is_text(key, "components"),
        COMPONENT => false,
        _ => true,
    };
    leads_on.then_some(level + 1)
}

/// Whether the key of a map with fields is whole text and no known field.
pub fn is_unknown(layout: Layout, level: usize, key: &Item) -> bool {
    let known = layout.fields()[level];
    matches!(key, Item::Text(_)) && !known.iter().any(|name| is_text(key, name))
}

/// Whether this is the root's version, and a well-shaped 1.x.
pub fn is_minor_version(level: usize, key: &Item, value: &Item) -> bool {
    let one = matches!(value, Item::Text(text) if major(text) == Some(b"1"));
    level == ROOT && is_text(key, "version") && one
}

/// What all items alike with this one, at its level, have in common.
pub fn in_order(layout: Layout, level: usize, item: &Item) -> Item {
    let Item::Map(pairs) = item else {
        return item.clone();
    };
    let has_fields = !layout.fields()[level].is_empty();
    let mut kept: Vec<(Item, Item)> = pairs
        .iter()
        .filter(|(key, _)| !has_fields || !is_unknown(layout, level, key))
        .map(|(key, value)| (key.clone(), value_in_order(layout, level, key, value)))
        .collect();
    if has_fields {
        kept.sort_by_cached_key(|(key, value)| (key.shortest(), value.shortest()));
    }
    Item::Map(kept)
}

fn value_in_order(layout: Layout, level: usize, key: &Item, value: &Item) -> Item {
    if is_minor_version(level, key, value) {
        return Item::text("1.0");
    }
    match level_below(layout, level, key) {
        Some(below) => in_order(layout, below, value),
        None => value.clone(),
    }
}
