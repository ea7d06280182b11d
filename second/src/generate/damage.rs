//! Files damaged anywhere: a sound tree changed at any of its nodes, then the manifest's bytes, then the frame.

use super::file::{self, any_kind};
use super::first_layout;
use super::items;
use super::plan::Plan;
use super::rng::Rng;
use crate::encode::Item;
use crate::judge::{COMPONENT_LIMIT, RANK_LIMIT};
use crate::layout::Layout;
use crate::refusal::{LENGTH, RANK, ROLE, TYPE};

pub fn file(rng: &mut Rng, layout: Layout) -> Vec<u8> {
    let (root, manifest_start) = changed_tree(rng, layout);
    let mut manifest = items::encoded(rng, &root);
    if rng.one_in(6) {
        bytes(rng, &mut manifest);
    }
    let mut file = layout.assemble(&vec![0; manifest_start as usize - 8], &manifest);
    match rng.index(16) {
        0 => bytes(rng, &mut file),
        1 => layout.set_size(&mut file, manifest.len() as u64 + 2 * rng.below(2) - 1),
        _ => {}
    }
    file
}

/// A manifest that was sound before some of its nodes were changed, and its start.
pub fn changed_tree(rng: &mut Rng, layout: Layout) -> (Item, u64) {
    let mut plan = match rng.one_in(1_000) {
        true => Plan::alike_names(rng),
        false => Plan::sound(rng),
    };
    if layout == Layout::First {
        first_layout::fit(rng, &mut plan);
    }
    if rng.one_in(4) {
        // Several faults that only their order tells apart.
        for _ in 0..2 + rng.index(2) {
            let number = *rng.pick(&[TYPE, RANK, ROLE, ROLE, LENGTH]);
            plan.spoil(rng, number);
        }
    }
    let (mut root, manifest_start) = file::tree(rng, layout, &plan);
    for _ in 0..*rng.pick(&[0, 1, 1, 1, 2, 4]) {
        let (node, depth) = any_node(rng, &mut root, 1);
        change(rng, node, depth);
    }
    (root, manifest_start)
}

/// Goes down from a node at `depth` by chance: the node where that ends, and its depth.
fn any_node<'t>(rng: &mut Rng, node: &'t mut Item, depth: u32) -> (&'t mut Item, u32) {
    let stop = rng.one_in(8);
    let leads_on = match node {
        Item::Map(pairs) => !pairs.is_empty(),
        Item::Array(items) => !items.is_empty(),
        Item::Tag(..) => true,
        _ => false,
    };
    if stop || !leads_on {
        return (node, depth);
    }
    let inner = match node {
        Item::Map(pairs) => {
            let at = rng.index(pairs.len());
            let (key, value) = &mut pairs[at];
            match rng.one_in(5) {
                true => key,
                false => value,
            }
        }
        Item::Array(items) => {
            let at = rng.index(items.len());
            &mut items[at]
        }
        Item::Tag(_, content) => content,
        other => other,
    };
    any_node(rng, inner, depth + 1)
}

/// Changes what stands here by its own kind, or puts null, a tag, or something else in its place.
fn change(rng: &mut Rng, node: &mut Item, depth: u32) {
    match rng.index(10) {
        0 => *node = Item::null(),
        1 => *node = node.clone().tagged(rng.below(30)),
        2 => *node = any_kind(rng, node.clone()),
        3 => *node = items::near_limit(rng, depth),
        _ => match node {
            Item::Unsigned(number) => *number = another_number(rng, *number),
            Item::Text(text) => *node = another_text(rng, std::mem::take(text)),
            Item::Array(items) => another_list(rng, items),
            Item::Map(pairs) => another_map(rng, pairs, depth),
            other => *other = items::sound(rng, 3),
        },
    }
}

/// One off, a multiple of 64 off, one bit off, near 2^64, or any.
fn another_number(rng: &mut Rng, number: u64) -> u64 {
    match rng.index(6) {
        0 => number.wrapping_add(1),
        1 => number.wrapping_sub(1),
        2 => number.wrapping_add(64 * rng.below(4)),
        3 => number ^ 1 << rng.below(64),
        4 => 0u64.wrapping_sub(64 * rng.below(3)).wrapping_sub(number),
        _ => rng.any_size(),
    }
}

/// Shorter, longer or other text, or the same in chunks.
fn another_text(rng: &mut Rng, mut text: Vec<u8>) -> Item {
    match rng.index(5) {
        0 => text.truncate(rng.index(text.len() + 1)),
        1 => text.push(*rng.pick(b"s0.\x80")),
        2 => text = items::not_utf8(rng),
        3 => {
            let rest = text.split_off(rng.index(text.len() + 1));
            return Item::ChunkedText(vec![text, rest]);
        }
        _ => items::damage(rng, &mut text),
    }
    Item::Text(text)
}

/// One item removed, doubled or added, or as many as the rank limit allows, or one more.
fn another_list(rng: &mut Rng, list: &mut Vec<Item>) {
    match rng.index(3) {
        0 => rng.remove(list),
        1 => rng.repeat(list),
        _ => {
            let item = Item::Unsigned(rng.below(3));
            list.resize(RANK_LIMIT + rng.index(2), item);
        }
    }
}

/// One pair removed, doubled, moved or added, or as many as the limit of components allows, or one more.
fn another_map(rng: &mut Rng, pairs: &mut Vec<(Item, Item)>, depth: u32) {
    match rng.index(6) {
        0 => rng.remove(pairs),
        1 => rng.repeat(pairs),
        2 => {
            // A second pair under one key, with another value.
            rng.repeat(pairs);
            if let Some((_, value)) = rng.pick_mut(pairs) {
                change(rng, value, depth + 1);
            }
        }
        3 => rng.shuffle(pairs),
        4 => pairs.push((Item::text("unknown"), items::near_limit(rng, depth + 1))),
        _ => {
            let count = COMPONENT_LIMIT + rng.index(2);
            let value = rng.pick_mut(pairs).map(|(_, value)| value.clone());
            let value = value.unwrap_or(Item::Map(Vec::new()));
            for at in pairs.len()..count {
                pairs.push((Item::text(at.to_string()), value.clone()));
            }
        }
    }
}

/// Removes, doubles or inserts a few bytes, or damages them otherwise.
fn bytes(rng: &mut Rng, bytes: &mut Vec<u8>) {
    let start = rng.index(bytes.len() + 1);
    let end = bytes.len().min(start + 1 + rng.index(9));
    match rng.index(4) {
        0 => drop(bytes.drain(start..end)),
        1 => {
            let run = bytes[start..end].to_vec();
            bytes.splice(start..start, run);
        }
        2 => {
            let run = rng.bytes(4);
            bytes.splice(start..start, run);
        }
        _ => items::damage(rng, bytes),
    }
}
