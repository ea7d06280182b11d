//! Pairs of files whose manifests are alike (demand 3, Req 06), and pairs that aren't because rows changed places.

use super::damage;
use super::file;
use super::first_layout;
use super::items;
use super::pair;
use super::rng::Rng;
use super::FilePair;
use crate::alike::{is_minor_version, is_unknown, item_of, level_below};
use crate::cbor;
use crate::compose::{pairs, Pairs};
use crate::encode::Item;
use crate::layout::{Layout, ROOT};
use crate::refusal::KIND;

/// Sound, spoiled for any of refusals 8 to 23, or changed anywhere; both pass checks 1 to 7.
pub fn pair(rng: &mut Rng, layout: Layout) -> FilePair {
    loop {
        let (root, start) = match rng.one_in(3) {
            true => damage::changed_tree(rng, layout),
            false => {
                let (plan, faults) = file::planned(rng, layout, KIND);
                file::spoiled_tree(rng, layout, &plan, &faults)
            }
        };
        if let Some((manifest, mut tree)) = encoded_and_read(rng, &root) {
            shuffle(rng, layout, &mut tree, ROOT);
            return framed(rng, layout, start, &manifest, &tree);
        }
    }
}

/// Two objects, or two components of one object, change places besides: `level` says which.
pub fn exchanged(rng: &mut Rng, layout: Layout, level: usize) -> FilePair {
    loop {
        let mut plan = pair::several_objects(rng);
        if layout == Layout::First {
            first_layout::fit(rng, &mut plan);
        }
        let (root, start) = file::tree(rng, layout, &plan);
        let Some((manifest, mut tree)) = encoded_and_read(rng, &root) else {
            continue;
        };
        shuffle(rng, layout, &mut tree, ROOT);
        let names = file::descend(rng, layout, &mut tree, level - 1).and_then(pairs);
        let accepted = layout.judge(&manifest, start).is_ok();
        if accepted && names.is_some_and(|names| exchange(rng, names)) {
            return framed(rng, layout, start, &manifest, &tree);
        }
    }
}

/// A manifest's bytes and, if it passes checks 6 and 7, the tree that is read there.
fn encoded_and_read(rng: &mut Rng, root: &Item) -> Option<(Vec<u8>, Item)> {
    let manifest = items::encoded(rng, root);
    let tree = item_of(&manifest, &cbor::decode(&manifest).ok()?);
    Some((manifest, tree))
}

/// Both manifests start at the same place; the second has a style of its own.
fn framed(rng: &mut Rng, layout: Layout, start: u64, manifest: &[u8], tree: &Item) -> FilePair {
    let blobs = vec![0; start as usize - 8];
    FilePair {
        first_layout: layout.number(),
        first: layout.assemble(&blobs, manifest),
        second_layout: layout.number(),
        second: layout.assemble(&blobs, &items::encoded(rng, tree)),
    }
}

/// Makes another manifest of this one that is alike.
fn shuffle(rng: &mut Rng, layout: Layout, item: &mut Item, level: usize) {
    const VERSIONS: [&str; 6] = ["1.0", "1.2", "1.2.0", "1.3.0", "1.10", "1.999999999.0"];
    let Item::Map(pairs) = item else {
        return;
    };
    if !layout.fields()[level].is_empty() {
        change_unknown(rng, layout, pairs, level);
        move_about(rng, pairs);
    }
    for (key, value) in pairs {
        if is_minor_version(level, key, value) && rng.one_in(2) {
            *value = Item::text(rng.pick(&VERSIONS));
        }
        if let Some(below) = level_below(layout, level, key) {
            shuffle(rng, layout, value, below);
        }
    }
}

/// Drops all unknown fields, some or none, and adds others.
fn change_unknown(rng: &mut Rng, layout: Layout, pairs: &mut Pairs, level: usize) {
    let of = *rng.pick(&[1, 2, 1 << 20]);
    pairs.retain(|(key, _)| !is_unknown(layout, level, key) || !rng.one_in(of));
    while rng.one_in(4) {
        let pair = (file::unknown_key(rng, layout, level), items::sound(rng, 4));
        pairs.insert(rng.index(pairs.len() + 1), pair);
    }
}

/// Moves no pair, one, or all.
fn move_about(rng: &mut Rng, pairs: &mut Pairs) {
    match rng.index(4) {
        0 => {}
        1 if !pairs.is_empty() => {
            let moved = pairs.remove(rng.index(pairs.len()));
            pairs.insert(rng.index(pairs.len() + 1), moved);
        }
        _ => rng.shuffle(pairs),
    }
}

/// Two of them in each other's place, if there are two.
fn exchange<T>(rng: &mut Rng, list: &mut [T]) -> bool {
    let count = list.len();
    if count < 2 {
        return false;
    }
    let one = rng.index(count);
    list.swap(one, (one + 1 + rng.index(count - 1)) % count);
    true
}
