//! Files for the panel by chance: blobs of f32 of every kind, in components that overlap, nest, are empty or end at the manifest's edge.

use super::items;
use super::rng::Rng;
use crate::encode::Item;
use crate::layout::Layout;

/// An f32's bits: zeros, infinities, NaNs of both signs, denormals, neighbours, or any.
pub fn bits(rng: &mut Rng) -> u32 {
    const SPECIAL: [u32; 16] = [
        0,
        0x8000_0000,
        1,
        0x8000_0001,
        0x007F_FFFF,
        0x0080_0000,
        0x3F80_0000,
        0xBFA0_0000,
        0x7F7F_FFFF,
        0xFF7F_FFFF,
        0x7F80_0000,
        0xFF80_0000,
        0x7F80_0001,
        0x7FC0_0000,
        0xFFC0_0001,
        0xFFFF_FFFF,
    ];
    match rng.index(3) {
        0 => rng.number() as u32,
        _ => *rng.pick(&SPECIAL),
    }
}

/// An accepted file.
pub fn file(rng: &mut Rng, layout: Layout) -> Vec<u8> {
    let size = 4 * rng.below(70) + rng.below(4);
    let only_nans = rng.one_in(4);
    let mut blobs = vec![0; 56];
    while (blobs.len() as u64) < 56 + size {
        let number = match only_nans && !rng.one_in(30) {
            true => 0x7FC0_0000 | rng.number() as u32,
            false => bits(rng),
        };
        blobs.extend(number.to_le_bytes());
    }
    blobs.truncate(56 + size as usize);
    let count = rng.index(4);
    let objects = (0..count).map(|at| {
        let name = [items::utf8(rng), at.to_string().into_bytes()].concat();
        (Item::Text(name), object(rng, layout, 64 + size))
    });
    let objects = Item::Map(objects.collect());
    let root = Item::map([("version", Item::text("1.0")), (layout.objects(), objects)]);
    let manifest = items::encoded(rng, &root);
    let without_blobs = count == 0 && rng.one_in(2);
    layout.assemble(if without_blobs { &[] } else { &blobs }, &manifest)
}

fn object(rng: &mut Rng, layout: Layout, manifest_start: u64) -> Item {
    let count = rng.index(6);
    let code = *rng.pick(&[0, 1, 1, 1, 1, 9]);
    let components = (0..count).map(|at| {
        let name = [&b"data"[..], at.to_string().as_bytes()].concat();
        (
            Item::Text(name),
            component(rng, layout, code, manifest_start),
        )
    });
    let components = Item::Map(components.collect());
    let mut pairs = vec![
        ("shape", Item::Array(Vec::new())),
        ("format", Item::text(items::utf8(rng))),
        ("components", components),
    ];
    if layout == Layout::First {
        pairs.push(("dtype", Item::text(layout.dtype_name(code))));
    }
    map(pairs)
}

fn component(rng: &mut Rng, layout: Layout, code: usize, manifest_start: u64) -> Item {
    let offset = 64 * (1 + rng.below(manifest_start / 64));
    let most = manifest_start - offset;
    let length = match rng.index(6) {
        0 => most,
        1 => 0,
        2 => rng.below(most + 1),
        _ => rng.below(most / 4 + 1).min(rng.below(11)) * 4,
    };
    let mut pairs = vec![
        ("offset", Item::Unsigned(offset)),
        ("length", Item::Unsigned(length)),
    ];
    if layout == Layout::Current {
        let code = if rng.one_in(6) { rng.index(13) } else { code };
        pairs.push(("dtype", Item::text(layout.dtype_name(code))));
        if rng.one_in(8) {
            let logical = [Item::null(), Item::text(""), Item::text("f32")];
            pairs.push(("type", rng.pick(&logical).clone()));
        }
    }
    map(pairs)
}

fn map(pairs: Vec<(&str, Item)>) -> Item {
    Item::Map(
        pairs
            .into_iter()
            .map(|(key, value)| (Item::text(key), value))
            .collect(),
    )
}
