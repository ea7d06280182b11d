//! Single CBOR items by chance: sound ones, ones near the depth limit and damaged ones.

use super::rng::Rng;
use crate::cbor::{self, DEPTH};
use crate::encode::{Item, Style};

/// Widths and breaks by chance.
struct Loose<'a> {
    rng: &'a mut Rng,
    one_in: u64,
}

impl Style for Loose<'_> {
    fn wider(&mut self) -> usize {
        match self.rng.one_in(self.one_in) {
            true => 1 + self.rng.index(4),
            false => 0,
        }
    }

    fn indefinite(&mut self) -> bool {
        self.rng.one_in(self.one_in)
    }
}

/// The item in a style by chance, from almost always shortest to mostly not.
pub fn encoded(rng: &mut Rng, item: &Item) -> Vec<u8> {
    let one_in = *rng.pick(&[1 << 20, 1 << 20, 16, 4, 2]);
    item.encoded(&mut Loose { rng, one_in })
}

/// Short UTF-8, sometimes empty, not ASCII or awkward to print.
pub fn utf8(rng: &mut Rng) -> Vec<u8> {
    const TEXTS: [&str; 12] = [
        "w",
        "b",
        "",
        "layer1.weight",
        "a b",
        "\\",
        "ü",
        "水",
        "\u{10151}",
        "~!",
        "\n",
        "\u{7f}",
    ];
    let mut text = rng.pick(&TEXTS).as_bytes().to_vec();
    if rng.one_in(3) {
        let more = rng.index(12);
        text.extend((0..more).map(|_| b'a' + rng.index(26) as u8));
    }
    text
}

/// Bytes that break RFC 3629, alone or among sound ones.
pub fn not_utf8(rng: &mut Rng) -> Vec<u8> {
    const BROKEN: [&[u8]; 11] = [
        b"\x80",
        b"\xC0\x80",
        b"\xC1\xBF",
        b"\xC3",
        b"\xE0\x9F\xBF",
        b"\xE6\xB0",
        b"\xED\xA0\x80",
        b"\xF0\x8F\xBF\xBF",
        b"\xF4\x90\x80\x80",
        b"\xF5\x80\x80\x80",
        b"\xFF",
    ];
    let mut text = utf8(rng);
    text.extend(*rng.pick(&BROKEN));
    if rng.one_in(2) {
        text.extend(b"w");
    }
    text
}

/// A well-formed item that takes at most `levels` depths, mostly small.
pub fn sound(rng: &mut Rng, levels: u32) -> Item {
    let kinds = if levels > 1 { 14 } else { 11 };
    match rng.index(kinds) {
        0 => Item::Unsigned(rng.any_size()),
        1 => Item::Unsigned(rng.below(30)),
        2 => Item::Negative(rng.any_size()),
        3 => Item::Bytes(rng.bytes(30)),
        4 => Item::Text(rng.bytes(10)),
        5 => Item::Text(utf8(rng)),
        6 => chunked(rng),
        7 => Item::Simple(simple(rng)),
        8 => Item::Simple(20 + rng.index(4) as u8),
        9 => Item::Half(rng.number() as u16),
        10 => match rng.one_in(2) {
            true => Item::Single(rng.number() as u32),
            false => Item::Double(rng.number()),
        },
        11 => sound(rng, levels - 1).tagged(rng.any_size()),
        12 => Item::Array(several(rng, |rng| sound(rng, levels - 1))),
        _ => map(rng, levels),
    }
}

/// Any simple value that has an encoding, often one at an edge.
fn simple(rng: &mut Rng) -> u8 {
    match rng.number() as u8 {
        reserved @ 24..=31 => *rng.pick(&[0, 23, 32, 255, reserved - 24, reserved + 8]),
        number => number,
    }
}

/// A well-formed map that takes at most `levels` depths, with keys of any kind, repeats included.
pub fn map(rng: &mut Rng, levels: u32) -> Item {
    let mut pairs = several(rng, |rng| (sound(rng, levels - 1), sound(rng, levels - 1)));
    if rng.one_in(4) {
        pairs.extend_from_within(..pairs.len().min(1));
    }
    Item::Map(pairs)
}

fn several<T>(rng: &mut Rng, mut one: impl FnMut(&mut Rng) -> T) -> Vec<T> {
    let count = rng.index(4);
    (0..count).map(|_| one(rng)).collect()
}

fn chunked(rng: &mut Rng) -> Item {
    let chunks = several(rng, |rng| rng.bytes(5));
    match rng.one_in(2) {
        true => Item::ChunkedBytes(chunks),
        false => Item::ChunkedText(chunks),
    }
}

/// Bytes that aren't a well-formed item, whatever follows them or if nothing does.
pub fn damaged(rng: &mut Rng) -> Item {
    const DAMAGED: [&[u8]; 30] = [
        b"\x1C",
        b"\x1D\x00",
        b"\x1E",
        b"\x1F",
        b"\x3F",
        b"\x5C",
        b"\x7E",
        b"\x9D",
        b"\xBC",
        b"\xDF\x00",
        b"\xF8",
        b"\xF8\x00",
        b"\xF8\x16",
        b"\xF8\x1F",
        b"\xFC",
        b"\xFE",
        b"\xFF",
        b"\x81\xFF",
        b"\xC0\xFF",
        b"\xA1\x00\xFF",
        b"\xBF\x00\xFF",
        b"\x5F\x61a\xFF",
        b"\x7F\x41a\xFF",
        b"\x7F\x7F\x61a\xFF\xFF",
        b"\x5F\x5C\xFF",
        b"\x7F\x00\xFF",
        b"\x9B\xFF\xFF\xFF\xFF\xFF\xFF\xFF\xFF\x00",
        b"\xBB\xFF\xFF\xFF\xFF\xFF\xFF\xFF\xFF\x00\x00",
        b"\x7B\xFF\xFF\xFF\xFF\xFF\xFF\xFF\xFF",
        b"\x5A\xFF\xFF\xFF\xFF",
    ];
    Item::Raw(rng.pick(&DAMAGED).to_vec())
}

/// An item that stands at `depth` and whose innermost one stands at `deepest`.
pub fn nested(rng: &mut Rng, depth: u32, deepest: u32) -> Item {
    let mut item = innermost(rng);
    for _ in depth..deepest {
        item = match rng.index(5) {
            0 => item.tagged(rng.below(30)),
            1 => Item::Map(vec![(item, Item::Unsigned(0))]),
            2 => Item::Map(vec![(Item::Unsigned(0), item)]),
            3 => Item::Array(vec![Item::null(), item]),
            _ => Item::Array(vec![item]),
        };
    }
    item
}

/// What stands at the depth limit: small items, empty containers, chunks, breaks and damage.
fn innermost(rng: &mut Rng) -> Item {
    match rng.index(8) {
        0 => Item::Array(Vec::new()),
        1 => Item::Map(Vec::new()),
        2 => chunked(rng),
        3 => Item::Raw(Vec::new()),
        4 => damaged(rng),
        5 => Item::Text(utf8(rng)),
        _ => Item::Unsigned(rng.below(30)),
    }
}

/// An item at `depth` that reaches the depth limit, passes it by one, or just doesn't reach it.
pub fn near_limit(rng: &mut Rng, depth: u32) -> Item {
    let deepest = *rng.pick(&[31, 32, 32, 33, 33, 34]);
    nested(rng, depth, deepest)
}

/// Cuts the bytes short, changes some of them, or puts some behind them.
pub fn damage(rng: &mut Rng, bytes: &mut Vec<u8>) {
    match rng.index(4) {
        0 => bytes.truncate(rng.index(bytes.len() + 1)),
        1 => bytes.extend(rng.bytes(3)),
        _ => {
            for _ in 0..=rng.index(3) {
                let byte = *rng.pick(&[0x00, 0x1C, 0x5F, 0x60, 0x7F, 0x80, 0x9F, 0xA0, 0xBF, 0xFF]);
                let flipped = 1 << rng.index(8);
                let replace = rng.one_in(2);
                if let Some(at) = rng.pick_mut(bytes) {
                    *at = if replace { byte } else { *at ^ flipped };
                }
            }
        }
    }
}

/// Cuts the bytes off where their first fault is met, so that they end early there instead.
pub fn cut_at_fault(bytes: &mut Vec<u8>, levels: u32) {
    if let Err(fault) = cbor::first_item(bytes, levels) {
        bytes.truncate(fault.place);
    }
}

/// One item at depth 1, sound, near the depth limit or damaged, sometimes with bytes after it.
pub fn item(rng: &mut Rng) -> Vec<u8> {
    let item = match rng.index(6) {
        0 => near_limit(rng, 1),
        1 => damaged(rng),
        _ => sound(rng, 5),
    };
    let mut bytes = encoded(rng, &item);
    match rng.index(12) {
        0..=3 => damage(rng, &mut bytes),
        4..=7 => bytes.extend(rng.bytes(4)),
        8 => cut_at_fault(&mut bytes, DEPTH),
        _ => {}
    }
    bytes
}
