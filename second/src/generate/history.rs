//! Histories of two engines' calls by chance, over files of many sizes.

use super::file;
use super::items;
use super::rng::Rng;
use crate::encode::Item;
use crate::engines::{Call, History, SHARED, STATE, TABLE};
use crate::judge::COMPONENT_LIMIT;
use crate::layout::Layout;
use crate::columns::{COMPONENT_ROW, OBJECT_ROW};

/// A history of 1 to 200 calls.
pub fn history(rng: &mut Rng) -> History {
    let mut files: Vec<_> = (0..3 + rng.index(3))
        .map(|_| {
            let layout = *rng.pick(&Layout::ALL);
            (said(rng, layout), file::file(rng, layout))
        })
        .collect();
    if rng.one_in(4) {
        files.extend(filling(rng));
    }
    let hostile = rng.one_in(4);
    let most = *rng.pick(&[10, 40, 200]);
    let count = 1 + rng.index(most);
    let calls = (0..count).map(|_| {
        let call = match hostile && rng.one_in(8) {
            true => poke(rng),
            false => call(rng, files.len()),
        };
        let lent = match rng.one_in(40) {
            true => *rng.pick(&[0, 1, TABLE, SHARED - 1, SHARED + 1]),
            false => SHARED,
        };
        (call, lent)
    });
    History {
        calls: calls.collect(),
        files,
    }
}

/// A number that says this layout.
fn said(rng: &mut Rng, layout: Layout) -> u64 {
    match layout {
        Layout::First => 1,
        Layout::Current => *rng.pick(&[0, 0, 2, u64::MAX]),
    }
}

fn call(rng: &mut Rng, files: usize) -> Call {
    let engine = match rng.one_in(30) {
        true => *rng.pick(&[2, 3, 1 << 32, u64::MAX]),
        false => rng.below(2),
    };
    let file = rng.index(files);
    match rng.index(8) {
        0..=2 => Call::Load { engine, file },
        3 | 4 => Call::Drop { engine },
        5 => Call::Holds { engine },
        6 => Call::View {
            engine,
            file,
            index: *rng.pick(&[0, 0, 1, 2, 5, u64::MAX]),
        },
        _ => Call::List {
            engine,
            file,
            room: *rng.pick(&[0, 20, 60, 400, 4_000]),
        },
    }
}

/// Changes a number of a state, or of the table.
fn poke(rng: &mut Rng) -> Call {
    let at = match rng.one_in(4) {
        true => rng.index(TABLE),
        false => TABLE + rng.index(2 * STATE),
    };
    let rows = [OBJECT_ROW as u64, (OBJECT_ROW + COMPONENT_ROW) as u64];
    let small = [0, 0, 1, 1, 2, rows[0], rows[1], TABLE as u64];
    let number = match rng.one_in(4) {
        true => rng.any_size(),
        false => *rng.pick(&small),
    };
    Call::Poke { at, number }
}

/// Two files that fill the table exactly together, or miss it by one row.
fn filling(rng: &mut Rng) -> [(u64, Vec<u8>); 2] {
    let (objects, components) = (800 + rng.index(225), rng.index(3_000));
    let free = TABLE - OBJECT_ROW * objects - COMPONENT_ROW * components;
    let first = with_rows(rng, objects, components);
    let exact = (1..=1_024).find_map(|objects: usize| {
        let rest = free.checked_sub(OBJECT_ROW * objects)?;
        let components = rest / COMPONENT_ROW;
        let fills = rest % COMPONENT_ROW == 0 && components <= COMPONENT_LIMIT * objects;
        fills.then_some((objects, components))
    });
    let (objects, components) = exact.unwrap_or((1, 1));
    let (objects, components) = match rng.index(4) {
        0 => ((objects + 1).min(1_024), components),
        1 if components < COMPONENT_LIMIT * objects => (objects, components + 1),
        2 => (objects, components.saturating_sub(1)),
        _ => (objects, components),
    };
    [first, with_rows(rng, objects, components)]
}

/// An accepted file with this many objects and components.
pub fn with_rows(rng: &mut Rng, objects: usize, components: usize) -> (u64, Vec<u8>) {
    let layout = *rng.pick(&Layout::ALL);
    let mut left = components;
    let entries = (0..objects).map(|at| {
        let own = left.min(COMPONENT_LIMIT);
        left -= own;
        (Item::text(at.to_string()), entry(layout, own))
    });
    let entries = Item::Map(entries.collect());
    let root = Item::map([("version", Item::text("1.0")), (layout.objects(), entries)]);
    let manifest = items::encoded(rng, &root);
    (said(rng, layout), layout.assemble(&[0; 56], &manifest))
}

fn entry(layout: Layout, components: usize) -> Item {
    let dtype = || (Item::text("dtype"), Item::text(layout.dtype_name(11)));
    let pair = |name: &str, value| (Item::text(name), value);
    let parts = (0..components).map(|at| {
        let mut pairs = vec![
            pair("offset", Item::Unsigned(64)),
            pair("length", Item::Unsigned(0)),
        ];
        pairs.extend((layout == Layout::Current).then(dtype));
        (Item::text(at.to_string()), Item::Map(pairs))
    });
    let mut pairs = vec![
        pair("shape", Item::Array(Vec::new())),
        pair("format", Item::text("")),
        pair("components", Item::Map(parts.collect())),
    ];
    pairs.extend((layout == Layout::First).then(dtype));
    Item::Map(pairs)
}
