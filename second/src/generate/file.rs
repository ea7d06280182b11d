//! Whole files by chance: a plan made into a manifest's tree, spoiled, encoded, framed, damaged.

use super::first_layout;
use super::items;
use super::plan::{ComponentPlan, ObjectPlan, Plan};
use super::rng::Rng;
use crate::cbor::DEPTH;
use crate::compose::{field, is_text, pairs, set, Pairs};
use crate::encode::{Head, Item};
use crate::frame::SIZE_LIMIT;
use crate::layout::{Layout, COMPONENT, OBJECT, ROOT};
use crate::refusal::{
    ALIGN, BIG, BOUNDS, CBOR, DEEP, DTYPE, ENCODING, FIT, FOOTER, HEADER, KEY, KIND, LENGTH, MAJOR,
    MISSING, SHORT, TWICE, VERSION,
};
use crate::types::DTYPES;

/// Blobs that would end further out leave the manifest start where it is.
const FURTHEST_END: u64 = 2048;

/// A file: sound, with one or two faults, or damaged.
pub fn file(rng: &mut Rng, layout: Layout) -> Vec<u8> {
    if rng.one_in(20_000) {
        return at_size_limit(rng, layout);
    }
    if rng.one_in(3_000) {
        let plan = Plan::many_objects(rng);
        return framed(rng, layout, &plan, &[]);
    }
    let (plan, faults) = planned(rng, layout, SHORT);
    framed(rng, layout, &plan, &faults)
}

/// A plan, sound or spoiled for one or two refusals from `least` on, and these.
pub fn planned(rng: &mut Rng, layout: Layout, least: u8) -> (Plan, Vec<u8>) {
    let faults = match rng.index(20) {
        0..=6 => vec![],
        7..=14 => vec![fault(rng, least)],
        _ => two_faults(rng, least),
    };
    let mut plan = Plan::sound(rng);
    if layout == Layout::First {
        first_layout::fit(rng, &mut plan);
    }
    if faults.len() > 1 && rng.one_in(2) {
        // So that both faults meet in one object.
        plan.objects.truncate(1);
    }
    for &number in &faults {
        plan.spoil(rng, number);
    }
    (plan, faults)
}

/// One of the refusals that a file can get, from `least` on.
fn fault(rng: &mut Rng, least: u8) -> u8 {
    least + rng.below(u64::from(LENGTH - least) + 1) as u8
}

/// Two of them, often near each other in the order of checks.
fn two_faults(rng: &mut Rng, least: u8) -> Vec<u8> {
    let one = fault(rng, least);
    let near = (one + rng.below(5) as u8).min(LENGTH);
    let other = match rng.one_in(2) {
        true => near,
        false => fault(rng, least),
    };
    vec![one, other]
}

/// A file whose manifest is exactly as long as the limit, or one byte longer, by an unknown field
/// that holds a long byte string.
fn at_size_limit(rng: &mut Rng, layout: Layout) -> Vec<u8> {
    const LONG_HEAD: usize = 5;
    let up_to_content = |head: &[u8]| {
        Item::map([
            ("version", Item::text("1.2.0")),
            (layout.objects(), Item::Map(Vec::new())),
            ("padding", Item::Raw(head.to_vec())),
        ])
        .shortest()
    };
    let size = SIZE_LIMIT as usize + rng.index(2);
    let content = size - up_to_content(&[]).len() - LONG_HEAD;
    let mut manifest = up_to_content(Head::new(2, content as u64, 0).bytes());
    manifest.resize(size, 0);
    layout.assemble(&[], &manifest)
}

/// The plan's file, spoiled for these refusals, now and then damaged.
pub fn framed(rng: &mut Rng, layout: Layout, plan: &Plan, faults: &[u8]) -> Vec<u8> {
    let (root, manifest_start) = spoiled_tree(rng, layout, plan, faults);
    let mut manifest = items::encoded(rng, &root);
    if rng.one_in(8) {
        items::damage(rng, &mut manifest);
    } else if faults.contains(&DEEP) && rng.one_in(6) {
        items::cut_at_fault(&mut manifest, DEPTH);
    }
    let mut blobs = rng.bytes(8);
    blobs.resize(manifest_start as usize - 8, 0);
    let mut file = layout.assemble(&blobs, &manifest);
    for &number in faults {
        spoil_frame(rng, layout, &mut file, number);
    }
    if rng.one_in(40) {
        items::damage(rng, &mut file);
    }
    file
}

/// The plan's manifest, spoiled for these refusals, and its start.
pub fn spoiled_tree(rng: &mut Rng, layout: Layout, plan: &Plan, faults: &[u8]) -> (Item, u64) {
    let (mut root, manifest_start) = tree(rng, layout, plan);
    for &number in faults {
        // A fault may find its place gone, taken by the one before.
        let _ = spoil(rng, layout, &mut root, number, manifest_start);
    }
    if rng.one_in(16) {
        let _ = odd_fields(rng, layout, &mut root);
    }
    (root, manifest_start)
}

/// The plan's manifest and its start, which is at or shortly after the last end of a blob.
pub fn tree(rng: &mut Rng, layout: Layout, plan: &Plan) -> (Item, u64) {
    let map = |rng: &mut Rng, mut pairs: Pairs, level| {
        if !plan.bare {
            add_unknown(rng, layout, &mut pairs, level);
        }
        Item::Map(pairs)
    };
    let mut end = 8;
    let mut objects = Vec::new();
    for object in &plan.objects {
        let mut components = Vec::new();
        for component in &object.components {
            let offset = 64 * (1 + rng.below(3));
            let component_end = offset.saturating_add(component.length);
            if component_end <= FURTHEST_END {
                end = component_end.max(end);
            }
            let pairs = match layout {
                Layout::Current => component_pairs(rng, component, offset),
                Layout::First => first_layout::component_pairs(rng, component, offset),
            };
            let entry = map(rng, pairs, COMPONENT);
            components.push((Item::text(&component.name), entry));
        }
        let pairs = match layout {
            Layout::Current => object_pairs(object, components),
            Layout::First => first_layout::tensor_pairs(object, components),
        };
        let entry = map(rng, pairs, OBJECT);
        objects.push((Item::text(&object.name), entry));
    }
    let version = *rng.pick(&["1.2.0", "1.2.0", "1.2", "1.0", "1.999999999.0"]);
    let mut root = field_pairs([("version", Item::text(version))]);
    push_optional(&mut root, "attributes", plan.attributes.clone());
    root.push((Item::text(layout.objects()), Item::Map(objects)));
    let gap = *rng.pick(&[0, 0, 0, 1, 63, 64]);
    (map(rng, root, ROOT), end + gap)
}

fn object_pairs(object: &ObjectPlan, components: Pairs) -> Pairs {
    let shape = object.shape.iter().map(|&n| Item::Unsigned(n)).collect();
    let mut pairs = field_pairs([
        ("shape", Item::Array(shape)),
        ("format", Item::text(&object.format)),
    ]);
    push_optional(&mut pairs, "attributes", object.attributes.clone());
    pairs.push((Item::text("components"), Item::Map(components)));
    pairs
}

fn component_pairs(rng: &mut Rng, component: &ComponentPlan, offset: u64) -> Pairs {
    let optional = |rng: &mut Rng, text: &Option<Vec<u8>>| match text {
        Some(text) => Some(Item::text(text)),
        None => rng.one_in(8).then(Item::null),
    };
    let (dtype, _) = DTYPES[component.dtype];
    let mut pairs = field_pairs([("dtype", Item::text(dtype))]);
    push_optional(&mut pairs, "type", optional(rng, &component.logical));
    pairs.extend(field_pairs([
        ("offset", Item::Unsigned(offset)),
        ("length", Item::Unsigned(component.length)),
    ]));
    let uncompressed = match rng.index(10) {
        0 => Some(Item::null()),
        1 => Some(Item::Unsigned(rng.any_size())),
        _ => None,
    };
    push_optional(&mut pairs, "uncompressed_length", uncompressed);
    let encoding = rng.one_in(5).then(|| Item::text("raw"));
    push_optional(&mut pairs, "encoding", encoding);
    push_optional(&mut pairs, "digest", optional(rng, &component.digest));
    pairs
}

pub fn field_pairs<const N: usize>(pairs: [(&str, Item); N]) -> Pairs {
    pairs.map(|(key, value)| (Item::text(key), value)).into()
}

pub fn push_optional(pairs: &mut Pairs, key: &str, value: Option<Item>) {
    pairs.extend(value.map(|value| (Item::text(key), value)));
}

/// Adds unknown fields, some twice, and sometimes moves the pairs about.
fn add_unknown(rng: &mut Rng, layout: Layout, pairs: &mut Pairs, level: usize) {
    while rng.one_in(4) {
        let pair = (unknown_key(rng, layout, level), unknown_value(rng, level));
        for _ in 0..=rng.index(2) {
            pairs.insert(rng.index(pairs.len() + 1), pair.clone());
        }
    }
    if rng.one_in(4) {
        rng.shuffle(pairs);
    }
}

/// A field of another map, a text that almost is a field, any text, or no UTF-8 at all.
pub fn unknown_key(rng: &mut Rng, layout: Layout, level: usize) -> Item {
    let of = match layout {
        Layout::Current => layout,
        Layout::First => *rng.pick(&Layout::ALL),
    };
    let other = of.fields()[*rng.pick(&[ROOT, OBJECT, COMPONENT])];
    let key = match rng.index(4) {
        0 => rng.pick(other).as_bytes().to_vec(),
        1 => [rng.pick(other).as_bytes(), b"s"].concat(),
        2 => items::utf8(rng),
        _ => items::not_utf8(rng),
    };
    let known = layout.fields()[level];
    match known.iter().any(|known| known.as_bytes() == key) {
        true => Item::text("unknown"),
        false => Item::Text(key),
    }
}

/// Mostly sound; one that reaches the depth limit now and then.
fn unknown_value(rng: &mut Rng, level: usize) -> Item {
    match rng.one_in(12) {
        true => items::near_limit(rng, level as u32 + 2),
        false => items::sound(rng, 4),
    }
}

/// Goes down to the map (or what stands in its place) of a level: 0 root, 1 objects, 2 an object,
/// 3 its components, 4 a component.
pub fn descend<'t>(
    rng: &mut Rng,
    layout: Layout,
    root: &'t mut Item,
    level: usize,
) -> Option<&'t mut Item> {
    let mut at = root;
    for step in 0..level {
        at = match step {
            0 => field(at, layout.objects())?,
            2 => field(at, "components")?,
            _ => &mut rng.pick_mut(pairs(at)?)?.1,
        };
    }
    Some(at)
}

/// Spoils the tree for one refusal; nothing if the place for it isn't there.
fn spoil(
    rng: &mut Rng,
    layout: Layout,
    root: &mut Item,
    number: u8,
    manifest_start: u64,
) -> Option<()> {
    const VERSIONS: [&str; 13] = [
        "1",
        "01.2",
        "1.02",
        "1.",
        ".1",
        "",
        "1.2.3.4",
        "1..2",
        "1.2.0 ",
        "v1.2",
        "1.-2",
        "1.1234567890",
        "1.2.\u{661}",
    ];
    let level = *rng.pick(&[ROOT, OBJECT, COMPONENT]);
    match number {
        CBOR => {
            let value = items::damaged(rng);
            insert_unknown(rng, layout, root, level, value)
        }
        DEEP => too_deep(rng, layout, root, level),
        KIND => wrong_kind(rng, layout, root, level),
        KEY => {
            let any_level = rng.index(layout.fields().len());
            let pairs = pairs(descend(rng, layout, root, any_level)?)?;
            odd_key(rng, pairs);
            Some(())
        }
        TWICE => {
            let pairs = pairs(descend(rng, layout, root, level)?)?;
            let (key, value) = rng.pick_mut(pairs)?.clone();
            let value = if rng.one_in(2) { Item::null() } else { value };
            pairs.insert(rng.index(pairs.len() + 1), (key, value));
            Some(())
        }
        MISSING => {
            let missing = *rng.pick(layout.fields()[level]);
            let pairs = pairs(descend(rng, layout, root, level)?)?;
            pairs.retain(|(key, _)| !is_text(key, missing));
            Some(())
        }
        VERSION => set_one_of(rng, root, "version", &VERSIONS),
        MAJOR => set_one_of(rng, root, "version", &["2.0", "0.1", "10.0.0", "11.2"]),
        DTYPE => {
            let (level, names) = match layout {
                Layout::Current => (COMPONENT, ["", "F32", "f8", "u128", "f32 ", "ü"]),
                Layout::First => (OBJECT, ["", "Float32", "f32", "u64", "float32 ", "uint"]),
            };
            let map = descend(rng, layout, root, level)?;
            set_one_of(rng, map, "dtype", &names)
        }
        ENCODING => {
            let component = descend(rng, layout, root, COMPONENT)?;
            set_one_of(
                rng,
                component,
                "encoding",
                &["zstd", "", "Raw", "raw ", "ra"],
            )
        }
        ALIGN => {
            let offset = *rng.pick(&[1, 8, 63, 65, 72, 96, u64::MAX, (1 << 63) + 1]);
            set(
                descend(rng, layout, root, COMPONENT)?,
                "offset",
                Item::Unsigned(offset),
            );
            Some(())
        }
        BOUNDS => {
            let component = descend(rng, layout, root, COMPONENT)?;
            out_of_bounds(rng, component, manifest_start);
            Some(())
        }
        _ => None,
    }
}

fn set_one_of(rng: &mut Rng, map: &mut Item, name: &str, texts: &[&str]) -> Option<()> {
    set(map, name, Item::text(rng.pick(texts)));
    Some(())
}

fn insert_unknown(
    rng: &mut Rng,
    layout: Layout,
    root: &mut Item,
    level: usize,
    value: Item,
) -> Option<()> {
    let pairs = pairs(descend(rng, layout, root, level)?)?;
    pairs.insert(rng.index(pairs.len() + 1), (Item::text("unknown"), value));
    Some(())
}

/// Puts an item near the depth limit into attributes or into an unknown field.
fn too_deep(rng: &mut Rng, layout: Layout, root: &mut Item, level: usize) -> Option<()> {
    let depth = level as u32 + 2;
    let known = layout.fields()[level].contains(&"attributes");
    if !known || rng.one_in(2) {
        let value = items::near_limit(rng, depth);
        return insert_unknown(rng, layout, root, level, value);
    }
    let deep = items::near_limit(rng, depth + 1);
    let attributes = Item::Map(vec![(Item::null(), deep)]);
    set(descend(rng, layout, root, level)?, "attributes", attributes);
    Some(())
}

/// Changes a key to one that isn't whole text, or adds such a pair.
fn odd_key(rng: &mut Rng, pairs: &mut Pairs) {
    let at = rng.index(pairs.len() + 1);
    match pairs.get_mut(at) {
        Some((key, _)) if rng.one_in(2) => *key = wrong_key(rng, key.clone()),
        _ => {
            let key = wrong_key(rng, Item::text("x"));
            pairs.insert(at, (key, items::sound(rng, 2)));
        }
    }
}

/// Puts a value of any kind for a known value: a field, a dimension, an entry or the root.
fn wrong_kind(rng: &mut Rng, layout: Layout, root: &mut Item, level: usize) -> Option<()> {
    let map = descend(rng, layout, root, level)?;
    let name = *rng.pick(layout.fields()[level]);
    let value = match rng.index(8) {
        0 => map,
        1 if level == OBJECT => match field(map, "shape")? {
            Item::Array(dimensions) => rng.pick_mut(dimensions)?,
            other => other,
        },
        _ => {
            if field(map, name).is_none() {
                set(map, name, Item::text("raw"));
            }
            field(map, name)?
        }
    };
    *value = any_kind(rng, value.clone());
    Some(())
}

/// Puts odd values for several fields of one map, so that the order of its checks shows.
fn odd_fields(rng: &mut Rng, layout: Layout, root: &mut Item) -> Option<()> {
    let level = *rng.pick(&[ROOT, OBJECT, COMPONENT, COMPONENT]);
    let map = descend(rng, layout, root, level)?;
    for _ in 0..2 + rng.index(2) {
        let name = *rng.pick(layout.fields()[level]);
        set(map, name, odd_value(rng));
    }
    Some(())
}

fn odd_value(rng: &mut Rng) -> Item {
    match rng.index(6) {
        0 => Item::Text(items::not_utf8(rng)),
        1 => Item::text(rng.pick(&["complex64", "2.0", "zstd", "f8"])),
        2 => Item::Unsigned(*rng.pick(&[0, 65, u64::MAX])),
        _ => any_kind(rng, Item::Unsigned(0)),
    }
}

/// A value of another kind than most, or the old one behind a tag. Null is the likeliest, as it
/// means something else in each place.
pub fn any_kind(rng: &mut Rng, old: Item) -> Item {
    match rng.index(15) {
        0 => Item::null().tagged(0),
        1 => Item::Simple(23),
        2 => Item::Bytes(b"raw".to_vec()),
        3 => Item::ChunkedText(vec![b"1.2".to_vec(), b".0".to_vec()]),
        4 => Item::Negative(63),
        5 => Item::Double(0x4050_0000_0000_0000),
        6 => Item::Array(vec![Item::Unsigned(1)]),
        7 => Item::Map(Vec::new()),
        8 => Item::Bytes(vec![64]).tagged(2),
        9 => Item::Unsigned(64),
        10 => old.tagged(55_799),
        _ => Item::null(),
    }
}

/// A key that isn't whole text, if need be the same text in another guise.
fn wrong_key(rng: &mut Rng, key: Item) -> Item {
    let text = match &key {
        Item::Text(text) => text.clone(),
        _ => Vec::new(),
    };
    match rng.index(7) {
        0 => Item::Unsigned(0),
        1 => Item::Bytes(text),
        2 => Item::ChunkedText(vec![text]),
        3 => key.tagged(rng.below(40)),
        4 => Item::null(),
        5 => Item::Array(vec![key]),
        _ => items::sound(rng, 2),
    }
}

fn out_of_bounds(rng: &mut Rng, component: &mut Item, manifest_start: u64) {
    let offset = match rng.index(4) {
        0 => 0,
        1 => u64::MAX - 63,
        2 => manifest_start.next_multiple_of(64) + 64 * rng.below(2),
        _ => 64,
    };
    set(component, "offset", Item::Unsigned(offset));
    let length = match rng.index(5) {
        0 => u64::MAX,
        1 => 64,
        2 => 0,
        // The end is at the manifest start, or one further.
        _ => manifest_start.saturating_sub(offset) + rng.below(2),
    };
    set(component, "length", Item::Unsigned(length));
}

/// Spoils a framed file for one of refusals 1 to 5.
fn spoil_frame(rng: &mut Rng, layout: Layout, file: &mut Vec<u8>, number: u8) {
    let length = file.len();
    let least = layout.frame();
    if number == SHORT {
        let lengths = [0, 1, 7, 8, least - 8, least - 1, least - 1, least];
        file.truncate(*rng.pick(&lengths));
    }
    if length < least || file.len() < least {
        return;
    }
    let most = (length - least) as u64;
    let size = match number {
        BIG => *rng.pick(&[SIZE_LIMIT, SIZE_LIMIT + 1, 1 << 32, 1 << 63, u64::MAX]),
        FIT => *rng.pick(&[0, most, most + 1, SIZE_LIMIT]),
        HEADER => return file[rng.index(8)] ^= 1 << rng.index(8),
        FOOTER => return file[length - 1 - rng.index(8)] ^= 1 << rng.index(8),
        _ => return,
    };
    layout.set_size(file, size);
}
