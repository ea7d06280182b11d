//! Rows and a buffer for the writer by chance: a plan laid out in a buffer, and then damaged.

use super::items;
use super::plan::{ComponentPlan, ObjectPlan, Plan};
use super::rng::Rng;
use super::RowSet;
use crate::cbor::DEPTH;
use crate::columns::{self, COMPONENT_ROW, OBJECT_ROW};
use crate::encode::Item;
use crate::frame::SIZE_LIMIT;
use crate::judge::RANK_LIMIT;
use crate::refusal::{COUNT, LENGTH, RANK, ROLE, TEXT, TWICE, TYPE};
use crate::rows::{ComponentRow, ObjectRow, Part};
use crate::types::DTYPES;
use crate::writer::END_LIMIT;

/// Where the two numbers of each range stand in an object's and a component's row.
const OBJECT_RANGES: [usize; 3] = [columns::NAME, columns::FORMAT, columns::ATTRIBUTES];
const COMPONENT_RANGES: [usize; 4] = [columns::NAME, columns::TYPE, columns::BLOB, columns::DIGEST];

/// Rows: sound, spoiled for the reader's refusals, or unsound.
pub fn rows(rng: &mut Rng) -> RowSet {
    if rng.one_in(10_000) {
        return at_end_limit(rng);
    }
    if rng.one_in(4_000) {
        return at_size_limit(rng);
    }
    let mut plan = match rng.one_in(10_000) {
        true => Plan::many_objects(rng),
        false => Plan::sound(rng),
    };
    for _ in 0..*rng.pick(&[0, 0, 0, 1, 1, 2]) {
        let number = *rng.pick(&[TEXT, TWICE, COUNT, TYPE, RANK, ROLE, LENGTH]);
        plan.spoil(rng, number);
    }
    if rng.one_in(6) {
        odd_attributes(rng, &mut plan);
    }
    let mut set = laid_out(rng, &plan);
    for _ in 0..*rng.pick(&[0, 0, 0, 1, 2]) {
        damage(rng, &mut set);
    }
    set
}

/// A last blob that ends at 2^40 or one byte further: 65,536 rows that share one range.
fn at_end_limit(rng: &mut Rng) -> RowSet {
    const SHARED: u64 = 1 << 24;
    const ROWS: u64 = 1 << 16;
    let blob = |length| ComponentRow {
        name: Part::default(),
        dtype: 0,
        logical: Part::default(),
        blob: Part { place: 0, length },
        digest: Part::default(),
        owner: 1,
        entry: Part::default(),
    };
    let last_offset = 64 + (ROWS - 1) * SHARED;
    let last = END_LIMIT as u64 - last_offset + rng.below(2);
    let mut rows = Vec::new();
    for components in [0, ROWS] {
        rows.extend(empty_object(components).numbers());
    }
    for _ in 1..ROWS {
        rows.extend(blob(SHARED).numbers());
    }
    rows.extend(blob(last).numbers());
    RowSet {
        rows,
        objects: 2,
        components: ROWS,
        attributes_place: 0,
        attributes_length: 0,
        buffer: vec![0; SHARED as usize],
    }
}

fn empty_object(components: u64) -> ObjectRow {
    ObjectRow {
        name: Part::default(),
        rank: 0,
        dimensions: [0; RANK_LIMIT],
        format: Part::default(),
        attributes: Part::default(),
        components,
    }
}

/// A manifest exactly as long as the limit or one byte longer, by formats that share one range.
fn at_size_limit(rng: &mut Rng) -> RowSet {
    const OBJECTS: usize = 251;
    const SHARED: u64 = 1 << 16;
    // A text of 65,536 bytes or more has a head of 5 bytes, an empty one of 1.
    const LONGER_HEAD: u64 = 4;
    let mut plan = Plan::many_objects(rng);
    plan.objects.truncate(OBJECTS);
    let mut set = laid_out(rng, &plan);

    let entry = || {
        Item::map([
            ("shape", Item::Array(Vec::new())),
            ("format", Item::text("")),
            ("components", Item::Map(Vec::new())),
        ])
    };
    let entries = plan
        .objects
        .iter()
        .map(|object| (Item::text(&object.name), entry()));
    let root = Item::map([
        ("version", Item::text("1.2.0")),
        ("objects", Item::Map(entries.collect())),
    ]);
    let others = (OBJECTS as u64 - 1) * (SHARED + LONGER_HEAD);
    let taken = root.shortest().len() as u64 + others + LONGER_HEAD;
    let last = SIZE_LIMIT - taken + rng.below(2);

    let place = set.buffer.len() as u64;
    set.buffer.resize((place + last) as usize, b'f');
    for (at, row) in set.rows.chunks_exact_mut(OBJECT_ROW).enumerate() {
        let length = if at == OBJECTS - 1 { last } else { SHARED };
        row[columns::FORMAT..][..2].copy_from_slice(&[place, length]);
    }
    set
}

/// Attributes near the depth limit, or such as are no map, malformed or followed by bytes.
fn odd_attributes(rng: &mut Rng, plan: &mut Plan) {
    let in_root = rng.one_in(3);
    let (depth, place) = match rng.pick_mut(&mut plan.objects) {
        Some(object) if !in_root => (4, &mut object.attributes),
        _ => (2, &mut plan.attributes),
    };
    let item = match rng.index(6) {
        0 => items::sound(rng, 3),
        1 => items::map(rng, 3).tagged(1),
        2 => items::near_limit(rng, depth),
        _ => Item::Map(vec![(Item::null(), items::near_limit(rng, depth + 1))]),
    };
    let mut bytes = items::encoded(rng, &item);
    match rng.index(6) {
        0 | 1 => items::damage(rng, &mut bytes),
        2 => items::cut_at_fault(&mut bytes, DEPTH + 1 - depth),
        _ => {}
    }
    *place = Some(Item::Raw(bytes));
}

fn laid_out(rng: &mut Rng, plan: &Plan) -> RowSet {
    let mut layout = Layout {
        buffer: rng.bytes(10),
        rng,
    };
    let attributes = layout.attributes(&plan.attributes);
    let mut rows = Vec::new();
    for object in &plan.objects {
        rows.extend(layout.object(object).numbers());
    }
    for (owner, object) in plan.objects.iter().enumerate() {
        for component in &object.components {
            rows.extend(layout.component(component, owner as u64).numbers());
        }
    }
    let components: usize = plan.objects.iter().map(|o| o.components.len()).sum();
    RowSet {
        rows,
        objects: plan.objects.len() as u64,
        components: components as u64,
        attributes_place: attributes.place,
        attributes_length: attributes.length,
        buffer: layout.buffer,
    }
}

struct Layout<'a> {
    rng: &'a mut Rng,
    buffer: Vec<u8>,
}

impl Layout<'_> {
    fn object(&mut self, object: &ObjectPlan) -> ObjectRow {
        // A rank over the limit still has only eight dimensions in its row.
        let mut dimensions = [self.rng.below(2); RANK_LIMIT];
        for (dimension, &planned) in dimensions.iter_mut().zip(&object.shape) {
            *dimension = planned;
        }
        ObjectRow {
            name: self.text(&object.name),
            rank: object.shape.len() as u64,
            dimensions,
            format: self.text(&object.format),
            attributes: self.attributes(&object.attributes),
            components: object.components.len() as u64,
        }
    }

    fn component(&mut self, component: &ComponentPlan, owner: u64) -> ComponentRow {
        ComponentRow {
            name: self.text(&component.name),
            dtype: component.dtype as u64,
            logical: self.optional(component.logical.as_deref()),
            blob: self.blob(component.length),
            digest: self.optional(component.digest.as_deref()),
            owner,
            // Anything: the writer doesn't look at it.
            entry: Part {
                place: self.rng.any_size(),
                length: self.rng.any_size(),
            },
        }
    }

    /// A name or a format, which at 0 and 0 is empty.
    fn text(&mut self, text: &[u8]) -> Part {
        match text.is_empty() && self.rng.one_in(2) {
            true => Part::default(),
            false => self.put(text),
        }
    }

    fn optional(&mut self, text: Option<&[u8]>) -> Part {
        text.map_or(Part::default(), |text| self.put(text))
    }

    fn attributes(&mut self, item: &Option<Item>) -> Part {
        item.as_ref().map_or(Part::default(), |item| {
            let bytes = items::encoded(self.rng, item);
            self.put(&bytes)
        })
    }

    /// Finds the bytes in the buffer or puts them at its end.
    fn put(&mut self, bytes: &[u8]) -> Part {
        let found = match bytes.is_empty() || !self.rng.one_in(4) {
            true => None,
            false => self
                .buffer
                .windows(bytes.len())
                .position(|part| part == bytes),
        };
        let place = found.unwrap_or_else(|| {
            let gap = self.rng.bytes(3);
            self.buffer.extend(gap);
            self.buffer.extend(bytes);
            self.buffer.len() - bytes.len()
        });
        Part {
            place: place as u64,
            length: bytes.len() as u64,
        }
    }

    /// Any range of this length, shared with texts and other blobs; the buffer grows for it.
    fn blob(&mut self, length: u64) -> Part {
        while (self.buffer.len() as u64) < length {
            let more = self.rng.number().to_le_bytes();
            self.buffer.extend(more);
        }
        Part {
            place: self.rng.below(self.buffer.len() as u64 - length + 1),
            length,
        }
    }
}

/// Makes the rows unsound in one way; a few of the ways leave them sound.
fn damage(rng: &mut Rng, set: &mut RowSet) {
    let objects = OBJECT_ROW * set.objects.min(1 << 20) as usize;
    let objects = objects.min(set.rows.len());
    let (object_rows, component_rows) = set.rows.split_at_mut(objects);
    let object_rows = &mut object_rows.chunks_exact_mut(OBJECT_ROW).collect::<Vec<_>>();
    let component_rows = &mut component_rows.chunks_exact_mut(COMPONENT_ROW).collect::<Vec<_>>();
    let odd_range = odd_range(rng, set.buffer.len() as u64);
    let way = rng.index(12);
    match (way, rng.pick_mut(object_rows), rng.pick_mut(component_rows)) {
        (0, Some(object), _) => object[columns::RANK] = *rng.pick(&[8, 9, 1 << 32, u64::MAX]),
        (1, Some(object), _) => object[columns::COUNT] = near(rng, object[columns::COUNT]),
        (2 | 3, Some(object), _) => {
            let at = *rng.pick(&OBJECT_RANGES);
            object[at..at + 2].copy_from_slice(&odd_range);
        }
        (4, _, Some(component)) => {
            component[columns::DTYPE] = *rng.pick(&[DTYPES.len() as u64, 12, 1 << 32, u64::MAX]);
        }
        (5, _, Some(component)) => component[columns::OWNER] = near(rng, component[columns::OWNER]),
        (6 | 7, _, Some(component)) => {
            let at = *rng.pick(&COMPONENT_RANGES);
            component[at..at + 2].copy_from_slice(&odd_range);
        }
        (8, _, _) => set.objects = near(rng, set.objects),
        (9, _, _) => set.components = near(rng, set.components),
        (10, _, _) => [set.attributes_place, set.attributes_length] = odd_range,
        _ => match rng.one_in(2) {
            true => set.rows.truncate(rng.index(set.rows.len() + 1)),
            false => set.rows.push(rng.number()),
        },
    }
}

/// Ranges at the buffer's end, past it by one, or so large that their sum wraps.
fn odd_range(rng: &mut Rng, length: u64) -> [u64; 2] {
    let inside = rng.below(length + 1);
    *rng.pick(&[
        [length, 0],
        [length + 1, 0],
        [inside, length - inside],
        [inside, length - inside + 1],
        [inside, 0],
        [u64::MAX, 0],
        [u64::MAX, 1],
        [inside, inside.wrapping_neg()],
        [0, u64::MAX],
        [1 << 63, 1 << 63],
    ])
}

fn near(rng: &mut Rng, number: u64) -> u64 {
    match rng.index(4) {
        0 => number.saturating_sub(1),
        1 => rng.any_size(),
        _ => number.wrapping_add(1),
    }
}
