//! The table: object and component rows of 64-bit numbers, and the reader that fills them.

use crate::columns::{
    ATTRIBUTES, BLOB, COMPONENT_ROW, COUNT, DIGEST, DTYPE, ENTRY, FORMAT, NAME, OBJECT_ROW, OWNER,
    RANK, SHAPE, TYPE,
};
use crate::judge::{Component, Manifest, Object, RANK_LIMIT};
use crate::layout::Layout;
use crate::refusal::{Refusal, ROOM};
use std::ops::Range;

/// A place and a length; 0 and 0 means absent.
#[derive(Clone, Copy, Debug, Default, PartialEq, Eq)]
pub struct Part {
    pub place: u64,
    pub length: u64,
}

/// An object's numbers in the table.
#[derive(Clone, Copy, Debug, PartialEq, Eq)]
pub struct ObjectRow {
    pub name: Part,
    pub rank: u64,
    pub dimensions: [u64; RANK_LIMIT],
    pub format: Part,
    pub attributes: Part,
    pub components: u64,
}

/// A component's numbers in the table.
#[derive(Clone, Copy, Debug, PartialEq, Eq)]
pub struct ComponentRow {
    pub name: Part,
    pub dtype: u64,
    pub logical: Part,
    pub blob: Part,
    pub digest: Part,
    pub owner: u64,
    /// The component's map; the writer doesn't look at it.
    pub entry: Part,
}

/// What reading answers; all but the refusal is 0 if refused.
#[derive(Clone, Copy, Debug, Default, PartialEq, Eq)]
pub struct Answer {
    pub number: u8,
    pub object: u64,
    pub component: u64,
    pub objects: u64,
    pub components: u64,
    pub manifest_start: u64,
    pub attributes_place: u64,
    pub attributes_length: u64,
}

impl Answer {
    /// Its numbers in the order of the C struct.
    pub fn numbers(&self) -> [u64; 8] {
        [
            u64::from(self.number),
            self.object,
            self.component,
            self.objects,
            self.components,
            self.manifest_start,
            self.attributes_place,
            self.attributes_length,
        ]
    }
}

/// Reads a file into the lent table, which stays as it was on refusal and beyond the rows.
pub fn read(file: &[u8], table: &mut [u64]) -> Answer {
    read_as(Layout::Current.number(), file, table)
}

/// The same for the layout that is said.
pub fn read_as(layout: u64, file: &[u8], table: &mut [u64]) -> Answer {
    match try_read(Layout::of(layout), file, table) {
        Ok(answer) => answer,
        Err(refusal) => Answer {
            number: refusal.number,
            object: refusal.object,
            component: refusal.component,
            ..Answer::default()
        },
    }
}

fn try_read(layout: Layout, file: &[u8], table: &mut [u64]) -> Result<Answer, Refusal> {
    let (manifest_start, manifest) = layout.judge_file(file)?;
    let rows = rows_of(&manifest, manifest_start);
    table
        .get_mut(..rows.len())
        .ok_or(Refusal::whole(ROOM))?
        .copy_from_slice(&rows);
    let attributes = optional_part(&manifest.attributes, manifest_start);
    let components: usize = manifest.objects.iter().map(|o| o.components.len()).sum();
    Ok(Answer {
        objects: manifest.objects.len() as u64,
        components: components as u64,
        manifest_start,
        attributes_place: attributes.place,
        attributes_length: attributes.length,
        ..Answer::default()
    })
}

/// All object rows, then all component rows, in manifest order.
fn rows_of(manifest: &Manifest, manifest_start: u64) -> Vec<u64> {
    let mut rows = Vec::new();
    for object in &manifest.objects {
        rows.extend(ObjectRow::of(object, manifest_start).numbers());
    }
    for (owner, object) in manifest.objects.iter().enumerate() {
        for component in &object.components {
            rows.extend(ComponentRow::of(component, manifest_start, owner as u64).numbers());
        }
    }
    rows
}

fn part(span: &Range<usize>, manifest_start: u64) -> Part {
    Part {
        place: manifest_start + span.start as u64,
        length: span.len() as u64,
    }
}

fn optional_part(span: &Option<Range<usize>>, manifest_start: u64) -> Part {
    span.as_ref()
        .map_or(Part::default(), |span| part(span, manifest_start))
}

impl Part {
    /// The bytes of this part, if it lies inside them.
    pub fn of(self, bytes: &[u8]) -> Option<&[u8]> {
        let place = usize::try_from(self.place).ok()?;
        let length = usize::try_from(self.length).ok()?;
        bytes.get(place..place.checked_add(length)?)
    }
}

impl ObjectRow {
    fn of(object: &Object, manifest_start: u64) -> ObjectRow {
        let mut dimensions = [0; RANK_LIMIT];
        dimensions[..object.shape.len()].copy_from_slice(&object.shape);
        ObjectRow {
            name: part(&object.name, manifest_start),
            rank: object.shape.len() as u64,
            dimensions,
            format: part(&object.format, manifest_start),
            attributes: optional_part(&object.attributes, manifest_start),
            components: object.components.len() as u64,
        }
    }

    pub fn from_numbers(numbers: [u64; OBJECT_ROW]) -> ObjectRow {
        let mut dimensions = [0; RANK_LIMIT];
        dimensions.copy_from_slice(&numbers[SHAPE..SHAPE + RANK_LIMIT]);
        ObjectRow {
            name: range(&numbers, NAME),
            rank: numbers[RANK],
            dimensions,
            format: range(&numbers, FORMAT),
            attributes: range(&numbers, ATTRIBUTES),
            components: numbers[COUNT],
        }
    }

    pub fn numbers(&self) -> [u64; OBJECT_ROW] {
        let mut numbers = [0; OBJECT_ROW];
        put_range(&mut numbers, NAME, self.name);
        numbers[RANK] = self.rank;
        numbers[SHAPE..SHAPE + RANK_LIMIT].copy_from_slice(&self.dimensions);
        put_range(&mut numbers, FORMAT, self.format);
        put_range(&mut numbers, ATTRIBUTES, self.attributes);
        numbers[COUNT] = self.components;
        numbers
    }
}

impl ComponentRow {
    fn of(component: &Component, manifest_start: u64, owner: u64) -> ComponentRow {
        ComponentRow {
            name: part(&component.name, manifest_start),
            dtype: component.dtype as u64,
            logical: optional_part(&component.logical, manifest_start),
            blob: pair(component.offset, component.length),
            digest: optional_part(&component.digest, manifest_start),
            owner,
            entry: part(&component.entry, manifest_start),
        }
    }

    pub fn from_numbers(numbers: [u64; COMPONENT_ROW]) -> ComponentRow {
        ComponentRow {
            name: range(&numbers, NAME),
            dtype: numbers[DTYPE],
            logical: range(&numbers, TYPE),
            blob: range(&numbers, BLOB),
            digest: range(&numbers, DIGEST),
            owner: numbers[OWNER],
            entry: range(&numbers, ENTRY),
        }
    }

    pub fn numbers(&self) -> [u64; COMPONENT_ROW] {
        let mut numbers = [0; COMPONENT_ROW];
        put_range(&mut numbers, NAME, self.name);
        numbers[DTYPE] = self.dtype;
        put_range(&mut numbers, TYPE, self.logical);
        put_range(&mut numbers, BLOB, self.blob);
        put_range(&mut numbers, DIGEST, self.digest);
        numbers[OWNER] = self.owner;
        put_range(&mut numbers, ENTRY, self.entry);
        numbers
    }
}

/// The range whose place stands in this column.
fn range(numbers: &[u64], column: usize) -> Part {
    pair(numbers[column], numbers[column + 1])
}

fn put_range(numbers: &mut [u64], column: usize, part: Part) {
    numbers[column..column + 2].copy_from_slice(&[part.place, part.length]);
}

fn pair(place: u64, length: u64) -> Part {
    Part { place, length }
}

/// The rows of a table with these counts, or nothing if it is shorter than the counts say.
pub fn split(
    table: &[u64],
    objects: u64,
    components: u64,
) -> Option<(Vec<ObjectRow>, Vec<ComponentRow>)> {
    let object_numbers = numbers_of(objects, OBJECT_ROW)?;
    let component_numbers = numbers_of(components, COMPONENT_ROW)?;
    let (object_rows, rest) = table.split_at_checked(object_numbers)?;
    let component_rows = rest.get(..component_numbers)?;
    let object_of = |row: &[u64]| ObjectRow::from_numbers(row.try_into().expect("a whole row"));
    let component_of = |row: &[u64]| ComponentRow::from_numbers(row.try_into().expect("a whole row"));
    Some((
        object_rows.chunks_exact(OBJECT_ROW).map(object_of).collect(),
        component_rows.chunks_exact(COMPONENT_ROW).map(component_of).collect(),
    ))
}

/// How many numbers the rows take, if that many could be lent at all.
fn numbers_of(count: u64, row: usize) -> Option<usize> {
    usize::try_from(count).ok()?.checked_mul(row)
}
