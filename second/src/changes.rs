//! What changed between two models (Req 07): objects and components matched by name, and what of them differs, as a list of numbers.

use crate::described::Described;
use crate::judge::{Component, Object};
use crate::refusal::{Refusal, ROOM};
use std::collections::HashMap;

/// What comparing answers, in the order of `zt_changes`. `file` is 1 or 2 where that file is refused.
#[derive(Clone, Copy, Debug, Default, PartialEq, Eq)]
pub struct Changes {
    pub number: u64,
    pub file: u64,
    pub object: u64,
    pub component: u64,
    pub entries: u64,
}

impl Changes {
    /// Its numbers in the order of the C struct.
    pub fn numbers(&self) -> [u64; 5] {
        [
            self.number,
            self.file,
            self.object,
            self.component,
            self.entries,
        ]
    }
}

/// One entry of the list, in the order of its eight numbers.
#[derive(Clone, Copy, Debug, Default, PartialEq, Eq)]
pub struct Entry {
    pub kind: u64,
    pub first_object: u64,
    pub second_object: u64,
    pub first_component: u64,
    pub second_component: u64,
    pub differs: u64,
    pub position: u64,
    pub count: u64,
}

/// Numbers of an entry.
pub const ENTRY: usize = 8;

/// Kinds of entries.
pub const OBJECT_IN_FIRST: u64 = 1;
pub const OBJECT_IN_SECOND: u64 = 2;
pub const OBJECT_DIFFERS: u64 = 3;
pub const COMPONENT_DIFFERS: u64 = 4;
pub const COMPONENT_IN_FIRST: u64 = 5;
pub const COMPONENT_IN_SECOND: u64 = 6;

/// What differs, to be added up.
pub const SHAPE: u64 = 1;
pub const FORMAT: u64 = 2;
pub const COMPONENT_NAMES: u64 = 4;
pub const DTYPES: u64 = 8;
pub const TYPES: u64 = 16;
pub const BYTES: u64 = 32;

impl Entry {
    pub fn numbers(&self) -> [u64; ENTRY] {
        [
            self.kind,
            self.first_object,
            self.second_object,
            self.first_component,
            self.second_component,
            self.differs,
            self.position,
            self.count,
        ]
    }
}

/// Fills the list, which stays as it was on refusal and beyond the entries. `work` is working room and ends as zeros.
pub fn diff(
    first_layout: u64,
    first: &[u8],
    second_layout: u64,
    second: &[u8],
    work: &mut [u64],
    list: &mut [u64],
) -> Changes {
    work.fill(0);
    let both = [(first_layout, first), (second_layout, second)];
    try_diff(both, work.len(), list).unwrap_or_else(|refused| refused)
}

fn try_diff(
    [first, second]: [(u64, &[u8]); 2],
    work: usize,
    list: &mut [u64],
) -> Result<Changes, Changes> {
    let first = Described::read(first.0, first.1).map_err(|refusal| refused(1, refusal))?;
    let second = Described::read(second.0, second.1).map_err(|refusal| refused(2, refusal))?;
    let room = refused(0, Refusal::whole(ROOM));
    if (work as u128) < first.room() + second.room() {
        return Err(room);
    }
    let entries = entries(&first, &second);
    let count = entries.len() as u64;
    let lent = list.get_mut(..ENTRY * entries.len()).ok_or(Changes {
        entries: count,
        ..room
    })?;
    for (numbers, entry) in lent.chunks_exact_mut(ENTRY).zip(&entries) {
        numbers.copy_from_slice(&entry.numbers());
    }
    Ok(Changes {
        entries: count,
        ..Changes::default()
    })
}

fn refused(file: u64, refusal: Refusal) -> Changes {
    Changes {
        number: refusal.number.into(),
        file,
        object: refusal.object,
        component: refusal.component,
        entries: 0,
    }
}

/// The first file's objects in order, each with its components, then those that only the second has.
pub fn entries(first: &Described, second: &Described) -> Vec<Entry> {
    let by_name = |described: &Described| -> HashMap<Vec<u8>, usize> {
        let objects = described.model.objects.iter().enumerate();
        objects
            .map(|(at, object)| (described.bytes(&object.name).to_vec(), at))
            .collect()
    };
    let (in_first, in_second) = (by_name(first), by_name(second));
    let mut entries = Vec::new();
    for (index, object) in first.model.objects.iter().enumerate() {
        match in_second.get(first.bytes(&object.name)) {
            None => entries.push(Entry {
                kind: OBJECT_IN_FIRST,
                first_object: index as u64,
                ..Entry::default()
            }),
            Some(&other) => {
                let objects = [object, &second.model.objects[other]];
                let at = Entry {
                    first_object: index as u64,
                    second_object: other as u64,
                    ..Entry::default()
                };
                entries.extend(in_both([first, second], objects, at));
            }
        }
    }
    for (index, object) in second.model.objects.iter().enumerate() {
        if !in_first.contains_key(second.bytes(&object.name)) {
            entries.push(Entry {
                kind: OBJECT_IN_SECOND,
                second_object: index as u64,
                ..Entry::default()
            });
        }
    }
    entries
}

/// An object's entry and its components', if anything of it differs.
fn in_both(files: [&Described; 2], objects: [&Object; 2], at: Entry) -> Vec<Entry> {
    let [first, second] = files;
    let name = |side: usize, component: &Component| files[side].bytes(&component.name);
    let mut differs = 0;
    let mut parts = Vec::new();
    for (index, component) in objects[0].components.iter().enumerate() {
        let same_name = |other: &Component| name(1, other) == name(0, component);
        let at = Entry {
            first_component: index as u64,
            ..at
        };
        match objects[1].components.iter().position(same_name) {
            None => {
                differs |= COMPONENT_NAMES;
                parts.push(Entry {
                    kind: COMPONENT_IN_FIRST,
                    ..at
                });
            }
            Some(other) => {
                let components = [component, &objects[1].components[other]];
                let entry = Entry {
                    kind: COMPONENT_DIFFERS,
                    second_component: other as u64,
                    ..compared(files, components, at)
                };
                differs |= entry.differs;
                parts.extend((entry.differs != 0).then_some(entry));
            }
        }
    }
    let added = only_in_second(files, objects, at);
    if !added.is_empty() {
        differs |= COMPONENT_NAMES;
    }
    parts.extend(added);
    if objects[0].shape != objects[1].shape {
        differs |= SHAPE;
    }
    if first.bytes(&objects[0].format) != second.bytes(&objects[1].format) {
        differs |= FORMAT;
    }
    if differs == 0 {
        return Vec::new();
    }
    let whole = Entry {
        kind: OBJECT_DIFFERS,
        differs,
        ..at
    };
    [vec![whole], parts].concat()
}

/// The components that only the second of two objects has.
fn only_in_second(files: [&Described; 2], objects: [&Object; 2], at: Entry) -> Vec<Entry> {
    let [first, second] = files;
    let mut added = Vec::new();
    for (index, component) in objects[1].components.iter().enumerate() {
        let name = second.bytes(&component.name);
        let same_name = |other: &Component| first.bytes(&other.name) == name;
        if !objects[0].components.iter().any(same_name) {
            added.push(Entry {
                kind: COMPONENT_IN_SECOND,
                second_component: index as u64,
                ..at
            });
        }
    }
    added
}

/// What differs between two components of one name, and where their bytes do.
fn compared(files: [&Described; 2], components: [&Component; 2], at: Entry) -> Entry {
    let [first, second] = components;
    let mut differs = 0;
    if first.dtype != second.dtype {
        differs |= DTYPES;
    }
    if files[0].optional(&first.logical) != files[1].optional(&second.logical) {
        differs |= TYPES;
    }
    let one = files[0].blob(first.offset, first.length);
    let other = files[1].blob(second.offset, second.length);
    let (position, count) = differing(one, other);
    if count > 0 {
        differs |= BYTES;
    }
    Entry {
        differs,
        position,
        count,
        ..at
    }
}

/// The first differing position and how many there are, those past the shorter one's end included; 0 and 0 for equal bytes.
pub fn differing(one: &[u8], other: &[u8]) -> (u64, u64) {
    let shorter = one.len().min(other.len());
    let past = (one.len().max(other.len()) - shorter) as u64;
    let mut first = None;
    let mut count = past;
    for (at, (a, b)) in one.iter().zip(other).enumerate() {
        if a != b {
            first = first.or(Some(at));
            count += 1;
        }
    }
    match count {
        0 => (0, 0),
        _ => (first.unwrap_or(shorter) as u64, count),
    }
}
