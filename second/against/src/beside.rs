//! What the second program answers, in the shapes of the calls for C.

use crate::{Answer, Explained, Listed, Written};
use second::explain;
use second::generate::{PlannedSet, RowSet};
use second::refusal::{INDEX, ROOM};
use second::rows;

pub fn read(file: &[u8], table: &mut [u64]) -> Answer {
    shaped(rows::read(file, table))
}

pub fn read_as(layout: u64, file: &[u8], table: &mut [u64]) -> Answer {
    shaped(rows::read_as(layout, file, table))
}

fn shaped(a: rows::Answer) -> Answer {
    Answer {
        number: a.number.into(),
        object: a.object,
        component: a.component,
        objects: a.objects,
        components: a.components,
        start: a.manifest_start,
        place: a.attributes_place,
        size: a.attributes_length,
    }
}

/// The answer for the second program's listing or sentence, which is put into `held` if that has room for it.
pub fn list(text: Option<&[u8]>, held: &mut [u8]) -> Listed {
    let refused = |number: u8| Listed { number: number.into(), length: 0 };
    match text {
        None => refused(INDEX),
        Some(text) if held.len() < text.len() => refused(ROOM),
        Some(text) => {
            held[..text.len()].copy_from_slice(text);
            Listed { number: 0, length: text.len() as u64 }
        }
    }
}

pub fn explain(layout: u64, file: &[u8], room: u64) -> Explained {
    let why = explain::explain(layout, file, room);
    Explained {
        number: why.number,
        object: why.object,
        component: why.component,
        object_name: why.object_name.place,
        object_name_length: why.object_name.length,
        component_name: why.component_name.place,
        component_name_length: why.component_name.length,
        place: why.span.place,
        length: why.span.length,
        room: why.room,
    }
}

/// The second program's answer for a writing.
fn written(w: second::writer::Written) -> Written {
    Written { number: w.number.into(), object: w.object, component: w.component, length: w.length }
}

pub fn write(set: &RowSet, out: &mut [u8]) -> Written {
    written(set.write(out))
}

pub fn write_planned(asked: &PlannedSet, out: &mut [u8]) -> Written {
    written(asked.write(out))
}
