//! Placement plans (Req 02): an offset for each component row, judged, and the file that an accepted plan lays.

use crate::refusal::{Refusal, PLAN, ROOM, ROW};
use crate::rows::{self, Part};
use crate::writer::{Source, Written, END_LIMIT};
use std::collections::BTreeMap;

/// The row at fault, where the object's index stands; nothing for an accepted plan. The ceiling is tested first, then the rows in turn, then offsets left over.
pub fn fault(lengths: &[u64], plan: &[u64], ceiling: u64) -> Option<u64> {
    if u128::from(ceiling) > END_LIMIT {
        return Some(0);
    }
    // Start and end of each range so far that isn't empty: no two share a byte.
    let mut taken = BTreeMap::new();
    for (row, &length) in lengths.iter().enumerate() {
        let at_fault = Some(row as u64);
        let Some(&offset) = plan.get(row) else {
            return at_fault;
        };
        let end = u128::from(offset) + u128::from(length);
        if offset % 64 != 0 || offset < 64 || end > u128::from(ceiling) {
            return at_fault;
        }
        if length > 0 {
            let before = taken.range(..end).next_back();
            if before.is_some_and(|(_, &other_end)| other_end > u128::from(offset)) {
                return at_fault;
            }
            taken.insert(u128::from(offset), end);
        }
    }
    (plan.len() > lengths.len()).then_some(lengths.len() as u64)
}

/// What the writer is asked with, and the plan.
#[derive(Clone, Copy)]
pub struct Asked<'a> {
    pub rows: &'a [u64],
    pub objects: u64,
    pub components: u64,
    pub attributes_place: u64,
    pub attributes_length: u64,
    pub buffer: &'a [u8],
    pub plan: &'a [u64],
    pub ceiling: u64,
}

/// Writes the file that the plan lays into `out`, which stays as it was on refusal and beyond the file.
pub fn write_planned(asked: Asked, out: &mut [u8]) -> Written {
    match try_write(asked, out) {
        Ok(length) => Written {
            length,
            ..Written::default()
        },
        Err(refusal) => Written {
            number: refusal.number,
            object: refusal.object,
            component: refusal.component,
            length: 0,
        },
    }
}

/// ROW, PLAN, BIG, the reader's refusal, ROOM.
fn try_write(asked: Asked, out: &mut [u8]) -> Result<u64, Refusal> {
    let row = Refusal::whole(ROW);
    let (objects, components) =
        rows::split(asked.rows, asked.objects, asked.components).ok_or(row)?;
    let attributes = Part {
        place: asked.attributes_place,
        length: asked.attributes_length,
    };
    let source = Source::checked(&objects, &components, attributes, asked.buffer).ok_or(row)?;
    let lengths: Vec<u64> = components.iter().map(|row| row.blob.length).collect();
    if let Some(row) = fault(&lengths, asked.plan, asked.ceiling) {
        return Err(Refusal::of(PLAN, row as usize, 0));
    }
    let laid = source.laid_at(asked.plan)?;
    laid.write(out).ok_or(Refusal::whole(ROOM))
}
