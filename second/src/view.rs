//! The view: the part of the file that one component's row names.

use crate::columns::{COMPONENT_ROW, OBJECT_ROW};
use crate::refusal::INDEX;
use crate::rows::ComponentRow;

/// The offset and length of the component at `index` among all components, or INDEX.
pub fn view(
    file: &[u8],
    table: &[u64],
    objects: u64,
    components: u64,
    index: u64,
) -> Result<(u64, u64), u8> {
    if index >= components {
        return Err(INDEX);
    }
    let blob = row(table, objects, index).ok_or(INDEX)?.blob;
    blob.of(file).ok_or(INDEX)?;
    Ok((blob.place, blob.length))
}

/// The component's row, if all of its numbers lie in the table.
fn row(table: &[u64], objects: u64, index: u64) -> Option<ComponentRow> {
    let start =
        u128::from(objects) * OBJECT_ROW as u128 + u128::from(index) * COMPONENT_ROW as u128;
    let numbers = table.get(usize::try_from(start).ok()?..)?;
    numbers
        .first_chunk()
        .map(|&numbers| ComponentRow::from_numbers(numbers))
}
