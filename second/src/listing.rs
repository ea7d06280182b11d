//! The listing of an accepted file, and the text that the box's small program prints for any file.

use crate::rows::{self, Part};
use crate::types::DTYPES;

/// The largest file that the program reads.
pub const FILE_LIMIT: usize = 65_536;
/// How many numbers the program's table has.
pub const TABLE: usize = 8_192;

/// What the program prints: the listing, `too long`, or `refused` with number and indices.
pub fn program_text(file: &[u8]) -> Vec<u8> {
    if file.len() > FILE_LIMIT {
        return b"too long\n".to_vec();
    }
    let mut table = vec![0; TABLE];
    let answer = rows::read(file, &mut table);
    if answer.number != 0 {
        let (number, object, component) = (answer.number, answer.object, answer.component);
        return format!("refused {number} {object} {component}\n").into_bytes();
    }
    listing(file, &table, answer.objects, answer.components)
        .expect("the rows of a file that was accepted can be listed")
}

/// One line with the counts, then each object's line followed by its blobs' lines; nothing (INDEX) where the table or the file lacks what is to be shown.
pub fn listing(file: &[u8], table: &[u64], objects: u64, components: u64) -> Option<Vec<u8>> {
    let (object_rows, component_rows) = rows::split(table, objects, components)?;
    let counted: u128 = object_rows.iter().map(|o| u128::from(o.components)).sum();
    if counted != u128::from(components) {
        return None;
    }
    let mut out = format!("objects {objects} components {components}\n").into_bytes();
    let mut blobs = component_rows.iter();
    for object in object_rows {
        let (name, format) = (shown(file, object.name)?, shown(file, object.format)?);
        line(&mut out, &[b"object ", &name, b" ", &format]);
        for row in blobs.by_ref().take(object.components as usize) {
            let (dtype, _) = DTYPES.get(usize::try_from(row.dtype).ok()?)?;
            row.blob.of(file)?;
            let rest = format!(" {dtype} {} {}", row.blob.place, row.blob.length);
            let name = shown(file, row.name)?;
            line(&mut out, &[b"blob ", &name, rest.as_bytes()]);
        }
    }
    Some(out)
}

fn line(out: &mut Vec<u8>, parts: &[&[u8]]) {
    out.extend(parts.concat());
    out.push(b'\n');
}

pub fn shown(file: &[u8], text: Part) -> Option<Vec<u8>> {
    text.of(file).map(escaped)
}

/// A text with bytes outside 33 to 126, and the backslash, as a backslash and two hex digits.
pub fn escaped(text: &[u8]) -> Vec<u8> {
    let mut out = Vec::new();
    for &byte in text {
        match byte {
            b'\\' => out.extend(b"\\5c"),
            33..=126 => out.push(byte),
            _ => out.extend(format!("\\{byte:02x}").bytes()),
        }
    }
    out
}
