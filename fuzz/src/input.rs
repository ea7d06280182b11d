//! What an input's bytes mean: the first chooses among five forms, the second a room near the exact one.

use second::frame;
use second::generate::RowSet;
use second::layout::Layout;

/// The rest is a file.
const FILE: u8 = 0;
/// The rest is the length of the part before the manifest, in two bytes, and a manifest for a sound frame.
const MANIFEST: u8 = 1;
/// The rest is counts and attributes, how many numbers the rows have, these, and a buffer.
const ROWS: u8 = 2;
/// The rest is a file of layout 1.0.
const FIRST_FILE: u8 = 3;
/// As a manifest, for a frame of layout 1.0.
const FIRST_MANIFEST: u8 = 4;
const FORMS: u8 = 5;

/// The largest number that takes one byte; a larger byte says how many bytes follow, the least first.
const SHORT: u8 = u8::MAX - 8;

pub enum Question {
    Read(Layout, Vec<u8>),
    Write(RowSet),
}

/// What both programs are asked, and how far the room is from the exact one; nothing for an input without these bytes.
pub fn decode(input: &[u8]) -> Option<(Question, isize)> {
    let (&[form, room], rest) = input.split_first_chunk()?;
    let question = match form % FORMS {
        FILE => Question::Read(Layout::Current, rest.to_vec()),
        FIRST_FILE => Question::Read(Layout::First, rest.to_vec()),
        MANIFEST => framed(Layout::Current, rest)?,
        FIRST_MANIFEST => framed(Layout::First, rest)?,
        _ => Question::Write(row_set(rest)),
    };
    Some((question, isize::from(room as i8)))
}

fn framed(layout: Layout, bytes: &[u8]) -> Option<Question> {
    let (&before, manifest) = bytes.split_first_chunk()?;
    let blobs = vec![0; u16::from_le_bytes(before).into()];
    Some(Question::Read(layout, layout.assemble(&blobs, manifest)))
}

fn row_set(mut bytes: &[u8]) -> RowSet {
    let [objects, components, attributes_place, attributes_length, numbers] =
        std::array::from_fn(|_| number(&mut bytes));
    // No more than can be there: each takes a byte or more.
    let numbers = numbers.min(bytes.len() as u64);
    RowSet {
        rows: (0..numbers).map(|_| number(&mut bytes)).collect(),
        objects,
        components,
        attributes_place,
        attributes_length,
        buffer: bytes.to_vec(),
    }
}

/// Takes a number off the front, 0 where nothing is left.
fn number(bytes: &mut &[u8]) -> u64 {
    let Some((&first, rest)) = bytes.split_first() else {
        return 0;
    };
    let follow = usize::from(first.saturating_sub(SHORT)).min(rest.len());
    let (long, rest) = rest.split_at(follow);
    *bytes = rest;
    match long {
        [] => first.into(),
        _ => long.iter().rfold(0, |n, &byte| n << 8 | u64::from(byte)),
    }
}

pub fn of_file(layout: Layout, file: &[u8]) -> Vec<u8> {
    let form = match layout {
        Layout::Current => FILE,
        Layout::First => FIRST_FILE,
    };
    [&[form, 0], file].concat()
}

/// The manifest of a file, if its frame is sound and two bytes can say where it starts.
pub fn of_manifest(layout: Layout, file: &[u8]) -> Option<Vec<u8>> {
    let form = match layout {
        Layout::Current => MANIFEST,
        Layout::First => FIRST_MANIFEST,
    };
    let range = layout.manifest_range(file).ok()?;
    let before = u16::try_from(range.start - frame::MAGIC.len()).ok()?;
    Some([&[form, 0], &before.to_le_bytes()[..], &file[range]].concat())
}

pub fn of_rows(set: &RowSet) -> Vec<u8> {
    let mut out = vec![ROWS, 0];
    let counts = [set.objects, set.components, set.attributes_place, set.attributes_length];
    for &number in counts.iter().chain(&[set.rows.len() as u64]).chain(&set.rows) {
        put_number(&mut out, number);
    }
    out.extend(&set.buffer);
    out
}

fn put_number(out: &mut Vec<u8>, number: u64) {
    if number <= SHORT.into() {
        return out.push(number as u8);
    }
    let length = 8 - number.leading_zeros() as usize / 8;
    out.push(SHORT + length as u8);
    out.extend(&number.to_le_bytes()[..length]);
}
