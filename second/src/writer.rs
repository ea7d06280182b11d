//! The writer: rows and a lent buffer to a whole file, every check done before a byte is written.

use crate::cbor::{self, Kind, DEPTH};
use crate::encode::Head;
use crate::frame::{MAGIC, SIZE_LIMIT};
use crate::judge;
use crate::refusal::{Refusal, BIG, COUNT, DEEP, ROOM, ROW};
use crate::rows::{self, ComponentRow, ObjectRow, Part};
use crate::types::DTYPES;

/// The last blob may end here, not above.
pub const END_LIMIT: u128 = 1 << 40;

/// How deep root attributes and an object's attributes stand.
const ROOT_ATTRIBUTES_DEPTH: u32 = 2;
const OBJECT_ATTRIBUTES_DEPTH: u32 = 4;

/// What writing answers; the length is 0 if refused.
#[derive(Clone, Copy, Debug, Default, PartialEq, Eq)]
pub struct Written {
    pub number: u8,
    pub object: u64,
    pub component: u64,
    pub length: u64,
}

impl Written {
    /// Its numbers in the order of the C struct.
    pub fn numbers(&self) -> [u64; 4] {
        [
            u64::from(self.number),
            self.object,
            self.component,
            self.length,
        ]
    }
}

/// Writes the file into `out`, which stays as it was on refusal and beyond the file.
pub fn write(
    rows: &[u64],
    objects: u64,
    components: u64,
    attributes_place: u64,
    attributes_length: u64,
    buffer: &[u8],
    out: &mut [u8],
) -> Written {
    let attributes = Part {
        place: attributes_place,
        length: attributes_length,
    };
    match try_write(rows, objects, components, attributes, buffer, out) {
        Ok(length) => Written {
            length,
            ..Written::default()
        },
        Err(refusal) => Written {
            number: refusal.number,
            object: refusal.object,
            component: refusal.component,
            length: 0,
        },
    }
}

fn try_write(
    rows: &[u64],
    objects: u64,
    components: u64,
    attributes: Part,
    buffer: &[u8],
    out: &mut [u8],
) -> Result<u64, Refusal> {
    let (objects, components) =
        rows::split(rows, objects, components).ok_or(Refusal::whole(ROW))?;
    let source =
        Source::checked(&objects, &components, attributes, buffer).ok_or(Refusal::whole(ROW))?;
    let laid = source.laid()?;
    laid.write(out).ok_or(Refusal::whole(ROOM))
}

/// A whole file that no check but the room's refuses, before it is written.
pub struct Laid<'a> {
    placed: Vec<(u64, &'a [u8])>,
    manifest_start: u64,
    manifest: Vec<u8>,
}

impl Laid<'_> {
    /// The file's length.
    pub fn length(&self) -> u64 {
        self.manifest_start + self.manifest.len() as u64 + 16
    }

    /// Whether an output of this many bytes is long enough.
    pub fn fits(&self, room: usize) -> bool {
        self.length() <= room as u64
    }

    /// Writes the file and gives its length; nothing if the output is shorter.
    pub fn write(&self, out: &mut [u8]) -> Option<u64> {
        let length = self.length();
        let file = out.get_mut(..usize::try_from(length).ok()?)?;
        let start = self.manifest_start as usize;
        fill(file, &self.placed, start, &self.manifest);
        Some(length)
    }
}

/// The offset of each blob: the least multiple of 64 not below the place reached. Nothing if the
/// last one ends above the limit; ends only grow, so it is enough to stop at the first that does.
pub fn offsets(lengths: impl Iterator<Item = u64>) -> Option<Vec<u64>> {
    let mut reached: u128 = 8;
    let mut offsets = Vec::new();
    for length in lengths {
        let offset = reached.next_multiple_of(64);
        reached = offset + u128::from(length);
        if reached > END_LIMIT {
            return None;
        }
        offsets.push(offset as u64);
    }
    Some(offsets)
}

/// Writes every byte of the file: header, zeros, blobs, manifest, size, footer.
fn fill(file: &mut [u8], placed: &[(u64, &[u8])], manifest_start: usize, manifest: &[u8]) {
    let (front, back) = file.split_at_mut(manifest_start);
    front.fill(0);
    front[..8].copy_from_slice(MAGIC);
    for (offset, blob) in placed {
        let offset = *offset as usize;
        front[offset..offset + blob.len()].copy_from_slice(blob);
    }
    let size = (manifest.len() as u64).to_le_bytes();
    back.copy_from_slice(&[manifest, &size, MAGIC].concat());
}

/// Where the manifest's bytes go.
trait Sink {
    fn put(&mut self, bytes: &[u8]);
}

impl Sink for Vec<u8> {
    fn put(&mut self, bytes: &[u8]) {
        self.extend_from_slice(bytes);
    }
}

/// Only counts, so that no size is too large for it.
struct Size(u128);

impl Sink for Size {
    fn put(&mut self, bytes: &[u8]) {
        self.0 += bytes.len() as u128;
    }
}

/// What a file is to hold: rows that passed ROW with their parts of the buffer, or what a reading described.
#[derive(Clone, Default)]
pub struct Source<'a> {
    pub attributes: Option<&'a [u8]>,
    pub objects: Vec<ObjectSource<'a>>,
    pub components: Vec<ComponentSource<'a>>,
}

#[derive(Clone)]
pub struct ObjectSource<'a> {
    pub name: &'a [u8],
    pub shape: &'a [u64],
    pub format: &'a [u8],
    pub attributes: Option<&'a [u8]>,
    pub components: usize,
}

#[derive(Clone)]
pub struct ComponentSource<'a> {
    pub name: &'a [u8],
    pub dtype: &'static str,
    pub logical: Option<&'a [u8]>,
    pub blob: &'a [u8],
    pub digest: Option<&'a [u8]>,
}

impl<'a> Source<'a> {
    /// Looks at every row; nothing means ROW.
    pub fn checked(
        objects: &'a [ObjectRow],
        components: &[ComponentRow],
        attributes: Part,
        buffer: &'a [u8],
    ) -> Option<Source<'a>> {
        let owners = objects.iter().zip(0..).flat_map(|(object, owner)| {
            // No more than could match, so that a count past memory costs nothing.
            let count = usize::try_from(object.components).unwrap_or(usize::MAX);
            std::iter::repeat_n(owner, count.min(components.len() + 1))
        });
        if !owners.eq(components.iter().map(|component| component.owner)) {
            return None;
        }
        Some(Source {
            attributes: checked_attributes(attributes, buffer, ROOT_ATTRIBUTES_DEPTH)?,
            objects: objects
                .iter()
                .map(|row| ObjectSource::checked(row, buffer))
                .collect::<Option<_>>()?,
            components: components
                .iter()
                .map(|row| ComponentSource::checked(row, buffer))
                .collect::<Option<_>>()?,
        })
    }

    /// The file with 01's own placement: COUNT if the last blob ends too far out, then as for any placement.
    pub fn laid(&self) -> Result<Laid<'a>, Refusal> {
        let lengths = self.components.iter().map(|c| c.blob.len() as u64);
        let offsets = offsets(lengths).ok_or(Refusal::whole(COUNT))?;
        self.laid_at(&offsets)
    }

    /// The file with each blob at its offset and the manifest after the greatest end: BIG, then the reader's own refusal.
    pub fn laid_at(&self, offsets: &[u64]) -> Result<Laid<'a>, Refusal> {
        let mut size = Size(0);
        self.manifest(offsets, &mut size);
        if size.0 > u128::from(SIZE_LIMIT) {
            return Err(Refusal::whole(BIG));
        }
        let mut manifest = Vec::new();
        self.manifest(offsets, &mut manifest);
        let blobs = self.components.iter().map(|component| component.blob);
        let placed: Vec<_> = offsets.iter().copied().zip(blobs).collect();
        let ends = placed
            .iter()
            .map(|(offset, blob)| offset + blob.len() as u64);
        let manifest_start = ends.max().unwrap_or(8);
        judge::judge(&manifest, manifest_start)?;
        Ok(Laid {
            placed,
            manifest_start,
            manifest,
        })
    }

    fn manifest(&self, offsets: &[u64], sink: &mut impl Sink) {
        map(sink, 2 + count(&self.attributes));
        text(sink, b"version");
        text(sink, b"1.2.0");
        attributes(sink, self.attributes);
        text(sink, b"objects");
        map(sink, self.objects.len());
        let mut rest = self.components.iter().zip(offsets);
        for object in &self.objects {
            text(sink, object.name);
            object.own_fields(sink);
            map(sink, object.components);
            for (component, &offset) in rest.by_ref().take(object.components) {
                text(sink, component.name);
                component.fields(offset, sink);
            }
        }
    }
}

impl<'a> ObjectSource<'a> {
    fn checked(row: &'a ObjectRow, buffer: &'a [u8]) -> Option<ObjectSource<'a>> {
        Some(ObjectSource {
            name: row.name.of(buffer)?,
            shape: row.dimensions.get(..usize::try_from(row.rank).ok()?)?,
            format: row.format.of(buffer)?,
            attributes: checked_attributes(row.attributes, buffer, OBJECT_ATTRIBUTES_DEPTH)?,
            components: usize::try_from(row.components).ok()?,
        })
    }

    /// The fields up to the key of `components`.
    fn own_fields(&self, sink: &mut impl Sink) {
        map(sink, 3 + count(&self.attributes));
        text(sink, b"shape");
        head(sink, 4, self.shape.len());
        for &dimension in self.shape {
            unsigned(sink, dimension);
        }
        text(sink, b"format");
        text(sink, self.format);
        attributes(sink, self.attributes);
        text(sink, b"components");
    }
}

impl<'a> ComponentSource<'a> {
    fn checked(row: &ComponentRow, buffer: &'a [u8]) -> Option<ComponentSource<'a>> {
        Some(ComponentSource {
            name: row.name.of(buffer)?,
            dtype: DTYPES.get(usize::try_from(row.dtype).ok()?)?.0,
            logical: optional(row.logical, buffer)?,
            blob: row.blob.of(buffer)?,
            digest: optional(row.digest, buffer)?,
        })
    }

    fn fields(&self, offset: u64, sink: &mut impl Sink) {
        map(sink, 3 + count(&self.logical) + count(&self.digest));
        text(sink, b"dtype");
        text(sink, self.dtype.as_bytes());
        optional_text(sink, b"type", self.logical);
        text(sink, b"offset");
        unsigned(sink, offset);
        text(sink, b"length");
        unsigned(sink, self.blob.len() as u64);
        optional_text(sink, b"digest", self.digest);
    }
}

/// An optional part of the buffer, absent at 0 and 0; nothing if it lies outside.
fn optional(part: Part, buffer: &[u8]) -> Option<Option<&[u8]>> {
    if part == Part::default() {
        return Some(None);
    }
    part.of(buffer).map(Some)
}

/// Optional attributes that stand at `depth`; nothing if they are ROW.
fn checked_attributes(part: Part, buffer: &[u8], depth: u32) -> Option<Option<&[u8]>> {
    let attributes = optional(part, buffer)?;
    attributes
        .is_none_or(|bytes| is_map_or_too_deep(bytes, DEPTH + 1 - depth))
        .then_some(attributes)
}

/// Exactly one well-formed map, or bytes that begin as a map and get too deep before any fault.
fn is_map_or_too_deep(bytes: &[u8], levels: u32) -> bool {
    match cbor::first_item(bytes, levels) {
        Ok(node) => node.end == bytes.len() && matches!(node.kind, Kind::Map(_)),
        Err(fault) => fault.number == DEEP && bytes[0] >> 5 == 5,
    }
}

fn count(field: &Option<&[u8]>) -> usize {
    usize::from(field.is_some())
}

fn head(sink: &mut impl Sink, major: u8, count: usize) {
    sink.put(Head::new(major, count as u64, 0).bytes());
}

fn map(sink: &mut impl Sink, pairs: usize) {
    head(sink, 5, pairs);
}

fn unsigned(sink: &mut impl Sink, number: u64) {
    sink.put(Head::new(0, number, 0).bytes());
}

fn text(sink: &mut impl Sink, bytes: &[u8]) {
    head(sink, 3, bytes.len());
    sink.put(bytes);
}

fn optional_text(sink: &mut impl Sink, key: &[u8], value: Option<&[u8]>) {
    if let Some(value) = value {
        text(sink, key);
        text(sink, value);
    }
}

/// Attributes are copied as they stand.
fn attributes(sink: &mut impl Sink, value: Option<&[u8]>) {
    if let Some(value) = value {
        text(sink, b"attributes");
        sink.put(value);
    }
}
