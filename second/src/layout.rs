//! The two layouts of a file: document 000's, and document 001's that field boxes hold (Req 05). A caller says which by a number.

use crate::first_layout;
use crate::frame::{self, MAGIC, SIZE_LIMIT};
use crate::judge::{self, Manifest, Object};
use crate::refusal::{Refusal, BIG, FIT, HEADER, SHORT};
use crate::types::DTYPES;
use std::ops::Range;

#[derive(Clone, Copy, Debug, PartialEq, Eq)]
pub enum Layout {
    /// 1.2.0, document 000.
    Current,
    /// 1.0, document 001.
    First,
}

/// 001's names of the storage types, by our codes.
pub const LONG_NAMES: [&str; DTYPES.len()] = [
    "float64", "float32", "float16", "bfloat16", "int64", "int32", "int16", "int8", "uint64",
    "uint32", "uint16", "uint8", "bool",
];

/// The levels of the maps that have fields; those between hold names.
pub const ROOT: usize = 0;
pub const OBJECT: usize = 2;
pub const COMPONENT: usize = 4;

/// The known fields of the maps at each level; those that hold names have none.
pub type Fields = [&'static [&'static str]; 5];

impl Layout {
    pub const ALL: [Layout; 2] = [Layout::Current, Layout::First];

    /// 1 is layout 1.0, every other number is 1.2.0.
    pub fn of(number: u64) -> Layout {
        match number {
            1 => Layout::First,
            _ => Layout::Current,
        }
    }

    /// The number that says this layout.
    pub fn number(self) -> u64 {
        match self {
            Layout::Current => 0,
            Layout::First => 1,
        }
    }

    /// How many bytes header, size and footer take, which is the least length of a file.
    pub fn frame(self) -> usize {
        match self {
            Layout::Current => 24,
            Layout::First => 16,
        }
    }

    /// How many bytes stand after the manifest's size.
    pub fn footer(self) -> usize {
        self.frame() - 16
    }

    /// The root's field that holds the objects.
    pub fn objects(self) -> &'static str {
        match self {
            Layout::Current => "objects",
            Layout::First => "tensors",
        }
    }

    /// In checking order: root, names, object, names, component.
    pub fn fields(self) -> Fields {
        match self {
            Layout::Current => [
                &["version", "attributes", "objects"],
                &[],
                &["shape", "format", "attributes", "components"],
                &[],
                &[
                    "dtype",
                    "type",
                    "offset",
                    "length",
                    "uncompressed_length",
                    "encoding",
                    "digest",
                ],
            ],
            Layout::First => [
                &["version", "attributes", "tensors"],
                &[],
                &["dtype", "shape", "format", "components"],
                &[],
                &["offset", "length", "encoding", "digest"],
            ],
        }
    }

    /// The name that this layout gives a storage type.
    pub fn dtype_name(self, code: usize) -> &'static str {
        match self {
            Layout::Current => DTYPES[code].0,
            Layout::First => LONG_NAMES[code],
        }
    }

    /// The manifest's part of the file, or the first of refusals 1 to 5.
    pub fn manifest_range(self, file: &[u8]) -> Result<Range<usize>, u8> {
        match self {
            Layout::Current => frame::manifest_range(file),
            Layout::First => first_range(file),
        }
    }

    /// A file: header, the blobs' part with its gaps (from byte 8 on), manifest, its size, and the footer if there is one.
    pub fn assemble(self, blobs: &[u8], manifest: &[u8]) -> Vec<u8> {
        let mut file = frame::assemble(blobs, manifest);
        file.truncate(file.len() - 8 + self.footer());
        file
    }

    /// Says another manifest size in a file that isn't too short.
    pub fn set_size(self, file: &mut [u8], size: u64) {
        let end = file.len() - self.footer();
        file[end - 8..end].copy_from_slice(&size.to_le_bytes());
    }

    /// Judges a manifest that begins at `manifest_start` of its file.
    pub fn judge(self, manifest: &[u8], manifest_start: u64) -> Result<Manifest, Refusal> {
        let entries = self.judge_entries(manifest, manifest_start)?;
        Ok(Manifest {
            attributes: entries.attributes,
            objects: entries.objects.into_iter().collect::<Result<_, _>>()?,
        })
    }

    /// Judges up to the objects' names, and then each object for itself.
    pub fn judge_entries(self, manifest: &[u8], manifest_start: u64) -> Result<Entries, Refusal> {
        match self {
            Layout::Current => judge::judge_entries(manifest, manifest_start),
            Layout::First => first_layout::judge_entries(manifest, manifest_start),
        }
    }

    /// Judges a file with ample room: its manifest start and model, or the refusal.
    pub fn judge_file(self, file: &[u8]) -> Result<(u64, Manifest), Refusal> {
        let range = self.manifest_range(file).map_err(Refusal::whole)?;
        let start = range.start as u64;
        Ok((start, self.judge(&file[range], start)?))
    }

    /// Number, object and component; three zeros for an accepted file.
    pub fn verdict(self, file: &[u8]) -> (u8, u64, u64) {
        match self.judge_file(file) {
            Ok(_) => (0, 0, 0),
            Err(refusal) => (refusal.number, refusal.object, refusal.component),
        }
    }
}

/// A manifest that passes every check up to the objects' names, with each object's own judgement.
#[derive(Debug)]
pub struct Entries {
    pub attributes: Option<Range<usize>>,
    pub objects: Vec<Result<Object, Refusal>>,
}

/// 1.0: the size stands in the last 8 bytes, and the manifest may take all but the frame's 16.
fn first_range(file: &[u8]) -> Result<Range<usize>, u8> {
    let most = file.len().checked_sub(16).ok_or(SHORT)?;
    if !file.starts_with(MAGIC) {
        return Err(HEADER);
    }
    let end = file.len() - 8;
    let size = file[end..].iter().rfold(0, |n, &b| n << 8 | u64::from(b));
    if size > SIZE_LIMIT {
        return Err(BIG);
    }
    let size = size as usize;
    if size == 0 || size > most {
        return Err(FIT);
    }
    Ok(end - size..end)
}

/// What `zt_accept_as` answers.
pub fn accept_as(layout: u64, file: &[u8]) -> u64 {
    u64::from(Layout::of(layout).verdict(file).0)
}
