//! The file frame: header, footer and manifest size (refusals 1 to 5), and a frame put around parts.

use crate::refusal::{BIG, FIT, FOOTER, HEADER, SHORT};
use std::ops::Range;

pub const MAGIC: &[u8; 8] = b"ZTEN1000";
/// The largest manifest size.
pub const SIZE_LIMIT: u64 = 16_777_216;

/// The manifest's part of the file, or the first of refusals 1 to 5.
pub fn manifest_range(file: &[u8]) -> Result<Range<usize>, u8> {
    let most = file.len().checked_sub(24).ok_or(SHORT)?;
    if !file.starts_with(MAGIC) {
        return Err(HEADER);
    }
    let (before, footer) = file.split_at(file.len() - 8);
    if footer != MAGIC {
        return Err(FOOTER);
    }
    let end = before.len() - 8;
    let size = before[end..].iter().rfold(0, |n, &b| n << 8 | u64::from(b));
    if size > SIZE_LIMIT {
        return Err(BIG);
    }
    let size = size as usize;
    if size == 0 || size > most {
        return Err(FIT);
    }
    Ok(end - size..end)
}

/// Says another manifest size in a file of at least 24 bytes.
pub fn set_size(file: &mut [u8], size: u64) {
    let end = file.len() - 8;
    file[end - 8..end].copy_from_slice(&size.to_le_bytes());
}

/// A file: header, the blobs' part with its gaps (from byte 8 on), manifest, its size, footer.
pub fn assemble(blobs: &[u8], manifest: &[u8]) -> Vec<u8> {
    let size = (manifest.len() as u64).to_le_bytes();
    [&MAGIC[..], blobs, manifest, &size, MAGIC].concat()
}
