//! What reading a file of a manifest answers, for manifests put together by hand.

use second::frame;
use second::rows::read;

pub use second::compose::{component, named, object, root, with};

/// Number, object and component that reading gives for this manifest at this start.
pub fn judged(manifest: &[u8], manifest_start: usize) -> (u8, u64, u64) {
    let file = frame::assemble(&vec![0; manifest_start - 8], manifest);
    let answer = read(&file, &mut vec![0; 200_000]);
    (answer.number, answer.object, answer.component)
}
