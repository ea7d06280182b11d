//! Rescuing what is sound (Req 14): the objects that pass their own checks are written anew, the others are listed.

use crate::described::{self, Described};
use crate::judge::Manifest;
use crate::layout::Layout;
use crate::refusal::{Refusal, ROOM};

/// What rescuing answers, in the order of `zt_rescued`.
#[derive(Clone, Copy, Debug, Default, PartialEq, Eq)]
pub struct Rescued {
    pub number: u64,
    pub object: u64,
    pub component: u64,
    pub kept: u64,
    pub dropped: u64,
    pub length: u64,
}

impl Rescued {
    /// Its numbers in the order of the C struct.
    pub fn numbers(&self) -> [u64; 6] {
        [
            self.number,
            self.object,
            self.component,
            self.kept,
            self.dropped,
            self.length,
        ]
    }
}

/// Numbers of an entry of the list: the object's index, the refusal's number, its component.
pub const ENTRY: usize = 3;

/// Writes what is kept into `out` and lists what is dropped; both stay as they were on refusal. The rows are working room and end as zeros.
pub fn rescue(
    layout: u64,
    file: &[u8],
    rows: &mut [u64],
    list: &mut [u64],
    out: &mut [u8],
) -> Rescued {
    rows.fill(0);
    match try_rescue(Layout::of(layout), file, rows.len(), list, out) {
        Ok(answer) => answer,
        Err(refusal) => Rescued {
            number: refusal.number.into(),
            object: refusal.object,
            component: refusal.component,
            ..Rescued::default()
        },
    }
}

fn try_rescue(
    layout: Layout,
    file: &[u8],
    rows: usize,
    list: &mut [u64],
    out: &mut [u8],
) -> Result<Rescued, Refusal> {
    let range = layout.manifest_range(file).map_err(Refusal::whole)?;
    let manifest_start = range.start as u64;
    let entries = layout.judge_entries(&file[range], manifest_start)?;
    let (mut kept, mut dropped) = (Vec::new(), Vec::new());
    for (index, judged) in entries.objects.into_iter().enumerate() {
        match judged {
            Ok(object) => kept.push(object),
            Err(refusal) => {
                dropped.push([index as u64, refusal.number.into(), refusal.component]);
            }
        }
    }
    let sound = Described {
        file,
        manifest_start,
        model: Manifest {
            attributes: entries.attributes,
            objects: kept,
        },
    };
    let laid = sound.source().laid()?;
    let answer = Rescued {
        kept: sound.model.objects.len() as u64,
        dropped: dropped.len() as u64,
        length: laid.length(),
        ..Rescued::default()
    };
    let dropped = dropped.as_flattened();
    let enough_rows = described::room(&sound.model.objects) <= rows as u128;
    if !enough_rows || list.len() < dropped.len() || !laid.fits(out.len()) {
        return Ok(Rescued {
            number: ROOM.into(),
            ..answer
        });
    }
    list[..dropped.len()].copy_from_slice(dropped);
    laid.write(out);
    Ok(answer)
}
