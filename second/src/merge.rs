//! Merging two files (Req 10): the first's objects, then the second's, as the writer would write them.

use crate::described::Described;
use crate::refusal::{Refusal, ROOM};
use crate::writer::Source;

/// What merging answers, in the order of `zt_merged`. `file` is 1 or 2 where that file is refused.
#[derive(Clone, Copy, Debug, Default, PartialEq, Eq)]
pub struct Merged {
    pub number: u64,
    pub file: u64,
    pub object: u64,
    pub component: u64,
    pub length: u64,
}

impl Merged {
    /// Its numbers in the order of the C struct.
    pub fn numbers(&self) -> [u64; 5] {
        [
            self.number,
            self.file,
            self.object,
            self.component,
            self.length,
        ]
    }
}

/// Writes the merged file into `out`, which stays as it was on refusal. The rows are working room and end as zeros.
pub fn merge(
    first_layout: u64,
    first: &[u8],
    second_layout: u64,
    second: &[u8],
    rows: &mut [u64],
    out: &mut [u8],
) -> Merged {
    rows.fill(0);
    let both = [(first_layout, first), (second_layout, second)];
    try_merge(both, rows.len(), out).unwrap_or_else(|refused| refused)
}

fn try_merge(
    [first, second]: [(u64, &[u8]); 2],
    rows: usize,
    out: &mut [u8],
) -> Result<Merged, Merged> {
    let first = Described::read(first.0, first.1).map_err(|refusal| refused(1, refusal))?;
    let second = Described::read(second.0, second.1).map_err(|refusal| refused(2, refusal))?;
    let (a, b) = (first.source(), second.source());
    let merged = merged(&a, &b);
    let laid = merged.laid().map_err(|refusal| refused(0, refusal))?;
    let too_few = (rows as u128) < first.room() + second.room();
    if too_few || !laid.fits(out.len()) {
        return Err(Merged {
            length: laid.length(),
            ..refused(0, Refusal::whole(ROOM))
        });
    }
    laid.write(out);
    Ok(Merged {
        length: laid.length(),
        ..Merged::default()
    })
}

/// Root attributes are the first's if it has any, else the second's.
pub fn merged<'a>(first: &Source<'a>, second: &Source<'a>) -> Source<'a> {
    let objects = first.objects.iter().chain(&second.objects);
    let components = first.components.iter().chain(&second.components);
    Source {
        attributes: first.attributes.or(second.attributes),
        objects: objects.cloned().collect(),
        components: components.cloned().collect(),
    }
}

fn refused(file: u64, refusal: Refusal) -> Merged {
    Merged {
        number: refusal.number.into(),
        file,
        object: refusal.object,
        component: refusal.component,
        length: 0,
    }
}
