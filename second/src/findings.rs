//! The panel's summary (Req 01): a finding for each f32 component, the account of the file's bytes, and the panel's text.

use crate::decimal;
use crate::described::Described;
use crate::layout::Layout;
use crate::listing;
use crate::refusal::{Refusal, INDEX, ROOM};
use crate::columns::{COMPONENT_ROW, OBJECT_ROW};
use crate::rows::{read_as, ComponentRow, Part};
use crate::view;

/// What the numbers of a blob are: numbers by their bits.
#[derive(Clone, Copy, Debug, PartialEq, Eq)]
pub enum Finding {
    Empty,
    OnlyNan(u64),
    Span {
        smallest: u32,
        largest: u32,
        nans: u64,
    },
}

/// What `zt_find` answers, in the order of `zt_finding`.
#[derive(Clone, Copy, Debug, Default, PartialEq, Eq)]
pub struct Found {
    pub number: u64,
    pub finding: u64,
    pub smallest: u64,
    pub largest: u64,
    pub nans: u64,
}

impl Found {
    /// Its numbers in the order of the C struct.
    pub fn numbers(&self) -> [u64; 5] {
        [
            self.number,
            self.finding,
            self.smallest,
            self.largest,
            self.nans,
        ]
    }
}

/// The finding of little-endian f32; bytes left over at the end aren't looked at.
pub fn finding(blob: &[u8]) -> Finding {
    let mut found = Finding::Empty;
    for bytes in blob.chunks_exact(4) {
        let bits = u32::from_le_bytes([bytes[0], bytes[1], bytes[2], bytes[3]]);
        let number = f32::from_bits(bits);
        found = match found {
            Finding::Empty if number.is_nan() => Finding::OnlyNan(1),
            Finding::Empty => span(bits, bits, 0),
            Finding::OnlyNan(nans) if number.is_nan() => Finding::OnlyNan(nans + 1),
            Finding::OnlyNan(nans) => span(bits, bits, nans),
            Finding::Span {
                smallest,
                largest,
                nans,
            } => {
                let less = number < f32::from_bits(smallest);
                let greater = number > f32::from_bits(largest);
                span(
                    if less { bits } else { smallest },
                    if greater { bits } else { largest },
                    nans + u64::from(number.is_nan()),
                )
            }
        };
    }
    found
}

fn span(smallest: u32, largest: u32, nans: u64) -> Finding {
    Finding::Span {
        smallest,
        largest,
        nans,
    }
}

/// A finding is due for an f32 without type whose length is a multiple of 4.
fn is_due(row: &ComponentRow) -> bool {
    row.dtype == 1 && row.logical == Part::default() && row.blob.length % 4 == 0
}

/// The finding of the component at `index` among all components, or INDEX where the view gives it.
pub fn find(file: &[u8], table: &[u64], objects: u64, components: u64, index: u64) -> Found {
    let refused = Found {
        number: INDEX.into(),
        ..Found::default()
    };
    let Ok((offset, length)) = view::view(file, table, objects, components, index) else {
        return refused;
    };
    // The view was answered, so the row lies in the table.
    let at = OBJECT_ROW * objects as usize + COMPONENT_ROW * index as usize;
    let Some(&numbers) = table[at..].first_chunk() else {
        return refused;
    };
    let row = ComponentRow::from_numbers(numbers);
    if !is_due(&row) {
        return Found::default();
    }
    let blob = &file[offset as usize..(offset + length) as usize];
    match finding(blob) {
        Finding::Empty => Found {
            finding: 1,
            ..Found::default()
        },
        Finding::OnlyNan(nans) => Found {
            finding: 2,
            nans,
            ..Found::default()
        },
        Finding::Span {
            smallest,
            largest,
            nans,
        } => Found {
            number: 0,
            finding: 3,
            smallest: smallest.into(),
            largest: largest.into(),
            nans,
        },
    }
}

/// What `zt_account` answers, in the order of `zt_bytes`.
#[derive(Clone, Copy, Debug, Default, PartialEq, Eq)]
pub struct Account {
    pub number: u64,
    pub object: u64,
    pub component: u64,
    pub frame: u64,
    pub manifest: u64,
    pub inside: u64,
    pub between: u64,
}

impl Account {
    /// Its numbers in the order of the C struct.
    pub fn numbers(&self) -> [u64; 7] {
        [
            self.number,
            self.object,
            self.component,
            self.frame,
            self.manifest,
            self.inside,
            self.between,
        ]
    }
}

/// The account of an accepted file's bytes. `work` is working room as for a reading, and ends as zeros.
pub fn account(layout: u64, file: &[u8], work: &mut [u64]) -> Account {
    work.fill(0);
    match described(layout, file, work.len()) {
        Ok(described) => accounted(layout, &described),
        Err(refusal) => Account {
            number: refusal.number.into(),
            object: refusal.object,
            component: refusal.component,
            ..Account::default()
        },
    }
}

/// An accepted file; ROOM last.
fn described(layout: u64, file: &[u8], room: usize) -> Result<Described<'_>, Refusal> {
    let described = Described::read(layout, file)?;
    match described.room() <= room as u128 {
        true => Ok(described),
        false => Err(Refusal::whole(ROOM)),
    }
}

fn accounted(layout: u64, described: &Described) -> Account {
    let frame = Layout::of(layout).frame() as u64;
    let start = described.manifest_start;
    let mut parts: Vec<(u64, u64)> = described
        .model
        .objects
        .iter()
        .flat_map(|object| &object.components)
        .map(|component| (component.offset, component.offset + component.length))
        .collect();
    parts.sort();
    // Positions below `reached` are counted already.
    let (mut reached, mut inside) = (0, 0);
    for (offset, end) in parts {
        inside += end.saturating_sub(offset.max(reached));
        reached = reached.max(end);
    }
    Account {
        frame,
        manifest: described.file.len() as u64 - (frame - 8) - start,
        inside,
        between: start - 8 - inside,
        ..Account::default()
    }
}

/// What `zt_panel` answers.
#[derive(Clone, Copy, Debug, Default, PartialEq, Eq)]
pub struct Panel {
    pub number: u64,
    pub object: u64,
    pub component: u64,
    pub length: u64,
}

impl Panel {
    /// Its numbers in the order of the C struct.
    pub fn numbers(&self) -> [u64; 4] {
        [self.number, self.object, self.component, self.length]
    }
}

/// Puts the panel's text, which stays as it was on refusal and beyond it. `work` is working room as for a reading, and ends as zeros.
pub fn panel(layout: u64, file: &[u8], work: &mut [u64], text: &mut [u8]) -> Panel {
    work.fill(0);
    let lent = |refusal: Refusal| Panel {
        number: refusal.number.into(),
        object: refusal.object,
        component: refusal.component,
        length: 0,
    };
    let panel = match described(layout, file, work.len()) {
        Ok(described) => panel_text(layout, &described),
        Err(refusal) => return lent(refusal),
    };
    match text.get_mut(..panel.len()) {
        None => lent(Refusal::whole(ROOM)),
        Some(part) => {
            part.copy_from_slice(&panel);
            Panel {
                length: panel.len() as u64,
                ..Panel::default()
            }
        }
    }
}

/// The listing with a finding at the end of a blob's line where one is due, and the account as its last line.
fn panel_text(layout: u64, described: &Described) -> Vec<u8> {
    let file = described.file;
    let mut table = vec![0; described.room() as usize];
    let answer = read_as(layout, file, &mut table);
    let (objects, components) = (answer.objects, answer.components);
    let listing = listing::listing(file, &table, objects, components)
        .expect("the rows of a file that was accepted can be listed");
    let mut out = Vec::new();
    let mut index = 0;
    for line in listing.split_inclusive(|&byte| byte == b'\n') {
        out.extend_from_slice(line);
        if line.starts_with(b"blob ") {
            out.pop();
            let found = find(file, &table, objects, components, index);
            out.extend(suffix(&found).bytes());
            out.push(b'\n');
            index += 1;
        }
    }
    let account = accounted(layout, described);
    let (frame, manifest) = (account.frame, account.manifest);
    let (inside, between) = (account.inside, account.between);
    let last =
        format!("bytes frame {frame} manifest {manifest} inside {inside} between {between}\n");
    out.extend(last.bytes());
    out
}

fn suffix(found: &Found) -> String {
    let decimal = |bits: u64| decimal::text(bits as u32);
    match found.finding {
        1 => " empty".to_string(),
        2 => format!(" nan {}", found.nans),
        3 => format!(
            " min {} max {} nan {}",
            decimal(found.smallest),
            decimal(found.largest),
            found.nans
        ),
        _ => String::new(),
    }
}

/// Room that serves every accepted file.
pub const MOST_ROOM: usize = 1_024 * OBJECT_ROW + 16_384 * COMPONENT_ROW;
