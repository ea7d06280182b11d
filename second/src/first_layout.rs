//! Judging a manifest of layout 1.0 (document 001, Req 05): the dtype stands on the tensor, components have no type.

use crate::cbor::{self, Node};
use crate::judge::{dimensions, text, unsigned, Component, Judge, Object, COMPONENT_LIMIT};
use crate::layout::{Entries, Layout, LONG_NAMES};
use crate::refusal::{Refusal, DTYPE, ENCODING, MISSING};
use crate::types::{self, Format};
use std::ops::Range;

pub fn judge_entries(manifest: &[u8], manifest_start: u64) -> Result<Entries, Refusal> {
    let root = cbor::decode(manifest).map_err(|fault| Refusal::whole(fault.number))?;
    let judge = Judge {
        bytes: manifest,
        manifest_start,
    };
    let (attributes, entries) = judge
        .root_fields(&root, Layout::First.objects())
        .map_err(Refusal::whole)?;
    let objects = entries
        .into_iter()
        .enumerate()
        .map(|(index, (name, entry))| tensor(&judge, index, name, entry))
        .collect();
    Ok(Entries {
        attributes,
        objects,
    })
}

fn tensor(
    judge: &Judge,
    index: usize,
    name: Range<usize>,
    entry: &Node,
) -> Result<Object, Refusal> {
    let own = |number| Refusal::of(number, index, 0);
    let [dtype, shape, format, components] = judge
        .fields(entry, ["dtype", "shape", "format", "components"])
        .map_err(own)?;
    let (Some(dtype), Some(shape), Some(format), Some(components)) =
        (dtype, shape, format, components)
    else {
        return Err(own(MISSING));
    };
    let dtype = dtype_code(judge, dtype).map_err(own)?;
    let mut object = Object {
        name,
        shape: dimensions(shape).map_err(own)?,
        format: judge.utf8_text(format).map_err(own)?,
        attributes: None,
        components: Vec::new(),
    };
    let roles = Format::of(&judge.bytes[object.format.clone()]).roles();
    let entries = judge.names(components, COMPONENT_LIMIT).map_err(own)?;
    for (at, (name, entry)) in entries.into_iter().enumerate() {
        let role = &judge.bytes[name.clone()];
        let index_role = roles
            .iter()
            .any(|needed| needed.as_bytes() == role && types::is_index_role(needed));
        let code = if index_role { types::U64 } else { dtype };
        let component =
            component(judge, code, name, entry).map_err(|number| Refusal::of(number, index, at))?;
        object.components.push(component);
    }
    judge
        .format_rules(&object)
        .map_err(|(number, at)| Refusal::of(number, index, at))?;
    Ok(object)
}

fn dtype_code(judge: &Judge, node: &Node) -> Result<usize, u8> {
    let name = &judge.bytes[text(node)?];
    LONG_NAMES
        .iter()
        .position(|long| long.as_bytes() == name)
        .ok_or(DTYPE)
}

fn component(
    judge: &Judge,
    dtype: usize,
    name: Range<usize>,
    entry: &Node,
) -> Result<Component, u8> {
    let [offset, length, encoding, digest] =
        judge.fields(entry, ["offset", "length", "encoding", "digest"])?;
    let (Some(offset), Some(length)) = (offset, length) else {
        return Err(MISSING);
    };
    let offset = unsigned(offset)?;
    let length = unsigned(length)?;
    if let Some(encoding) = encoding {
        if &judge.bytes[text(encoding)?] != b"raw" {
            return Err(ENCODING);
        }
    }
    let digest = judge.optional_text(digest)?;
    judge.placed(offset, length)?;
    Ok(Component {
        name,
        dtype,
        logical: None,
        offset,
        length,
        digest,
        entry: entry.start..entry.end,
    })
}
