//! Judging: from a manifest's tree to the first fault in 01's order, or to the accepted model.
//! Spans are ranges of the manifest's bytes; no blob byte is needed.

use crate::cbor::{self, Kind, Node};
use crate::frame;
use crate::layout::{self, Layout};
use crate::refusal::{
    Refusal, ALIGN, BOUNDS, COUNT, DTYPE, ENCODING, KEY, KIND, LENGTH, MAJOR, MISSING, RANK, ROLE,
    TEXT, TWICE, TYPE, VERSION,
};
use crate::types::{self, Format};
use crate::utf8::is_utf8;
use std::collections::HashSet;
use std::ops::Range;

pub const OBJECT_LIMIT: usize = 1024;
pub const COMPONENT_LIMIT: usize = 16;
pub const RANK_LIMIT: usize = 8;

type Span = Range<usize>;
/// Names, or keys, each with the value that it holds.
type Entries<'t> = Vec<(Span, &'t Node)>;

/// An accepted manifest. Texts are spans of their content, attributes and components' maps of the whole item.
#[derive(Debug)]
pub struct Manifest {
    pub attributes: Option<Span>,
    pub objects: Vec<Object>,
}

#[derive(Debug)]
pub struct Object {
    pub name: Span,
    pub shape: Vec<u64>,
    pub format: Span,
    pub attributes: Option<Span>,
    pub components: Vec<Component>,
}

#[derive(Debug)]
pub struct Component {
    pub name: Span,
    pub dtype: usize,
    pub logical: Option<Span>,
    pub offset: u64,
    pub length: u64,
    pub digest: Option<Span>,
    pub entry: Span,
}

/// Judges a file with ample room: its manifest start and model, or the refusal.
pub fn judge_file(file: &[u8]) -> Result<(u64, Manifest), Refusal> {
    let range = frame::manifest_range(file).map_err(Refusal::whole)?;
    let start = range.start as u64;
    Ok((start, judge(&file[range], start)?))
}

/// Number, object and component; three zeros for an accepted file.
pub fn verdict(file: &[u8]) -> (u8, u64, u64) {
    match judge_file(file) {
        Ok(_) => (0, 0, 0),
        Err(refusal) => (refusal.number, refusal.object, refusal.component),
    }
}

/// Judges a manifest that begins at `manifest_start` of its file.
pub fn judge(manifest: &[u8], manifest_start: u64) -> Result<Manifest, Refusal> {
    Layout::Current.judge(manifest, manifest_start)
}

/// Judges up to the objects' names, and then each object for itself.
pub fn judge_entries(manifest: &[u8], manifest_start: u64) -> Result<layout::Entries, Refusal> {
    let root = cbor::decode(manifest).map_err(|fault| Refusal::whole(fault.number))?;
    let judge = Judge {
        bytes: manifest,
        manifest_start,
    };
    judge.root(&root)
}

pub struct Judge<'a> {
    pub bytes: &'a [u8],
    pub manifest_start: u64,
}

impl<'a> Judge<'a> {
    fn root(&self, root: &Node) -> Result<layout::Entries, Refusal> {
        let (attributes, entries) = self
            .root_fields(root, Layout::Current.objects())
            .map_err(Refusal::whole)?;
        let objects = entries
            .into_iter()
            .enumerate()
            .map(|(index, (name, entry))| self.object(index, name, entry))
            .collect();
        Ok(layout::Entries {
            attributes,
            objects,
        })
    }

    /// The root's own checks, up to the names in the field that holds the objects.
    pub fn root_fields<'t>(
        &self,
        root: &'t Node,
        holder: &str,
    ) -> Result<(Option<Span>, Entries<'t>), u8> {
        let [version, attributes, objects] =
            self.fields(root, ["version", "attributes", holder])?;
        let version = text(version.ok_or(MISSING)?)?;
        if major(&self.bytes[version]).ok_or(VERSION)? != b"1" {
            return Err(MAJOR);
        }
        let attributes = attributes.map(attributes_span).transpose()?;
        let entries = self.names(objects.ok_or(MISSING)?, OBJECT_LIMIT)?;
        Ok((attributes, entries))
    }

    fn object(&self, index: usize, name: Span, entry: &Node) -> Result<Object, Refusal> {
        let (mut object, entries) = self
            .object_fields(name, entry)
            .map_err(|number| Refusal::of(number, index, 0))?;
        for (at, (name, entry)) in entries.into_iter().enumerate() {
            let component = self
                .component(name, entry)
                .map_err(|number| Refusal::of(number, index, at))?;
            object.components.push(component);
        }
        self.format_rules(&object)
            .map_err(|(number, at)| Refusal::of(number, index, at))?;
        Ok(object)
    }

    /// An object's own checks, up to its components' names; its components are still to come.
    fn object_fields<'t>(&self, name: Span, entry: &'t Node) -> Result<(Object, Entries<'t>), u8> {
        let [shape, format, attributes, components] =
            self.fields(entry, ["shape", "format", "attributes", "components"])?;
        let shape = shape.ok_or(MISSING)?;
        let format = format.ok_or(MISSING)?;
        let components = components.ok_or(MISSING)?;

        let object = Object {
            name,
            shape: dimensions(shape)?,
            format: self.utf8_text(format)?,
            attributes: attributes.map(attributes_span).transpose()?,
            components: Vec::new(),
        };
        Ok((object, self.names(components, COMPONENT_LIMIT)?))
    }

    fn component(&self, name: Span, entry: &Node) -> Result<Component, u8> {
        let [dtype, logical, offset, length, uncompressed_length, encoding, digest] = self.fields(
            entry,
            [
                "dtype",
                "type",
                "offset",
                "length",
                "uncompressed_length",
                "encoding",
                "digest",
            ],
        )?;
        let dtype = dtype.ok_or(MISSING)?;
        let offset = offset.ok_or(MISSING)?;
        let length = length.ok_or(MISSING)?;

        let dtype = types::dtype_code(&self.bytes[text(dtype)?]).ok_or(DTYPE)?;
        let logical = self.optional_text(logical)?;
        if let Some(span) = &logical {
            let listed = types::listed_type(&self.bytes[span.clone()]);
            if listed.is_some_and(|listed| listed.dtype != dtype) {
                return Err(TYPE);
            }
        }
        let offset = unsigned(offset)?;
        let length = unsigned(length)?;
        // Its kind is judged, its value never is.
        present(uncompressed_length).map(unsigned).transpose()?;
        if let Some(encoding) = encoding {
            if &self.bytes[text(encoding)?] != b"raw" {
                return Err(ENCODING);
            }
        }
        let digest = self.optional_text(digest)?;
        self.placed(offset, length)?;
        Ok(Component {
            name,
            dtype,
            logical,
            offset,
            length,
            digest,
            entry: entry.start..entry.end,
        })
    }

    pub fn placed(&self, offset: u64, length: u64) -> Result<(), u8> {
        if offset % 64 != 0 {
            return Err(ALIGN);
        }
        let end = u128::from(offset) + u128::from(length);
        if offset < 64 || end > u128::from(self.manifest_start) {
            return Err(BOUNDS);
        }
        Ok(())
    }

    /// The format's checks: the refusal and the index of the component it belongs to.
    pub fn format_rules(&self, object: &Object) -> Result<(), (u8, usize)> {
        let format = Format::of(&self.bytes[object.format.clone()]);
        if format == Format::SparseCsr && object.shape.len() != 2 {
            return Err((RANK, 0));
        }
        let needed = self.needed_roles(object, format)?;
        for (at, wanted) in self.wanted_lengths(object, format, &needed) {
            if !wanted.is_met_by(object.components[at].length) {
                return Err((LENGTH, at));
            }
        }
        Ok(())
    }

    /// The components in the format's roles, in the order of the roles.
    fn needed_roles(&self, object: &Object, format: Format) -> Result<Vec<usize>, (u8, usize)> {
        let find = |role: &&str| {
            let at = object
                .components
                .iter()
                .position(|component| &self.bytes[component.name.clone()] == role.as_bytes())
                .ok_or((ROLE, 0))?;
            let component = &object.components[at];
            let plain = component.dtype == types::U64 && component.logical.is_none();
            if types::is_index_role(role) && !plain {
                return Err((ROLE, at));
            }
            Ok(at)
        };
        format.roles().iter().map(find).collect()
    }

    /// What the format asks of each component's length, in the order of its roles.
    fn wanted_lengths(
        &self,
        object: &Object,
        format: Format,
        needed: &[usize],
    ) -> Vec<(usize, Wanted)> {
        match (format, needed) {
            (Format::Dense, &[data]) => {
                let count = types::product(&object.shape);
                let wanted = match self.element_bytes(object, data) {
                    Some(element) => Wanted::Exactly(count.saturating_mul(u128::from(element))),
                    None => whole_numbers(object, data),
                };
                vec![(data, wanted)]
            }
            (Format::SparseCsr, &[values, indices, indptr]) => {
                let rows = u128::from(object.shape[0]);
                let pointers = Wanted::Exactly(8 * (rows + 1));
                let mut wanted = self.values_and_indices(object, values, indices, 8);
                wanted.push((indptr, pointers));
                wanted
            }
            (Format::SparseCoo, &[values, coords]) => {
                let each = 8 * object.shape.len() as u128;
                self.values_and_indices(object, values, coords, each)
            }
            _ => Vec::new(),
        }
    }

    /// Values without remainder, and index numbers of so many bytes for each of them. A type without ratio tells no number of
    /// elements: then both are only to be whole.
    fn values_and_indices(
        &self,
        object: &Object,
        values: usize,
        indices: usize,
        each: u128,
    ) -> Vec<(usize, Wanted)> {
        let (of_values, of_indices) = match self.element_bytes(object, values) {
            Some(element) => {
                let n = u128::from(object.components[values].length / element);
                (Wanted::MultipleOf(element), Wanted::Exactly(each * n))
            }
            None => (whole_numbers(object, values), Wanted::MultipleOf(8)),
        };
        vec![(values, of_values), (indices, of_indices)]
    }

    fn element_bytes(&self, object: &Object, at: usize) -> Option<u64> {
        let component = &object.components[at];
        let logical = component.logical.clone().map(|span| &self.bytes[span]);
        types::element_bytes(component.dtype, logical)
    }

    /// Kind, keys and repeats of a root, object or component map; its known fields' values.
    pub fn fields<'t, const N: usize>(
        &self,
        map: &'t Node,
        known: [&str; N],
    ) -> Result<[Option<&'t Node>; N], u8> {
        let pairs = self.keyed_pairs(map)?;
        let mut values = [None; N];
        for (key, value) in pairs {
            let field = known
                .iter()
                .position(|name| name.as_bytes() == &self.bytes[key.clone()]);
            if let Some(field) = field {
                if values[field].replace(value).is_some() {
                    return Err(TWICE);
                }
            }
        }
        Ok(values)
    }

    /// Kind, keys, UTF-8, count and repeats of `objects` or `components`; names and entries.
    pub fn names<'t>(&self, map: &'t Node, limit: usize) -> Result<Entries<'t>, u8> {
        let pairs = self.keyed_pairs(map)?;
        if !pairs.iter().all(|(name, _)| is_utf8(self.at(name))) {
            return Err(TEXT);
        }
        if pairs.len() > limit {
            return Err(COUNT);
        }
        let mut seen = HashSet::new();
        if !pairs.iter().all(|(name, _)| seen.insert(self.at(name))) {
            return Err(TWICE);
        }
        Ok(pairs)
    }

    /// Kind and keys: a map whose keys are all whole text.
    fn keyed_pairs<'t>(&self, map: &'t Node) -> Result<Entries<'t>, u8> {
        let Kind::Map(pairs) = &map.kind else {
            return Err(KIND);
        };
        pairs
            .iter()
            .map(|(key, value)| Ok((text(key).map_err(|_| KEY)?, value)))
            .collect()
    }

    pub fn utf8_text(&self, node: &Node) -> Result<Span, u8> {
        let span = text(node)?;
        if is_utf8(self.at(&span)) {
            Ok(span)
        } else {
            Err(TEXT)
        }
    }

    /// A type or a digest, for which null counts as absent.
    pub fn optional_text(&self, node: Option<&Node>) -> Result<Option<Span>, u8> {
        present(node).map(|node| self.utf8_text(node)).transpose()
    }

    fn at(&self, span: &Span) -> &'a [u8] {
        &self.bytes[span.clone()]
    }
}

/// The content of whole text.
pub fn text(node: &Node) -> Result<Span, u8> {
    match &node.kind {
        Kind::Text(content) => Ok(content.clone()),
        _ => Err(KIND),
    }
}

pub fn unsigned(node: &Node) -> Result<u64, u8> {
    match node.kind {
        Kind::Unsigned(number) => Ok(number),
        _ => Err(KIND),
    }
}

/// The kinds of the shape and of all its elements, then the rank limit.
pub fn dimensions(node: &Node) -> Result<Vec<u64>, u8> {
    let Kind::Array(elements) = &node.kind else {
        return Err(KIND);
    };
    let shape: Vec<u64> = elements.iter().map(unsigned).collect::<Result<_, _>>()?;
    if shape.len() > RANK_LIMIT {
        return Err(COUNT);
    }
    Ok(shape)
}

/// The span of attributes, head included.
fn attributes_span(node: &Node) -> Result<Span, u8> {
    match node.kind {
        Kind::Map(_) => Ok(node.start..node.end),
        _ => Err(KIND),
    }
}

/// Drops an explicit null.
fn present(node: Option<&Node>) -> Option<&Node> {
    node.filter(|node| !matches!(node.kind, Kind::Simple(22)))
}

/// The major run of a version: two or three runs of 1 to 9 digits joined by dots.
pub fn major(version: &[u8]) -> Option<&[u8]> {
    let runs: Vec<&[u8]> = version.split(|&byte| byte == b'.').collect();
    let sound = |run: &&[u8]| {
        (1..=9).contains(&run.len())
            && run.iter().all(u8::is_ascii_digit)
            && (run.len() == 1 || run[0] != b'0')
    };
    ((2..=3).contains(&runs.len()) && runs.iter().all(sound)).then(|| runs[0])
}

/// What a format asks of a component's length.
enum Wanted {
    Exactly(u128),
    MultipleOf(u64),
}

impl Wanted {
    fn is_met_by(&self, length: u64) -> bool {
        match *self {
            Wanted::Exactly(wanted) => u128::from(length) == wanted,
            Wanted::MultipleOf(bytes) => length % bytes == 0,
        }
    }
}

/// Of a type without ratio: numbers of its dtype.
fn whole_numbers(object: &Object, at: usize) -> Wanted {
    Wanted::MultipleOf(types::DTYPES[object.components[at].dtype].1)
}
