//! Why a file was refused (Req 08): the number and indices, the names they belong to, and the span at fault; and the sentence that says so.
//! Every check is made anew over the manifest's tree, in 01's order; the format's rules alone are asked of the judgement.

use crate::cbor::{self, Kind, Node};
use crate::described;
use crate::judge::{self, COMPONENT_LIMIT, OBJECT_LIMIT, RANK_LIMIT};
use crate::layout::{Layout, LONG_NAMES};
use crate::listing;
use crate::refusal::{
    Refusal, ALIGN, BIG, BOUNDS, COUNT, DTYPE, ENCODING, FIT, FOOTER, HEADER, KEY, KIND, LENGTH,
    MAJOR, MISSING, RANK, ROLE, ROOM, SHORT, TEXT, TWICE, TYPE, VERSION,
};
use crate::rows::Part;
use crate::types::{self, Format, DTYPES, U64};
use crate::utf8::is_utf8;
use std::collections::HashSet;
use std::ops::Range;

/// What `zt_explain` answers, in the order of `zt_explanation`.
#[derive(Clone, Copy, Debug, Default, PartialEq, Eq)]
pub struct Explanation {
    pub number: u64,
    pub object: u64,
    pub component: u64,
    pub object_name: Part,
    pub component_name: Part,
    pub span: Part,
    pub room: u64,
}

impl Explanation {
    /// Its numbers in the order of the C struct.
    pub fn numbers(&self) -> [u64; 10] {
        [
            self.number,
            self.object,
            self.component,
            self.object_name.place,
            self.object_name.length,
            self.component_name.place,
            self.component_name.length,
            self.span.place,
            self.span.length,
            self.room,
        ]
    }
}

type Span = Range<usize>;

/// A check that breaks, and where.
#[derive(Clone, Debug)]
struct Broken {
    number: u8,
    span: Span,
    /// Index and name, where the refusal belongs to one.
    object: Option<(usize, Span)>,
    component: Option<(usize, Span)>,
}

/// A check's outcome: what it lets through, or the span at which it breaks.
type Checked<T> = Result<T, Broken>;

/// Pairs whose keys are whole text: the key's item, its content, the value.
type Pairs<'t> = Vec<(&'t Node, Span, &'t Node)>;

fn broken(number: u8, node: &Node) -> Broken {
    at(number, node.start..node.end)
}

fn at(number: u8, span: Span) -> Broken {
    Broken {
        number,
        span,
        object: None,
        component: None,
    }
}

/// The answer to a table of `room` numbers; none is lent.
pub fn explain(layout: u64, file: &[u8], room: u64) -> Explanation {
    let layout = Layout::of(layout);
    let range = match layout.manifest_range(file) {
        Ok(range) => range,
        Err(number) => return framed(layout, file.len(), number),
    };
    let manifest = &file[range.clone()];
    match explain_manifest(layout, manifest, range.start as u64) {
        Err(broken) => placed(&broken, range.start),
        Ok(needed) if needed > u128::from(room) => Explanation {
            number: ROOM.into(),
            room: needed as u64,
            ..Explanation::default()
        },
        Ok(_) => Explanation::default(),
    }
}

/// 1 the file, 2 the first eight bytes, 3 the last eight, 4 and 5 the size's eight.
fn framed(layout: Layout, length: usize, number: u8) -> Explanation {
    let (place, length) = match number {
        SHORT => (0, length),
        HEADER => (0, 8),
        FOOTER => (length - 8, 8),
        _ => (length - layout.footer() - 8, 8),
    };
    Explanation {
        number: number.into(),
        span: Part {
            place: place as u64,
            length: length as u64,
        },
        ..Explanation::default()
    }
}

/// Spans of the manifest as spans of the file.
fn placed(broken: &Broken, manifest_start: usize) -> Explanation {
    let part = |span: &Span| Part {
        place: (manifest_start + span.start) as u64,
        length: span.len() as u64,
    };
    let index = |belongs: &Option<(usize, Span)>| belongs.as_ref().map_or(0, |(at, _)| *at as u64);
    let name = |belongs: &Option<(usize, Span)>| {
        belongs
            .as_ref()
            .map_or(Part::default(), |(_, name)| part(name))
    };
    Explanation {
        number: broken.number.into(),
        object: index(&broken.object),
        component: index(&broken.component),
        object_name: name(&broken.object),
        component_name: name(&broken.component),
        span: part(&broken.span),
        room: 0,
    }
}

/// The room that the rows need, or the first check that breaks.
fn explain_manifest(layout: Layout, manifest: &[u8], manifest_start: u64) -> Checked<u128> {
    let root = cbor::decode(manifest).map_err(|fault| {
        // The empty span if the manifest ended early.
        let end = manifest.len().min(fault.place + 1);
        at(fault.number, fault.place..end)
    })?;
    let walk = Walk {
        layout,
        bytes: manifest,
        manifest_start,
    };
    let objects = walk.root(&root)?;
    let judged = layout
        .judge_entries(manifest, manifest_start)
        .expect("the root's checks were passed");
    let mut accepted = Vec::new();
    let entries = objects.into_iter().zip(judged.objects);
    for (index, ((_, name, entry), judged)) in entries.enumerate() {
        let own = |broken| Broken {
            object: Some((index, name.clone())),
            ..broken
        };
        let fields = walk.object(entry).map_err(own)?;
        match judged {
            Ok(object) => accepted.push(object),
            Err(refusal) => return Err(own(walk.format_rule(&fields, refusal))),
        }
    }
    Ok(described::room(&accepted))
}

struct Walk<'a> {
    layout: Layout,
    bytes: &'a [u8],
    manifest_start: u64,
}

/// An object's values that the format's rules speak of.
struct ObjectFields<'t> {
    shape: &'t Node,
    format: Span,
    components: &'t Node,
    parts: Vec<ComponentFields<'t>>,
}

struct ComponentFields<'t> {
    name: Span,
    map: &'t Node,
    length: &'t Node,
    plain_u64: bool,
}

impl<'a> Walk<'a> {
    fn root<'t>(&self, root: &'t Node) -> Checked<Pairs<'t>> {
        let holder = self.layout.objects();
        let [version, attributes, objects] =
            self.fields(root, ["version", "attributes", holder])?;
        let version = version.ok_or(broken(MISSING, root))?;
        let text = self.text(version)?;
        match judge::major(&self.bytes[text]) {
            None => return Err(broken(VERSION, version)),
            Some(b"1") => {}
            Some(_) => return Err(broken(MAJOR, version)),
        }
        self.map(attributes)?;
        let objects = objects.ok_or(broken(MISSING, root))?;
        self.names(objects, OBJECT_LIMIT)
    }

    fn object<'t>(&self, entry: &'t Node) -> Checked<ObjectFields<'t>> {
        let missing = || broken(MISSING, entry);
        let [dtype, shape, format, attributes, components] = match self.layout {
            Layout::Current => {
                let known = ["shape", "format", "attributes", "components"];
                let [shape, format, attributes, components] = self.fields(entry, known)?;
                [None, shape, format, attributes, components]
            }
            Layout::First => {
                let known = ["dtype", "shape", "format", "components"];
                let [dtype, shape, format, components] = self.fields(entry, known)?;
                dtype.ok_or_else(missing)?;
                [dtype, shape, format, None, components]
            }
        };
        let shape = shape.ok_or_else(missing)?;
        let format_node = format.ok_or_else(missing)?;
        let components = components.ok_or_else(missing)?;
        if let Some(dtype) = dtype {
            self.listed(dtype, &LONG_NAMES)?;
        }
        self.shape(shape)?;
        let format = self.utf8(format_node)?;
        self.map(attributes)?;
        let parts = self.parts(&format, components)?;
        Ok(ObjectFields {
            shape,
            format,
            components,
            parts,
        })
    }

    /// Each component of an object of this format.
    fn parts<'t>(&self, format: &Span, components: &'t Node) -> Checked<Vec<ComponentFields<'t>>> {
        let roles = Format::of(&self.bytes[format.clone()]).roles();
        let mut parts = Vec::new();
        for (index, (_, name, entry)) in self
            .names(components, COMPONENT_LIMIT)?
            .into_iter()
            .enumerate()
        {
            let own = |broken| Broken {
                component: Some((index, name.clone())),
                ..broken
            };
            let role = &self.bytes[name.clone()];
            let index_role = roles
                .iter()
                .any(|needed| types::is_index_role(needed) && needed.as_bytes() == role);
            let (length, plain_u64) = match self.layout {
                Layout::Current => self.component(entry).map_err(own)?,
                Layout::First => (self.placement(entry).map_err(own)?, index_role),
            };
            parts.push(ComponentFields {
                name,
                map: entry,
                length,
                plain_u64,
            });
        }
        Ok(parts)
    }

    /// The value of the length, and whether dtype and type are plain u64.
    fn component<'t>(&self, entry: &'t Node) -> Checked<(&'t Node, bool)> {
        let known = [
            "dtype",
            "type",
            "offset",
            "length",
            "uncompressed_length",
            "encoding",
            "digest",
        ];
        let [dtype, logical, offset, length, uncompressed, encoding, digest] =
            self.fields(entry, known)?;
        let missing = || broken(MISSING, entry);
        let dtype = dtype.ok_or_else(missing)?;
        let offset = offset.ok_or_else(missing)?;
        let length = length.ok_or_else(missing)?;
        let code = self.listed(dtype, &DTYPES.map(|(name, _)| name))?;
        let logical = logical.filter(|node| !is_null(node));
        if let Some(node) = logical {
            let text = self.utf8(node)?;
            let listed = types::listed_type(&self.bytes[text]);
            if listed.is_some_and(|listed| listed.dtype != code) {
                return Err(broken(TYPE, node));
            }
        }
        let numbers = (unsigned(offset)?, unsigned(length)?);
        if let Some(node) = uncompressed.filter(|node| !is_null(node)) {
            unsigned(node)?;
        }
        self.encoding_and_digest(encoding, digest)?;
        self.within(offset, numbers)?;
        Ok((length, code == U64 && logical.is_none()))
    }

    /// A component of layout 1.0: the value of the length.
    fn placement<'t>(&self, entry: &'t Node) -> Checked<&'t Node> {
        let [offset, length, encoding, digest] =
            self.fields(entry, ["offset", "length", "encoding", "digest"])?;
        let offset = offset.ok_or(broken(MISSING, entry))?;
        let length = length.ok_or(broken(MISSING, entry))?;
        let numbers = (unsigned(offset)?, unsigned(length)?);
        self.encoding_and_digest(encoding, digest)?;
        self.within(offset, numbers)?;
        Ok(length)
    }

    fn encoding_and_digest(&self, encoding: Option<&Node>, digest: Option<&Node>) -> Checked<()> {
        if let Some(node) = encoding {
            if &self.bytes[self.text(node)?] != b"raw" {
                return Err(broken(ENCODING, node));
            }
        }
        if let Some(node) = digest.filter(|node| !is_null(node)) {
            self.utf8(node)?;
        }
        Ok(())
    }

    fn within(&self, node: &Node, (offset, length): (u64, u64)) -> Checked<()> {
        if offset % 64 != 0 {
            return Err(broken(ALIGN, node));
        }
        let end = u128::from(offset) + u128::from(length);
        if offset < 64 || end > u128::from(self.manifest_start) {
            return Err(broken(BOUNDS, node));
        }
        Ok(())
    }

    /// Where a rule of the format breaks. An absent role belongs to the object, all else of 22 and 23 to its component.
    fn format_rule(&self, object: &ObjectFields, refusal: Refusal) -> Broken {
        let part = &object.parts.get(refusal.component as usize);
        let owned = |part: &ComponentFields, broken| Broken {
            component: Some((refusal.component as usize, part.name.clone())),
            ..broken
        };
        match (refusal.number, part) {
            (RANK, _) => broken(RANK, object.shape),
            (ROLE, _) => match self.odd_role(object) {
                Some(part) => owned(part, broken(ROLE, part.map)),
                None => broken(ROLE, object.components),
            },
            (LENGTH, Some(part)) => owned(part, broken(LENGTH, part.length)),
            (number, _) => panic!("refusal {number} is no rule of a format"),
        }
    }

    /// The component of the first role in fault, if it is there; nothing if that role is absent.
    fn odd_role<'t, 'u>(&self, object: &'u ObjectFields<'t>) -> Option<&'u ComponentFields<'t>> {
        for role in Format::of(&self.bytes[object.format.clone()]).roles() {
            let named = |part: &&ComponentFields| &self.bytes[part.name.clone()] == role.as_bytes();
            let part = object.parts.iter().find(named)?;
            if types::is_index_role(role) && !part.plain_u64 {
                return Some(part);
            }
        }
        None
    }

    /// Kind, keys and repeats of a root, object or component map; its known fields' values.
    fn fields<'t, const N: usize>(
        &self,
        map: &'t Node,
        known: [&str; N],
    ) -> Checked<[Option<&'t Node>; N]> {
        let mut values = [None; N];
        for (key, text, value) in self.pairs(map)? {
            let is_named = |name: &&str| name.as_bytes() == &self.bytes[text.clone()];
            if let Some(field) = known.iter().position(is_named) {
                if values[field].is_some() {
                    return Err(broken(TWICE, key));
                }
                values[field] = Some(value);
            }
        }
        Ok(values)
    }

    /// Kind, keys, UTF-8, count and repeats of a map of names.
    fn names<'t>(&self, map: &'t Node, limit: usize) -> Checked<Pairs<'t>> {
        let pairs = self.pairs(map)?;
        let text = |name: &Span| &self.bytes[name.clone()];
        if let Some((key, ..)) = pairs.iter().find(|(_, name, _)| !is_utf8(text(name))) {
            return Err(broken(TEXT, key));
        }
        if pairs.len() > limit {
            return Err(broken(COUNT, map));
        }
        let mut earlier = HashSet::new();
        if let Some((key, ..)) = pairs
            .iter()
            .find(|(_, name, _)| !earlier.insert(text(name)))
        {
            return Err(broken(TWICE, key));
        }
        Ok(pairs)
    }

    fn pairs<'t>(&self, map: &'t Node) -> Checked<Pairs<'t>> {
        let Kind::Map(pairs) = &map.kind else {
            return Err(broken(KIND, map));
        };
        pairs
            .iter()
            .map(|(key, value)| match &key.kind {
                Kind::Text(text) => Ok((key, text.clone(), value)),
                _ => Err(broken(KEY, key)),
            })
            .collect()
    }

    fn text(&self, node: &Node) -> Checked<Span> {
        match &node.kind {
            Kind::Text(text) => Ok(text.clone()),
            _ => Err(broken(KIND, node)),
        }
    }

    fn utf8(&self, node: &Node) -> Checked<Span> {
        let text = self.text(node)?;
        match is_utf8(&self.bytes[text.clone()]) {
            true => Ok(text),
            false => Err(broken(TEXT, node)),
        }
    }

    /// Attributes, where they are.
    fn map(&self, node: Option<&Node>) -> Checked<()> {
        match node {
            Some(node) if !matches!(node.kind, Kind::Map(_)) => Err(broken(KIND, node)),
            _ => Ok(()),
        }
    }

    /// A dtype's code.
    fn listed(&self, node: &Node, names: &[&str]) -> Checked<usize> {
        let text = self.text(node)?;
        let found = names
            .iter()
            .position(|name| name.as_bytes() == &self.bytes[text.clone()]);
        found.ok_or(broken(DTYPE, node))
    }

    fn shape(&self, node: &Node) -> Checked<()> {
        let Kind::Array(elements) = &node.kind else {
            return Err(broken(KIND, node));
        };
        for element in elements {
            unsigned(element)?;
        }
        match elements.len() > RANK_LIMIT {
            true => Err(broken(COUNT, node)),
            false => Ok(()),
        }
    }
}

fn unsigned(node: &Node) -> Checked<u64> {
    match node.kind {
        Kind::Unsigned(number) => Ok(number),
        _ => Err(broken(KIND, node)),
    }
}

fn is_null(node: &Node) -> bool {
    matches!(node.kind, Kind::Simple(22))
}

/// What `zt_sentence` answers: 0 and the length, or ROOM and 0.
#[derive(Clone, Copy, Debug, Default, PartialEq, Eq)]
pub struct Said {
    pub number: u64,
    pub length: u64,
}

impl Said {
    /// Its numbers in the order of the C struct.
    pub fn numbers(&self) -> [u64; 2] {
        [self.number, self.length]
    }
}

/// Puts the sentence, which stays as it was beyond it or if there isn't room for it.
pub fn sentence(layout: u64, file: &[u8], room: u64, text: &mut [u8]) -> Said {
    let said = sentence_text(layout, file, room);
    match text.get_mut(..said.len()) {
        None => Said {
            number: ROOM.into(),
            length: 0,
        },
        Some(part) => {
            part.copy_from_slice(&said);
            Said {
                number: 0,
                length: said.len() as u64,
            }
        }
    }
}

/// The sentence, one line.
pub fn sentence_text(layout: u64, file: &[u8], room: u64) -> Vec<u8> {
    let why = explain(layout, file, room);
    let number = why.number as u8;
    if number == 0 {
        return b"accepted\n".to_vec();
    }
    let (word, reason) = word_and_why(Layout::of(layout), number);
    let mut out = format!("refused {number} {word}: {reason}").into_bytes();
    for (what, name) in [
        ("object", why.object_name),
        ("component", why.component_name),
    ] {
        // A name that is given has a place, even if it is empty.
        if name != Part::default() {
            out.extend(format!("; {what} ").bytes());
            out.extend(listing::shown(file, name).expect("a name lies in its file"));
        }
    }
    let place = why.span.place;
    out.extend(
        match (number, why.span.length) {
            (ROOM, _) => format!("; {} numbers needed\n", why.room),
            (_, 0) => format!("; at byte {place}\n"),
            (_, length) => format!("; bytes {place} to {}\n", place + length - 1),
        }
        .bytes(),
    );
    out
}

/// 01's name of a refusal, and why it is given.
fn word_and_why(layout: Layout, number: u8) -> (&'static str, String) {
    let frame = layout.frame();
    let (word, why) = match number {
        SHORT => return ("SHORT", format!("file under {frame} bytes")),
        HEADER => ("HEADER", "first 8 wrong"),
        FOOTER => ("FOOTER", "last 8 wrong"),
        BIG => ("BIG", "manifest size over 16777216"),
        FIT => {
            let why = format!("manifest size 0 or over file length - {frame}");
            return ("FIT", why);
        }
        6 => ("CBOR", "malformed, ended early, or bytes left over"),
        7 => ("DEEP", "an item at depth 33 begins"),
        KIND => (
            "KIND",
            "known value of another kind, or chunked text in a known place",
        ),
        KEY => ("KEY", "a key or name isn't whole text"),
        TEXT => ("TEXT", "name, format, type or digest isn't UTF-8"),
        TWICE => ("TWICE", "a known field or a name repeated"),
        MISSING => ("MISSING", "required field absent"),
        VERSION => (
            "VERSION",
            "not two or three runs of 1 to 9 digits joined by dots, without leading zeros",
        ),
        MAJOR => ("MAJOR", "major isn't 1"),
        COUNT => (
            "COUNT",
            "over 1024 objects, 16 components an object or rank 8",
        ),
        DTYPE => ("DTYPE", "not one of the 13 dtypes"),
        ENCODING => ("ENCODING", "present and not raw"),
        TYPE => ("TYPE", "listed type over another dtype"),
        ALIGN => ("ALIGN", "offset not a multiple of 64"),
        BOUNDS => (
            "BOUNDS",
            "offset under 64, or offset + length over the manifest start",
        ),
        RANK => ("RANK", "sparse_csr not of rank 2"),
        ROLE => ("ROLE", "needed role absent, or index role not plain u64"),
        LENGTH => ("LENGTH", "length rule broken"),
        ROOM => ("ROOM", "lent table too short"),
        _ => panic!("no file is refused with {number}"),
    };
    (word, why.to_string())
}
