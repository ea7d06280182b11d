//! A refused file repaired at the bytes that its explanation shows (Req 08), where that is simple; and which turn a refusal has in 01's order of checks:
//! a repair must move it on.

use crate::cbor::{self, Kind, Node};
use crate::encode::{Head, Item};
use crate::explain::Explanation;
use crate::frame::{MAGIC, SIZE_LIMIT};
use crate::judge::COMPONENT_LIMIT;
use crate::layout::{Layout, COMPONENT, OBJECT, ROOT};
use crate::refusal::{
    ALIGN, BIG, BOUNDS, CBOR, COUNT, DEEP, FIT, FOOTER, HEADER, KEY, KIND, LENGTH, MISSING, RANK,
    ROLE, ROOM, SHORT, TEXT, TWICE,
};
use crate::rows::Part;
use crate::types::{Format, U64};
use std::cmp::Reverse;
use std::ops::Range;

/// The levels of the maps that hold names.
const OBJECTS: usize = 1;
const COMPONENTS: usize = 3;

/// What stands between header and manifest at least, so that an empty component may be at 64.
const BLOBS: usize = 64 - 8;

type Span = Range<usize>;
/// A part of the manifest, and what comes in its place.
type Edit = (Span, Vec<u8>);

/// The file without this fault; nothing where a repair isn't simple: of what is malformed or too deep, and of lengths.
pub fn repaired(layout: Layout, file: &[u8], why: &Explanation) -> Option<Vec<u8>> {
    let mut whole = file.to_vec();
    let most = (file.len() as u64).saturating_sub(layout.frame() as u64);
    match why.number as u8 {
        0 | ROOM | DEEP | LENGTH => return None,
        SHORT => whole.resize(layout.frame(), 0),
        HEADER => whole[..8].copy_from_slice(MAGIC),
        FOOTER => whole[file.len() - 8..].copy_from_slice(MAGIC),
        BIG | FIT if most == 0 => return None,
        BIG | FIT => layout.set_size(&mut whole, most.min(SIZE_LIMIT)),
        number => {
            let range = range(layout, file);
            let mut blobs = file[8..range.start].to_vec();
            blobs.resize(blobs.len().max(BLOBS), 0);
            let manifest = match number {
                CBOR => complete(&file[range.clone()], why.span.place as usize - range.start)?,
                _ => Fault::of(layout, file, why).repaired()?,
            };
            whole = layout.assemble(&blobs, &manifest);
        }
    }
    Some(whole)
}

/// Greater for what is checked later.
pub fn turn(layout: Layout, file: &[u8], why: &Explanation) -> [u64; 8] {
    match why.number as u8 {
        0 | ROOM => [u64::MAX; 8],
        CBOR | DEEP => [
            u64::from(CBOR),
            why.span.place,
            why.span.length,
            0,
            0,
            0,
            0,
            0,
        ],
        number if number < CBOR => [why.number, 0, 0, 0, 0, 0, 0, 0],
        _ => Fault::of(layout, file, why).turn(),
    }
}

/// Where the manifest stands.
fn range(layout: Layout, file: &[u8]) -> Span {
    layout.manifest_range(file).expect("a sound frame")
}

/// The manifest without the bytes left over, or with one more where it ended early; that byte is an item, an argument or a simple value.
fn complete(manifest: &[u8], place: usize) -> Option<Vec<u8>> {
    let ended_early = place == manifest.len();
    let left_over = cbor::skip_item(manifest, cbor::DEPTH) == Ok(place);
    match (ended_early, left_over) {
        (true, _) => Some([manifest, &[0x20]].concat()),
        (_, true) => Some(manifest[..place].to_vec()),
        _ => None,
    }
}

/// A fault of the manifest's tree, which is sound CBOR.
struct Fault<'a> {
    layout: Layout,
    bytes: &'a [u8],
    root: Node,
    span: Span,
    why: &'a Explanation,
}

/// What stands at a fault: a pair's key or value, or an element of the value.
struct Spot<'t> {
    map: &'t Node,
    level: usize,
    key: &'t Node,
    value: &'t Node,
    at: At,
}

#[derive(Clone, Copy, PartialEq, Eq)]
enum At {
    Key,
    Value,
    Within,
}

impl<'a> Fault<'a> {
    fn of(layout: Layout, file: &'a [u8], why: &'a Explanation) -> Fault<'a> {
        let range = range(layout, file);
        let place = why.span.place as usize - range.start;
        let bytes = &file[range];
        Fault {
            layout,
            bytes,
            root: cbor::decode(bytes).expect("sound CBOR"),
            span: place..place + why.span.length as usize,
            why,
        }
    }

    /// None for the manifest's own item.
    fn spot(&self) -> Option<Spot<'_>> {
        self.find(&self.root, ROOT)
    }

    fn find<'t>(&self, map: &'t Node, level: usize) -> Option<Spot<'t>> {
        let is = |node: &Node| (node.start..node.end) == self.span;
        let (key, value) = pairs(map)
            .iter()
            .find(|(key, value)| key.start <= self.span.start && self.span.end <= value.end)?;
        let at = match () {
            () if is(key) => At::Key,
            () if is(value) => At::Value,
            () => At::Within,
        };
        let holder = match level {
            ROOT => self.is_key(key, self.layout.objects()),
            OBJECT => self.is_key(key, "components"),
            COMPONENT => false,
            _ => true,
        };
        match at == At::Within && holder {
            true => self.find(value, level + 1),
            false => Some(Spot {
                map,
                level,
                key,
                value,
                at,
            }),
        }
    }

    fn is_key(&self, key: &Node, name: &str) -> bool {
        matches!(&key.kind, Kind::Text(text) if &self.bytes[text.clone()] == name.as_bytes())
    }

    fn field<'t>(&self, map: &'t Node, name: &str) -> Option<&'t Node> {
        let mut all = pairs(map).iter();
        all.find(|(key, _)| self.is_key(key, name))
            .map(|(_, value)| value)
    }

    /// The level of the map at the span.
    fn level(spot: &Option<Spot>) -> usize {
        spot.as_ref().map_or(ROOT, |spot| spot.level + 1)
    }

    fn repaired(&self) -> Option<Vec<u8>> {
        let mut manifest = self.bytes.to_vec();
        let mut edits = self.edits()?;
        edits.sort_by_key(|(span, _)| Reverse(span.start));
        for (span, bytes) in edits {
            manifest.splice(span, bytes);
        }
        Some(manifest)
    }

    fn edits(&self) -> Option<Vec<Edit>> {
        let spot = self.spot();
        let instead = |item: Item| Some(vec![(self.span.clone(), item.shortest())]);
        let empty = || Item::Map(Vec::new());
        let number = self.why.number as u8;
        match (number, &spot) {
            // A name that no other has: later places are greater.
            (KEY | TEXT, _) => instead(Item::text(format!("?{}", self.span.start))),
            (TWICE, Some(spot)) => Some(self.without(spot)),
            (MISSING, _) => Some(self.added(self.node(&spot), &self.missing(&spot))),
            (COUNT, Some(Spot { value, .. })) if matches!(value.kind, Kind::Map(_)) => {
                instead(empty())
            }
            (KIND, None) => instead(empty()),
            (KIND, Some(spot)) if matches!(spot.level, OBJECTS | COMPONENTS) => instead(empty()),
            (KIND, Some(spot)) if spot.at == At::Within => instead(Item::Unsigned(0)),
            (RANK, _) => instead(Item::Array(vec![Item::Unsigned(0); 2])),
            (ROLE, Some(spot)) if spot.level == OBJECT => self.with_roles(spot),
            (ROLE, _) => instead(self.index_component()),
            (BOUNDS, Some(spot)) => {
                let length = self.field(spot.map, "length")?;
                let mut edits = instead(self.right(spot))?;
                edits.push((length.start..length.end, Item::Unsigned(0).shortest()));
                Some(edits)
            }
            (_, Some(spot)) => instead(self.right(spot)),
            _ => None,
        }
    }

    /// The item at the span.
    fn node<'t>(&'t self, spot: &Option<Spot<'t>>) -> &'t Node {
        spot.as_ref().map_or(&self.root, |spot| spot.value)
    }

    /// A value that is right for the field of this spot.
    fn right(&self, spot: &Spot) -> Item {
        let known = self.layout.fields()[spot.level];
        let name = known.iter().find(|name| self.is_key(spot.key, name));
        self.sound(name.expect("a known field"))
    }

    fn sound(&self, name: &str) -> Item {
        match name {
            "version" => Item::text("1.2.0"),
            "format" => Item::text(""),
            "shape" => Item::Array(Vec::new()),
            "dtype" => Item::text(self.layout.dtype_name(U64)),
            "encoding" => Item::text("raw"),
            "type" | "digest" => Item::null(),
            "offset" => Item::Unsigned(64),
            "length" | "uncompressed_length" => Item::Unsigned(0),
            _ => Item::Map(Vec::new()),
        }
    }

    /// The required fields that the map at the span lacks.
    fn missing(&self, spot: &Option<Spot>) -> Vec<(Item, Item)> {
        let optional = [
            "attributes",
            "type",
            "uncompressed_length",
            "encoding",
            "digest",
        ];
        let known = self.layout.fields()[Self::level(spot)];
        let map = self.node(spot);
        let lacking = known.iter().filter(|name| self.field(map, name).is_none());
        lacking
            .filter(|name| !optional.contains(name))
            .map(|name| (Item::text(name), self.sound(name)))
            .collect()
    }

    /// An empty component in an index role.
    fn index_component(&self) -> Item {
        let mut fields = vec![
            ("offset", Item::Unsigned(64)),
            ("length", Item::Unsigned(0)),
        ];
        if self.layout == Layout::Current {
            fields.push(("dtype", Item::text(self.layout.dtype_name(U64))));
        }
        let named = |(name, value)| (Item::text(name), value);
        Item::Map(fields.into_iter().map(named).collect())
    }

    /// The roles that the object's format asks for.
    fn roles(&self, object: &Node) -> &'static [&'static str] {
        match self.field(object, "format").map(|format| &format.kind) {
            Some(Kind::Text(text)) => Format::of(&self.bytes[text.clone()]).roles(),
            _ => &[],
        }
    }

    /// Every role that is absent from the components of this spot.
    fn with_roles(&self, spot: &Spot) -> Option<Vec<Edit>> {
        let absent = self
            .roles(spot.map)
            .iter()
            .filter(|role| self.field(spot.value, role).is_none());
        let added: Vec<_> = absent
            .map(|role| (Item::text(role), self.index_component()))
            .collect();
        let fit = pairs(spot.value).len() + added.len() <= COMPONENT_LIMIT;
        fit.then(|| self.added(spot.value, &added))
    }

    /// The map with these pairs at its end.
    fn added(&self, map: &Node, more: &[(Item, Item)]) -> Vec<Edit> {
        let bytes = |(key, value): &(Item, Item)| [key.shortest(), value.shortest()].concat();
        let end = map.end - usize::from(self.is_indefinite(map));
        let mut edits = vec![(end..end, more.iter().flat_map(bytes).collect())];
        edits.extend(self.counted(map, pairs(map).len() + more.len()));
        edits
    }

    /// The map without the pair of this spot.
    fn without(&self, spot: &Spot) -> Vec<Edit> {
        let mut edits = vec![(spot.key.start..spot.value.end, Vec::new())];
        edits.extend(self.counted(spot.map, pairs(spot.map).len() - 1));
        edits
    }

    /// Another count in a map's head, if it has one.
    fn counted(&self, map: &Node, count: usize) -> Option<Edit> {
        let width = match self.bytes[map.start] & 31 {
            low @ 24..=27 => 1 << (low - 24),
            _ => 0,
        };
        let head = Head::new(5, count as u64, 0).bytes().to_vec();
        (!self.is_indefinite(map)).then_some((map.start..map.start + 1 + width, head))
    }

    fn is_indefinite(&self, map: &Node) -> bool {
        self.bytes[map.start] & 31 == 31
    }

    /// The root, an object's own fields, its components one after the other, the rules of its format; in a map its kind, keys, repeats, absent fields,
    /// values, and then the names in it.
    fn turn(&self) -> [u64; 8] {
        let spot = self.spot();
        let (number, why) = (self.why.number as u8, self.why);
        let given = |name: Part| u64::from(name != Part::default());
        let (object, component) = (given(why.object_name), given(why.component_name));
        let owner = [u64::from(CBOR) + 1 + object, why.object];
        if let RANK..=LENGTH = number {
            return [owner[0], owner[1], 2, why.number, self.role(&spot), 0, 0, 0];
        }
        let names = spot
            .as_ref()
            .is_some_and(|spot| matches!(spot.level, OBJECTS | COMPONENTS));
        let field = spot.as_ref().map_or(0, |spot| self.place_of(spot));
        let (stage, field) = match (number, &spot) {
            (KEY, _) => (if names { 5 } else { 1 }, 0),
            (TWICE, _) => (if names { 8 } else { 2 }, 0),
            // The root's objects are asked for after the version.
            (MISSING, None) if self.field(&self.root, "version").is_some() => (4, 2),
            (MISSING, _) => (3, 0),
            (KIND, None) => (0, 0),
            (KIND, _) if names => (0, 0),
            (TEXT, Some(spot)) if spot.at == At::Key => (6, 0),
            (COUNT, Some(Spot { value, .. })) if matches!(value.kind, Kind::Map(_)) => (7, 0),
            (ALIGN | BOUNDS, _) => (4, why.number),
            _ => (4, field),
        };
        let within = match spot {
            _ if number == COUNT => 2,
            Some(spot) if spot.at == At::Within => 1,
            _ => 0,
        };
        let right = u64::MAX - (self.bytes.len() - self.span.start) as u64;
        [
            owner[0],
            owner[1],
            component,
            why.component,
            stage,
            field,
            within,
            right,
        ]
    }

    /// A field's place in the order of checks.
    fn place_of(&self, spot: &Spot) -> u64 {
        let known = self.layout.fields()[spot.level];
        let place = known.iter().position(|name| self.is_key(spot.key, name));
        place.unwrap_or(0) as u64
    }

    /// Of ROLE the role's place in its format: that of the first one absent, or of the component at fault.
    fn role(&self, spot: &Option<Spot>) -> u64 {
        let Some(spot) = spot.as_ref().filter(|_| self.why.number as u8 == ROLE) else {
            return 0;
        };
        let place = match spot.level {
            OBJECT => {
                let mut roles = self.roles(spot.map).iter();
                roles.position(|role| self.field(spot.value, role).is_none())
            }
            _ => {
                let all = ["values", "indices", "indptr", "coords"];
                all.iter().position(|role| self.is_key(spot.key, role))
            }
        };
        place.expect("a role of the format") as u64
    }
}

fn pairs(map: &Node) -> &[(Node, Node)] {
    match &map.kind {
        Kind::Map(pairs) => pairs,
        _ => &[],
    }
}
