//! A CBOR encoder with a free choice of argument widths and of definite or indefinite containers.

/// An item to write. Chunked strings are items of their own, since they mean something else than
/// whole ones; `Raw` is written as it stands, well-formed or not.
#[derive(Clone, Debug)]
pub enum Item {
    Unsigned(u64),
    /// The number −1 − n.
    Negative(u64),
    Bytes(Vec<u8>),
    ChunkedBytes(Vec<Vec<u8>>),
    Text(Vec<u8>),
    ChunkedText(Vec<Vec<u8>>),
    Array(Vec<Item>),
    Map(Vec<(Item, Item)>),
    Tag(u64, Box<Item>),
    /// Below 24 in one byte, else in two: so 24 to 31 come out malformed (RFC 8949, section 3.3).
    Simple(u8),
    Half(u16),
    Single(u32),
    Double(u64),
    Raw(Vec<u8>),
}

/// What doesn't change an item's meaning: asked anew at each head.
pub trait Style {
    /// How many steps wider than the shortest an argument is written, as far as there are steps.
    fn wider(&mut self) -> usize;
    /// Whether an array or a map is written with a break.
    fn indefinite(&mut self) -> bool;
}

/// The writer's own style.
pub struct Shortest;

impl Style for Shortest {
    fn wider(&mut self) -> usize {
        0
    }

    fn indefinite(&mut self) -> bool {
        false
    }
}

/// The bytes of a head.
pub struct Head {
    bytes: [u8; 9],
    used: usize,
}

impl Head {
    /// A head whose argument is `wider` steps wider than the shortest: 0, 1, 2, 4 or 8 bytes.
    pub fn new(major: u8, argument: u64, wider: usize) -> Head {
        let shortest = match argument {
            0..=23 => 0,
            24..=0xFF => 1,
            0x100..=0xFFFF => 2,
            0x1_0000..=0xFFFF_FFFF => 3,
            _ => 4,
        };
        let step = (shortest + wider).min(4);
        let width = [0, 1, 2, 4, 8][step];
        let low = match step {
            0 => argument as u8,
            _ => 23 + step as u8,
        };
        let mut bytes = [0; 9];
        bytes[0] = major << 5 | low;
        bytes[1..=width].copy_from_slice(&argument.to_be_bytes()[8 - width..]);
        Head {
            bytes,
            used: 1 + width,
        }
    }

    pub fn bytes(&self) -> &[u8] {
        &self.bytes[..self.used]
    }
}

impl Item {
    pub fn text(text: impl AsRef<[u8]>) -> Item {
        Item::Text(text.as_ref().to_vec())
    }

    /// A map whose keys are whole texts.
    pub fn map<const N: usize>(pairs: [(&str, Item); N]) -> Item {
        Item::Map(
            pairs
                .into_iter()
                .map(|(key, value)| (Item::text(key), value))
                .collect(),
        )
    }

    pub fn null() -> Item {
        Item::Simple(22)
    }

    pub fn tagged(self, number: u64) -> Item {
        Item::Tag(number, Box::new(self))
    }

    /// The item in the writer's own style.
    pub fn shortest(&self) -> Vec<u8> {
        self.encoded(&mut Shortest)
    }

    pub fn encoded(&self, style: &mut impl Style) -> Vec<u8> {
        let mut out = Vec::new();
        self.encode(style, &mut out);
        out
    }

    fn encode(&self, style: &mut impl Style, out: &mut Vec<u8>) {
        match self {
            Item::Unsigned(n) => head(0, *n, style, out),
            Item::Negative(n) => head(1, *n, style, out),
            Item::Bytes(bytes) => string(2, bytes, style, out),
            Item::ChunkedBytes(chunks) => chunked(2, chunks, style, out),
            Item::Text(bytes) => string(3, bytes, style, out),
            Item::ChunkedText(chunks) => chunked(3, chunks, style, out),
            Item::Array(items) => {
                let closed = open(4, items.len(), style, out);
                items.iter().for_each(|item| item.encode(style, out));
                out.extend(closed);
            }
            Item::Map(pairs) => {
                let closed = open(5, pairs.len(), style, out);
                for (key, value) in pairs {
                    key.encode(style, out);
                    value.encode(style, out);
                }
                out.extend(closed);
            }
            Item::Tag(number, content) => {
                head(6, *number, style, out);
                content.encode(style, out);
            }
            Item::Simple(n) if *n < 24 => out.push(0xE0 | n),
            Item::Simple(n) => out.extend([0xF8, *n]),
            Item::Half(bits) => {
                out.push(0xF9);
                out.extend(bits.to_be_bytes());
            }
            Item::Single(bits) => {
                out.push(0xFA);
                out.extend(bits.to_be_bytes());
            }
            Item::Double(bits) => {
                out.push(0xFB);
                out.extend(bits.to_be_bytes());
            }
            Item::Raw(bytes) => out.extend(bytes),
        }
    }
}

fn head(major: u8, argument: u64, style: &mut impl Style, out: &mut Vec<u8>) {
    out.extend_from_slice(Head::new(major, argument, style.wider()).bytes());
}

fn string(major: u8, bytes: &[u8], style: &mut impl Style, out: &mut Vec<u8>) {
    head(major, bytes.len() as u64, style, out);
    out.extend_from_slice(bytes);
}

fn chunked(major: u8, chunks: &[Vec<u8>], style: &mut impl Style, out: &mut Vec<u8>) {
    out.push(major << 5 | 31);
    for chunk in chunks {
        string(major, chunk, style, out);
    }
    out.push(0xFF);
}

/// Writes a container's head; gives the break byte that closes it, if it is to have one.
fn open(major: u8, count: usize, style: &mut impl Style, out: &mut Vec<u8>) -> Option<u8> {
    if style.indefinite() {
        out.push(major << 5 | 31);
        return Some(0xFF);
    }
    head(major, count as u64, style, out);
    None
}
