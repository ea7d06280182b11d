//! CBOR (RFC 8949) bytes to a tree whose nodes know their spans, or refusal 6 or 7 with its place.

use crate::refusal::{CBOR, DEEP};
use std::ops::Range;

/// The deepest an item may stand; the root stands at depth 1.
pub const DEPTH: u32 = 32;

const BREAK: u8 = 0xFF;

/// One item; `start..end` holds its head, its contents and its break.
#[derive(Debug)]
pub struct Node {
    pub start: usize,
    pub end: usize,
    pub kind: Kind,
}

/// What an item means. Widths of arguments and indefinite containers are forgotten.
#[derive(Debug)]
pub enum Kind {
    Unsigned(u64),
    /// The number −1 − n.
    Negative(u64),
    Bytes(Range<usize>),
    ChunkedBytes(Vec<u8>),
    Text(Range<usize>),
    ChunkedText(Vec<u8>),
    Array(Vec<Node>),
    Map(Vec<(Node, Node)>),
    Tag(u64, Box<Node>),
    Simple(u8),
    Float {
        width: u8,
        bits: u64,
    },
}

/// Refusal 6 or 7 and the first byte of the head met, or the end of the bytes if they ended early.
#[derive(Clone, Copy, Debug, PartialEq, Eq)]
pub struct Fault {
    pub number: u8,
    pub place: usize,
}

/// Decodes a manifest: one item, at depth 1, that fills the bytes exactly.
pub fn decode(manifest: &[u8]) -> Result<Node, Fault> {
    let root = first_item(manifest, DEPTH)?;
    if root.end == manifest.len() {
        Ok(root)
    } else {
        Err(malformed(root.end))
    }
}

/// Decodes the item at the front, bytes after it allowed. `levels` counts the depths that the item
/// and what it holds may take: 32 for a root, 31 for what stands at depth 2.
pub fn first_item(bytes: &[u8], levels: u32) -> Result<Node, Fault> {
    Decoder { bytes, at: 0 }.item(levels)
}

/// How many bytes the item at the front takes, or 6 or 7.
pub fn skip_item(bytes: &[u8], levels: u32) -> Result<usize, u8> {
    first_item(bytes, levels)
        .map(|node| node.end)
        .map_err(|fault| fault.number)
}

fn malformed(place: usize) -> Fault {
    Fault {
        number: CBOR,
        place,
    }
}

struct Head {
    major: u8,
    low: u8,
    /// None for an indefinite length.
    argument: Option<u64>,
}

struct Decoder<'a> {
    bytes: &'a [u8],
    at: usize,
}

impl Decoder<'_> {
    /// Reads an item that is due here. A break isn't an item, so it is 6 at any depth.
    fn item(&mut self, levels: u32) -> Result<Node, Fault> {
        let start = self.at;
        match self.peek()? {
            BREAK => return Err(malformed(start)),
            _ if levels == 0 => {
                return Err(Fault {
                    number: DEEP,
                    place: start,
                })
            }
            _ => {}
        }
        let head = self.head()?;
        let kind = self.contents(start, head, levels - 1)?;
        Ok(Node {
            start,
            end: self.at,
            kind,
        })
    }

    /// Reads what the head at `start` announces; what it holds may take `levels` depths.
    fn contents(&mut self, start: usize, head: Head, levels: u32) -> Result<Kind, Fault> {
        Ok(match (head.major, head.argument) {
            (0, Some(n)) => Kind::Unsigned(n),
            (1, Some(n)) => Kind::Negative(n),
            (2, Some(length)) => Kind::Bytes(self.take(length)?),
            (2, None) => Kind::ChunkedBytes(self.chunks(2)?),
            (3, Some(length)) => Kind::Text(self.take(length)?),
            (3, None) => Kind::ChunkedText(self.chunks(3)?),
            (4, count) => Kind::Array(self.many(count, |this| this.item(levels))?),
            (5, count) => {
                Kind::Map(self.many(count, |this| Ok((this.item(levels)?, this.item(levels)?)))?)
            }
            (6, Some(number)) => Kind::Tag(number, Box::new(self.item(levels)?)),
            (7, Some(bits)) if head.low > 24 => Kind::Float {
                width: 1 << (head.low - 24),
                bits,
            },
            // RFC 8949, section 3.3: a simple value below 32 takes no second byte.
            (7, Some(0..=31)) if head.low == 24 => return Err(malformed(start)),
            (7, Some(number)) => Kind::Simple(number as u8),
            // An indefinite length is right only for strings, arrays and maps.
            _ => return Err(malformed(start)),
        })
    }

    /// Reads elements or pairs: as many as counted, or up to the break. The count is never trusted
    /// for memory, since the bytes may end long before it is met.
    fn many<T>(
        &mut self,
        count: Option<u64>,
        mut one: impl FnMut(&mut Self) -> Result<T, Fault>,
    ) -> Result<Vec<T>, Fault> {
        let mut held = Vec::new();
        match count {
            Some(count) => {
                for _ in 0..count {
                    held.push(one(self)?);
                }
            }
            None => {
                while !self.closed()? {
                    held.push(one(self)?);
                }
            }
        }
        Ok(held)
    }

    /// Joins the chunks of an indefinite string: definite strings of the same major type.
    fn chunks(&mut self, major: u8) -> Result<Vec<u8>, Fault> {
        let mut joined = Vec::new();
        while !self.closed()? {
            let start = self.at;
            if self.peek()? >> 5 != major {
                return Err(malformed(start));
            }
            let length = self.head()?.argument.ok_or(malformed(start))?;
            let chunk = self.take(length)?;
            joined.extend_from_slice(&self.bytes[chunk]);
        }
        Ok(joined)
    }

    /// Passes over the break byte if it stands here.
    fn closed(&mut self) -> Result<bool, Fault> {
        let closed = self.peek()? == BREAK;
        if closed {
            self.at += 1;
        }
        Ok(closed)
    }

    fn head(&mut self) -> Result<Head, Fault> {
        let start = self.at;
        let initial = self.peek()?;
        self.at += 1;
        let (major, low) = (initial >> 5, initial & 31);
        let argument = match low {
            0..=23 => Some(u64::from(low)),
            24..=27 => {
                let wide = self.take(1 << (low - 24))?;
                Some(big_endian(&self.bytes[wide]))
            }
            31 => None,
            _ => return Err(malformed(start)),
        };
        Ok(Head {
            major,
            low,
            argument,
        })
    }

    fn peek(&self) -> Result<u8, Fault> {
        self.bytes.get(self.at).copied().ok_or(self.ended_early())
    }

    fn take(&mut self, length: u64) -> Result<Range<usize>, Fault> {
        let left = self.bytes.len() - self.at;
        match usize::try_from(length) {
            Ok(length) if length <= left => {
                let start = self.at;
                self.at += length;
                Ok(start..self.at)
            }
            _ => Err(self.ended_early()),
        }
    }

    fn ended_early(&self) -> Fault {
        malformed(self.bytes.len())
    }
}

fn big_endian(bytes: &[u8]) -> u64 {
    bytes.iter().fold(0, |n, &b| n << 8 | u64::from(b))
}
