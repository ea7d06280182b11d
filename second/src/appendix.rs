//! The 82 items of RFC 7049's Appendix A, which are RFC 8949's and simple(24), and files that hold them, with the answer that 01 gives each.

use crate::cases::{Case, Place};
use crate::encode::Item;
use crate::frame;
use crate::refusal::{CBOR, KEY, KIND, MISSING};

pub struct Example {
    pub bytes: Vec<u8>,
    pub diagnostic: &'static str,
}

pub fn examples() -> Vec<Example> {
    let table = include_str!("../data/appendix_a.tsv");
    table.lines().skip(1).map(example).collect()
}

/// Files for each example: in all three kinds of map, as attributes, and as a manifest.
pub fn files() -> Vec<Case> {
    examples().iter().flat_map(Example::files).collect()
}

fn example(line: &'static str) -> Example {
    let (hex, rest) = line.split_once('\t').expect("three columns");
    let (diagnostic, _) = rest.rsplit_once('\t').expect("three columns");
    let byte = |at| u8::from_str_radix(&hex[at..at + 2], 16).expect("two digits make a byte");
    Example {
        bytes: (0..hex.len()).step_by(2).map(byte).collect(),
        diagnostic,
    }
}

impl Example {
    /// RFC 8949 took one item out of the table: a simple value below 32 in two bytes.
    pub fn is_well_formed(&self) -> bool {
        self.bytes != [0xF8, 24]
    }

    fn is_map(&self) -> bool {
        self.bytes[0] >> 5 == 5
    }

    /// As an unknown value in each of the three kinds of map, as both kinds of attributes, and as a whole manifest.
    fn files(&self) -> Vec<Case> {
        let held = |what: &str, file, number| Case {
            what: format!("{} as {what}", self.diagnostic),
            file,
            number: if self.is_well_formed() { number } else { CBOR },
        };
        let item = || Item::Raw(self.bytes.clone());
        let unknown = |place: Place| {
            let what = format!("an unknown value in the {place:?}");
            held(&what, place.file("x", item()), 0)
        };
        let mut files: Vec<Case> = Place::ALL.map(unknown).into();
        for place in [Place::Root, Place::Object] {
            let number = if self.is_map() { 0 } else { KIND };
            let what = format!("attributes of the {place:?}");
            files.push(held(&what, place.file("attributes", item()), number));
        }
        let whole = frame::assemble(&[], &self.bytes);
        files.push(held("the manifest", whole, self.as_manifest()));
        files
    }

    /// Maps are without version, unless a key isn't text.
    fn as_manifest(&self) -> u8 {
        match self.diagnostic {
            "{1: 2, 3: 4}" => KEY,
            _ if self.is_map() => MISSING,
            _ => KIND,
        }
    }
}
